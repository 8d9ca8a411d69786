"""Drawn netlists, and what each gives under all assignments. For the scripts of this folder."""
import importlib.machinery
import importlib.util
import os
import pathlib
import random
import subprocess
import sys

TOP = pathlib.Path(__file__).resolve().parent.parent
PROGRAM = os.environ.get("RAMBO") or str(TOP / "crates/rambo/out/rambo")


class Wrong(Exception):
    pass


def expect(holds, what):
    if not holds:
        raise Wrong(what)


def need_program():
    if not os.access(PROGRAM, os.X_OK):
        sys.exit(f"There is no program {PROGRAM}: run examples/run first, or set RAMBO to the program's name.")


def second():
    """examples/second-check as a module."""
    sys.dont_write_bytecode = True
    loader = importlib.machinery.SourceFileLoader("second_check", str(TOP / "examples/second-check"))
    module = importlib.util.module_from_spec(importlib.util.spec_from_loader("second_check", loader))
    loader.exec_module(module)
    return module


def run(*words):
    done = subprocess.run([PROGRAM, *map(str, words)], capture_output=True, text=True)
    return done.returncode, done.stdout


# ---- drawn netlists: inputs, outputs, clocks, latches, and covers of inputs, an output, rows and the value in which they end


class Drawn:
    def __init__(self, inputs, outputs, clocks, latches, covers):
        self.inputs, self.outputs, self.clocks, self.latches, self.covers = inputs, outputs, clocks, latches, covers

    def copy(self):
        covers = [(list(inputs), output, list(rows), end) for inputs, output, rows, end in self.covers]
        return Drawn(list(self.inputs), list(self.outputs), list(self.clocks), [list(latch) for latch in self.latches], covers)

    def text(self, name):
        lines = [f".model {name}", " ".join([".inputs", *self.inputs]), " ".join([".outputs", *self.outputs])]
        if self.clocks:
            lines.append(" ".join([".clock", *self.clocks]))
        lines += [" ".join([".latch", *latch]) for latch in self.latches]
        for inputs, output, rows, end in self.covers:
            lines.append(" ".join([".names", *inputs, output]))
            lines += [f"{row} {end}".strip() for row in rows]
        return "".join(line + "\n" for line in [*lines, ".end"])


def drawn_rows(draw, width):
    if width == 0:
        return [""] if draw.random() < 0.5 else []
    return ["".join(draw.choice("01--" if width > 3 else "01-") for _ in range(width)) for _ in range(draw.randint(0 if draw.random() < 0.1 else 1, 4))]


def drawn(draw):
    inputs = [f"a{at}" for at in range(draw.randint(0, 6))]
    clocks = ["c"] if draw.random() < 0.2 else []
    states = [f"q{at}" for at in range(draw.randint(0, 2))]
    names, covers = inputs + clocks + states, []
    for at in range(draw.randint(1, 9)):
        reads = [draw.choice(names) for _ in range(draw.choice((0, 1, 2, 2, 3, 3, 4, 5)))] if names else []
        rows = drawn_rows(draw, len(reads))
        if len(reads) == 2 == len(set(reads)) and draw.random() < 0.4:
            rows = draw.choice((["10", "01"], ["01", "10"], ["11", "00"], ["00", "11"]))
        covers.append((reads, f"n{at}", rows, draw.choice("1110")))
        names = names + [f"n{at}"]
    gates = [output for _, output, _, _ in covers]
    latches = [[draw.choice(names), state] + draw.choice(([], ["0"], ["re", draw.choice(names), "2"])) for state in states]
    outputs = draw.sample(gates, draw.randint(1, min(3, len(gates))))
    if draw.random() < 0.05:
        outputs = []
    elif draw.random() < 0.2 and inputs:
        outputs.append(inputs[0])
    return Drawn(inputs, outputs, clocks, latches, covers)


# ---- what they give


def values(model):
    """The values of the observed names, each a number with a bit for each assignment. The first source is the highest bit of an assignment."""
    count, value = len(model.sources), {}
    every = (1 << (1 << count)) - 1
    for at, source in enumerate(model.sources):
        value[source] = sum(1 << number for number in range(1 << count) if number >> (count - 1 - at) & 1)
    for inputs, output, rows in model.needed():
        word = 0
        for row, _ in rows:
            term = every
            for name, literal in zip(inputs, row):
                term &= every if literal == "-" else value[name] if literal == "1" else every ^ value[name]
            word |= term
        value[output] = every ^ word if rows and rows[0][1] == "0" else word
    return [value[name] for name in model.observed]


def first_difference(ours, theirs):
    """The first place, from 1, where the lists differ or one has ended, or None."""
    for at in range(max(len(ours), len(theirs))):
        if ours[at:at + 1] != theirs[at:at + 1]:
            return at + 1
    return None
