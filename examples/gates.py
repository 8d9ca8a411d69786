"""The netlists that `rambo opt` writes: And, Or, Not and Xor gates, copies and constants. For the scripts of this folder."""
import sys


class Gate:
    """A cover that is no copy and no constant: its kind (and, or, not, xor), the names that it reads, and its output."""

    def __init__(self, kind, inputs, output):
        self.kind, self.inputs, self.output = kind, inputs, output


class Netlist:
    """A model as `rambo opt` writes it. `copies` are pairs of an output and the name, or the constant 0 or 1, that it shows."""

    def __init__(self, path):
        self.name, self.inputs, self.outputs, self.clocks, self.latches = "", [], [], [], []
        self.gates, self.copies = [], []
        covers = []
        for words in lines_of(path):
            head, rest = words[0], words[1:]
            if head == ".model":
                self.name = rest[0] if rest else "model"
            elif head == ".inputs":
                self.inputs += rest
            elif head == ".outputs":
                self.outputs += rest
            elif head == ".clock":
                self.clocks += rest
            elif head == ".latch":
                self.latches.append(rest)
            elif head == ".names":
                covers.append((rest[:-1], rest[-1], []))
            elif head == ".end":
                break
            elif not head.startswith("."):
                covers[-1][2].append(words)
        for inputs, output, rows in covers:
            self.add_cover(path, inputs, output, rows)
        clocked = [it for it in self.latches if len(it) >= 4 and it[3] != "NIL"]
        self.sources = self.inputs + [it for it in self.clocks if it not in self.inputs] + [it[1] for it in self.latches]
        self.observed = self.outputs + [it[0] for it in self.latches] + [it[3] for it in clocked]

    def add_cover(self, path, inputs, output, rows):
        count = len(inputs)
        if count == 0:
            self.copies.append((output, 1 if rows == [["1"]] else 0))
        elif rows == [["0", "1"]]:
            self.gates.append(Gate("not", inputs, output))
        elif rows == [["10", "1"], ["01", "1"]]:
            self.gates.append(Gate("xor", inputs, output))
        elif rows == [["1" * count, "1"]]:
            if count == 1:
                self.copies.append((output, inputs[0]))
            else:
                self.gates.append(Gate("and", inputs, output))
        elif rows == [["0" * count, "0"]] or rows == [["-" * at + "1" + "-" * (count - at - 1), "1"] for at in range(count)]:
            self.gates.append(Gate("or", inputs, output))
        else:
            sys.exit(f"{path}: the cover of {output} is no gate that rambo opt writes")

    def ordered(self):
        """The gates, each after those that it reads."""
        by_output, done, order = {gate.output: gate for gate in self.gates}, set(), []
        for gate in self.gates:
            waiting = [gate]
            while waiting:
                at = waiting[-1]
                ahead = [by_output[name] for name in at.inputs if name in by_output and name not in done]
                if ahead:
                    waiting += ahead
                    continue
                waiting.pop()
                if at.output not in done:
                    done.add(at.output)
                    order.append(at)
        return order

    def values(self, bits, order):
        """The value of each name, as a word with a bit for each of the patterns: `bits` has such a word for each source."""
        value = dict(zip(self.sources, (word for word, _ in bits)))
        every = bits[0][1] if bits else 1
        for gate in order:
            word = every if gate.kind in ("and", "not") else 0
            for name in gate.inputs:
                word = word | value[name] if gate.kind == "or" else word ^ value[name] if gate.kind == "xor" else word & value[name]
            value[gate.output] = every ^ word if gate.kind == "not" else word
        for output, shown in self.copies:
            value[output] = (every if shown else 0) if isinstance(shown, int) else value[shown]
        return value


def lines_of(path):
    """The joined lines of a text as lists of words."""
    held = ""
    for line in open(path, encoding="utf-8", errors="surrogateescape"):
        line = line.split("#")[0].rstrip()
        if line.endswith("\\"):
            held += line[:-1] + " "
            continue
        words = (held + line).split()
        held = ""
        if words:
            yield words


class Patterns:
    """What `rambo tests` writes (docs/testing.md)."""

    def __init__(self, path):
        self.sources, self.observed, self.patterns, self.faults, self.undecided, self.counts = [], [], [], [], [], {}
        for words in lines_of_plain(path):
            head, rest = words[0], words[1:]
            if head == "sources":
                self.sources = rest
            elif head == "observed":
                self.observed = rest
            elif head == "pattern":
                self.patterns.append(rest[1])
            elif head == "fault":
                self.faults.append((rest[0], int(rest[1]), rest[2], int(rest[3]), int(rest[4])))
            elif head == "undecided":
                self.undecided.append((rest[0], int(rest[1]), rest[2], int(rest[3])))
            elif head in ("patterns", "faults", "classes"):
                self.counts[head] = rest
        if "classes" not in self.counts:
            sys.exit(f"{path} isn't whole")


def lines_of_plain(path):
    for line in open(path, encoding="utf-8", errors="surrogateescape"):
        yield line.split()


def escaped(name):
    """A name as Verilog takes any: escaped, and ended by a blank."""
    return "\\" + name + " "


def own(name):
    """A name that no netlist has, as none holds a #."""
    return "\\" + name + "# "
