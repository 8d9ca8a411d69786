"""Texts of strangers. TEXTS has for each a name, what makes it, the status and the line of `opt` that must come, the seconds that it may take,
and options. The line is the one that the definitions give, worked out by hand; one that ends with a blank is a beginning. What makes a text,
and a line that isn't the same at every size, gets the scale: at 1 the texts are as long as a text may be, at 16 a sixteenth of that.
"""
import pathlib
import shutil
import subprocess
import tempfile

FASTEST = ("--tries", "0", "--depth", "0", "--merge", "0", "--budget", "1")


class Lacking(Exception):
    """Something is missing on this machine, without which the text can't be made."""


def whole(scale):
    return (16 << 20) // scale


def head(names, outputs="z"):
    return f".model m\n.inputs {names}\n.outputs {outputs}\n".encode()


def wide(scale):
    """One cover of 65,536 inputs over 1,024 names."""
    names = [f"n{at}" for at in range(1024)]
    used = [names[at % 1024] for at in range(65536 // scale)]
    return head(" ".join(names)) + f".names {' '.join(used)} z\n{'1' * len(used)} 1\n.end\n".encode()


def chain(scale):
    count = 131000 // scale
    rows = "".join(f".names {'a' if n == 0 else f'c{n - 1}'} {'z' if n == count - 1 else f'c{n}'}\n1 1\n" for n in range(count))
    return head("a") + rows.encode() + b".end\n"


def covers(names):
    """Covers that nothing reads, with these names; one name more is that of the input."""
    return head("a", "a") + b"".join(b".names " + name + b"\n" for name in names) + b".end\n"


def plain(count):
    return covers(f"k{n}".encode() for n in range(count))


def constants(scale):
    """An And of 10,922 gates and then 32,768 constants."""
    gates, ones = 10922 // scale, 32768 // scale
    rows = "".join(f".names a{n % 512} b{n // 512} g{n}\n11 1\n" for n in range(gates)) + ".names one\n1\n"
    pins = " ".join([f"g{n}" for n in range(gates)] + ["one"] * ones)
    names = " ".join([f"a{n}" for n in range(512)] + [f"b{n}" for n in range(gates // 512 + 1)])
    return head(names) + rows.encode() + f".names {pins} z\n{'1' * (gates + ones)} 1\n.end\n".encode()


# Names of six letters that have the last 14 bits of their hash in common, under the hash of the kit's tables: the length and then each byte is
# joined to the state by xor, and the state is multiplied to 128 bits, whose halves are joined by xor.
COLLIDING = r"""
#include <stdint.h>
#include <stdio.h>
#include <stdlib.h>
static uint64_t step(uint64_t state, uint64_t read, uint64_t bytes) {
    unsigned __int128 product = (unsigned __int128)(state ^ read) * (0x9e3779b97f4a7c15u ^ (2 * bytes));
    return (uint64_t)product ^ (uint64_t)(product >> 64);
}
static char name[7];
static long left;
static void search(uint64_t state, int at) {
    for (char letter = 'A'; letter <= 'z' && left > 0; letter++) {
        if (letter > 'Z' && letter < 'a') continue;
        uint64_t next = step(state, (uint64_t)letter * 0x010101, 1);
        name[at] = letter;
        if (at < 5) search(next, at + 1);
        else if (((next ^ next >> 32) & 0x3fff) == 0) puts(name), left--;
    }
}
int main(int count, char **words) {
    left = count > 1 ? atol(words[1]) : 0;
    search(step(0x243f6a8885a308d3u, 6, 8), 0);
    return left > 0;
}
"""


def colliding(count):
    compiler = shutil.which("cc") or shutil.which("clang")
    if not compiler:
        raise Lacking("there is no C compiler, which the search for such names needs")
    with tempfile.TemporaryDirectory(prefix="colliding-") as folder:
        at = pathlib.Path(folder) / "search"
        subprocess.run([compiler, "-O2", "-x", "c", "-", "-o", at], input=COLLIDING.encode(), check=True)
        names = subprocess.run([at, str(count)], check=True, stdout=subprocess.PIPE).stdout
    return covers(names.split())


TEXTS = [
    ("a text of bytes 0", lambda scale: bytes(whole(scale)), 1, "text 1:1 BadByte", 3, ()),
    ("a text of bytes 255", lambda scale: b"\xff" * whole(scale), 1, "text 1:1 NoModel", 3, ()),
    ("a name of bytes 255", lambda scale: b".model " + b"\xff" * (whole(scale) - 7), 5, lambda scale: f"limit name {whole(scale) - 7}", 3, ()),
    ("one line of words", lambda scale: b".model " + b"a " * (whole(scale) // 2 - 4), 1, "text 1:10 ExtraWord", 3, ()),
    ("one line of inputs", lambda scale: b".model m\n.inputs " + b"a " * (whole(scale) // 2 - 9), 1, "text 2:11 DoubleDriven", 3, ()),
    ("joins", lambda scale: b"\\\n" * (whole(scale) // 2), 1, lambda scale: f"text {whole(scale) // 2}:1 OpenJoin", 3, ()),
    ("joined inputs", lambda scale: b".model m\n.inputs" + b"\\\n" * (whole(scale) // 2 - 9) + b"\n", 0, "wires 0 0", 3, ()),
    ("empty lines", lambda scale: b"\n" * whole(scale), 1, "text 1:1 NoModel", 3, ()),
    ("a comment", lambda scale: b"#" * whole(scale), 1, "text 1:1 NoModel", 3, ()),
    ("1,025 sources", lambda scale: head(" ".join(f"x{n}" for n in range(1025)), "x0"), 5, "limit sources 1025", 3, ()),
    ("131,072 plain names", lambda scale: plain(131072 // scale - 1), 0, "wires 0 0", 3, ()),
    ("131,073 plain names", lambda scale: plain(131072), 5, "limit signals 131073", 3, ()),
    ("131,072 colliding names", lambda scale: colliding(131072 // scale - 1), 0, "wires 0 0", 3, ()),
    ("131,073 colliding names", lambda scale: colliding(131072), 5, "limit signals 131073", 3, ()),
    ("a chain of 131,000 covers", chain, 0, "wires 0 0", 3, ()),
    ("one cover over repeated names", wide, 0, lambda scale: f"wires {65536 // scale} {min(1024, 65536 // scale)}", 10, FASTEST),
    ("65,537 inputs of a cover", lambda scale: head("a") + b".names" + b" a" * 65537 + b" z\n", 5, "limit inputs 65537", 3, ()),
    ("gates and constants", constants, 0, lambda scale: f"wires {3 * (10922 // scale) + 32768 // scale} ", 30, FASTEST),
]
