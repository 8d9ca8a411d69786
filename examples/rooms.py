"""Rooms in which the program is run: a folder each, with the worked example in it. Used by check-devices and check-memory."""
import os
import pathlib
import resource
import shutil
import signal
import subprocess
import threading

top = pathlib.Path(__file__).resolve().parent.parent
examples = top / "examples"
program = os.environ.get("RAMBO") or str(top / "crates" / "rambo" / "out" / "rambo")

OPT = ("opt", "worked.blif", "out", "journal")
SHELF = "fault shelf"
MEGABYTE = 1 << 20


class Ended:
    """How a run ended: its status (a negative one is a signal), what it printed, what it said on standard error, and what it cost in
    processor time and memory."""

    def __init__(self, status, out, said, seconds, kilobytes):
        self.status, self.out, self.said, self.seconds, self.kilobytes = status, out, said, seconds, kilobytes

    @property
    def line(self):
        return self.out.decode(errors="replace").split("\n")[0]


class Room:
    """A folder with the worked example, and what a run without trouble writes there."""

    def __init__(self, folder, reference):
        self.folder, self.reference = folder, reference
        for name in ("worked.blif", "worked.journal", "worked-after.blif"):
            shutil.copy(examples / name, folder / name)
        (folder / "kept").write_text("no run may touch this\n")
        os.chmod(folder, 0o777)

    def start(self, *words, limits=(), closed=(), ignore=(), fds=(), stdin=subprocess.DEVNULL, stdout=subprocess.PIPE,
              stderr=subprocess.PIPE, **how):
        def prepare():
            for number in ignore:
                signal.signal(number, signal.SIG_IGN)
            for what, most in limits:
                resource.setrlimit(what, (most, most))
            for number in closed:
                os.close(number)

        return subprocess.Popen([program, *map(os.fspath, words)], cwd=self.folder, stdin=stdin, stdout=stdout, stderr=stderr,
                                pass_fds=fds, preexec_fn=prepare, **how)

    def wait(self, running, seconds=600):
        watch = threading.Timer(seconds, running.kill)
        watch.start()
        out = running.stdout.read() if running.stdout else b""
        said = running.stderr.read() if running.stderr else b""
        _, status, usage = os.wait4(running.pid, 0)
        watch.cancel()
        running.returncode = os.waitstatus_to_exitcode(status)
        for stream in (running.stdout, running.stderr):
            if stream:
                stream.close()
        same("bytes of standard error that aren't printable", b"", bytes(byte for byte in said if not 32 <= byte < 127 and byte != 10))
        return Ended(running.returncode, out, said, usage.ru_utime + usage.ru_stime, usage.ru_maxrss)

    def run(self, *words, **how):
        return self.wait(self.start(*words, **how))

    def files(self):
        found = {}
        for at in sorted(self.folder.rglob("*")):
            if at.is_symlink() or not at.is_file():
                continue
            found[str(at.relative_to(self.folder))] = at.read_bytes()
        return found


class Wrong(Exception):
    pass


def same(what, wanted, got):
    if wanted != got:
        raise Wrong(f"{what}: wanted {wanted!r}, got {got!r}")


def judge(room, before, ended, status, line, whole=(), begun=()):
    """The status and the line are these; files of `whole` hold the text of the reference, those of `begun` a beginning of it, and all
    others are as they were."""
    same("status", status, ended.status)
    same("line", line, ended.line)
    after = room.files()
    for name in whole:
        same(f"file {name}", room.reference[kind_of(name)], after.pop(name, None))
        before.pop(name, None)
    for name in begun:
        text = after.pop(name, b"")
        if not room.reference[kind_of(name)].startswith(text):
            raise Wrong(f"file {name} holds no beginning of its text")
        before.pop(name, None)
    same("other files", sorted(before), sorted(after))
    for name, text in before.items():
        if after[name] != text:
            raise Wrong(f"file {name} has changed")


def kind_of(name):
    return "journal" if "journal" in name else "out"


def feed(path, text, pieces=None):
    """Writes the text into a named pipe, in another thread."""

    def work():
        try:
            with open(path, "wb", buffering=0) as pipe:
                for at in range(0, len(text), pieces or len(text)):
                    pipe.write(text[at:at + (pieces or len(text))])
        except BrokenPipeError:
            pass

    thread = threading.Thread(target=work, daemon=True)
    thread.start()
    return thread


def drain(path):
    """Reads a named pipe to its end, in another thread; the list gets what came."""
    got = []

    def work():
        with open(path, "rb") as pipe:
            got.append(pipe.read())

    thread = threading.Thread(target=work, daemon=True)
    thread.start()
    return thread, got


def pipe_with(text):
    """The reading end of a pipe that holds the text."""
    reading, writing = os.pipe()
    os.write(writing, text)
    os.close(writing)
    return reading
