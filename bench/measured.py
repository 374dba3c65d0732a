"""Seconds of processor that a program takes in a folder with some files, and a suite of `mesh_answers` for lines of its files.
A script that imports this prints its own text when its first word is `--help`, and does nothing else."""
import os
import re
import subprocess
import sys
import tempfile

import __main__

if sys.argv[1:2] in (["--help"], ["-h"]):
    print(__main__.__doc__)
    sys.exit(0)

TOP = os.path.dirname(os.path.dirname(os.path.abspath(__file__)))
PROGRAM = f"{TOP}/crates/mesh_answers/out/mesh_answers"
TIMES = 10
FILES = {
    "text": ("tokens.txt", "queries.txt", "behind.txt", "limits.txt", "statements.txt", "models.txt", "cuts.txt", "faults.txt"),
    "files": ("times", "casts", "ranges", "canon", "digests", "seeds", "sources", "outside"),
    "house": ("changes.txt", "books.txt"),
    "plans": ("cases.txt",),
    "queries": ("cases.txt", "resolved.txt"),
}


def filled(text):
    """The text that a line of a case writes with copies, as far as these scripts write them: `{N TEXT}` or `{N*TEXT}`, and `\\n`."""
    copies = lambda said: "".join(said[2].replace("#", str(number)) for number in range(int(said[1])))
    return re.sub(r"\{(\d+)[ *]([^}]*)\}", copies, text).replace("\\n", "\n")


def ran(command, files, runs):
    """The least seconds of processor of some runs of a program with its words in a folder with these files, the most memory that
    one took, in MB, and what the last one printed."""
    least, most = None, 0
    with tempfile.TemporaryDirectory() as folder:
        for path, text in files.items():
            place = f"{folder}/{path}"
            os.makedirs(os.path.dirname(place), exist_ok=True)
            with open(place, "w") as file:
                file.write(text)
        for _ in range(runs):
            child = subprocess.Popen(command, stdin=subprocess.DEVNULL, stdout=subprocess.PIPE, cwd=folder)
            said = child.stdout.read().decode()
            _, status, used = os.wait4(child.pid, 0)
            assert status == 0, (status, said[-1000:])
            passed = used.ru_utime + used.ru_stime
            least = passed if least is None else min(least, passed)
            most = max(most, used.ru_maxrss / 1024)
    return least, most, said


class Suite:
    """A suite of `mesh_answers`, which lies at some path, or where `rt run` leaves it."""

    def __init__(self, name, path=None):
        self.name = name
        self.command = [os.path.abspath(path) if path else PROGRAM, name]

    def taken(self, file, lines, runs, further={}):
        """The least seconds of some runs over a file with these lines, the suite's others being empty, and with further files;
        the most memory, and what was printed."""
        files = dict.fromkeys(FILES[self.name], "") | {file: "".join(f"{line}\n" for line in lines)}
        return ran(self.command, {f"{self.name}/{name}": text for name, text in files.items()} | further, runs)

    def ran(self, file, lines):
        """The least seconds of five such runs, and what was printed."""
        least, _, said = self.taken(file, lines, 5)
        return least, said

    def each(self, file, lines, answer, front=()):
        """The seconds of some lines behind those in front: of a file that has them eleven times, without one that has them
        once. What is printed of them ends with this answer."""
        once, said = self.ran(file, [*front, *lines])
        often, _ = self.ran(file, [*front, *lines * (1 + TIMES)])
        assert f"{answer}\n" in said, said[-1000:]
        return (often - once) / TIMES


def report(name, size, half, full):
    """Prints the seconds of half a text and of a text of so many bytes, megabytes a second, and growth."""
    print(f"{name}: {size} bytes, half {half:.4f} s, full {full:.4f} s, {size / full / 1e6:.1f} MB/s, growth {full / half:.2f}")
