#!/usr/bin/env python3
"""Runs the gate's own command, `.ci/run`, in a fresh clone of this repository's last commit, and prints where its time
goes. First a line per crate with the processor seconds of its proof, of its proof with tests, of its must-fail edits with
the number of their checks, and of what was built of it; then the sums, and what compilers, links and runs took.

The last lines give the whole in processor seconds, in minutes of wall time, and in units. A unit is a fixed check of the
kit, its example `worked/bikes` proved from nothing by one job. It is timed beside the gate, every twenty-five minutes: a
processor second is worth more or less from machine to machine and from hour to hour, a unit is not.

The lines per crate are read off the processes every two seconds, so what is shorter isn't seen in them; the whole is what
the system counts. The command's own output goes to a file, whose name is printed first.

Usage: bench/gate.py [COMMAND ..], where COMMAND is `bash .ci/run` if left out."""
import os
import re
import resource
import shutil
import subprocess
import sys
import tempfile
import threading
import time

TOP = os.path.dirname(os.path.dirname(os.path.abspath(__file__)))
KINDS = ("proof", "tests", "edits", "built")
TICKS = os.sysconf("SC_CLK_TCK")


def below(top):
    """The processes below one, itself among them."""
    parents = {}
    for pid in os.listdir("/proc"):
        if pid.isdigit():
            try:
                with open(f"/proc/{pid}/stat") as stat:
                    parents[int(pid)] = int(stat.read().rsplit(")", 1)[1].split()[1])
            except OSError:
                pass
    found, grew = {top}, True
    while grew:
        more = {pid for pid, parent in parents.items() if parent in found} - found
        grew = bool(more)
        found |= more
    return found


def kind_of(words, folder):
    if "/rt-edit" in folder:
        return "edits"
    if "--test" in words:
        return "tests"
    return "built" if "--crate-checked" in words else "proof"


def look(seen, top):
    """Notes how far each check of a crate has come: crate, kind and processor seconds by process."""
    for pid in below(top):
        try:
            with open(f"/proc/{pid}/cmdline") as line:
                words = line.read().split("\0")
            if not words[0].endswith("/bin/rattle") or "--crate-name" not in words:
                continue
            folder = os.readlink(f"/proc/{pid}/cwd")
            with open(f"/proc/{pid}/stat") as stat:
                fields = stat.read().rsplit(")", 1)[1].split()
        except OSError:
            continue
        crate = words[words.index("--crate-name") + 1]
        # A check's forked copies count for themselves, so only the process's own time is read.
        seconds = (int(fields[11]) + int(fields[12])) / TICKS
        seen[pid, fields[19]] = crate, kind_of(words, folder), seconds


def tabled(seen):
    table = {}
    for crate, kind, seconds in seen.values():
        row = table.setdefault(crate, dict.fromkeys((*KINDS, "checks"), 0))
        row[kind] += seconds
        row["checks"] += kind == "edits" and seconds > 0
    return table


def show(table, whole, wall, status):
    print(f"{'crate':20}" + "".join(f"{kind:>9}" for kind in KINDS) + "   checks of edits")
    for crate, row in sorted(table.items(), key=lambda it: -sum(it[1][kind] for kind in KINDS)):
        print(f"{crate:20}" + "".join(f"{row[kind]:9.0f}" for kind in KINDS) + f"   {row['checks']}")
    sums = {kind: sum(row[kind] for row in table.values()) for kind in KINDS}
    print(f"{'all':20}" + "".join(f"{sums[kind]:9.0f}" for kind in KINDS))
    print(f"compilers, links, runs and what wasn't seen: {whole - sum(sums.values()):.0f} processor seconds")
    print(f"{whole:.0f} processor seconds, {wall / 60:.1f} minutes of wall time, status {status}")


class Units:
    """The fixed check, one at a time, each in a thread of its own; `seconds` has what each took of a processor."""

    def __init__(self, room):
        kit = os.path.dirname(subprocess.run(["rt", "doc"], capture_output=True, text=True, check=True).stdout.strip())
        self.folder, self.seconds, self.running, self.due = f"{room}/bikes", [], None, 0
        shutil.copytree(f"{kit}/rattle/examples/worked/bikes", self.folder)
        libraries = [f"{name}={kit}/rlibs/{name}.rlib" for name in ("std", "anyhow", "crossbeam_channel")]
        self.words = [f"{kit}/bin/rattle", "check", "--crate-name", "bikes", "src/main.rt"]
        self.words += [word for it in libraries for word in ("--extern", it)]
        self.words += ["-L", f"dependency={kit}/rlibs", "--antt-project", f"{kit}/rattle/logic/antt-project.json"]
        self.words += ["--logic-built", f"{kit}/logic_built", "--jobs", "1", "--links", "bikes="]

    def check(self):
        quiet = {"stdout": subprocess.DEVNULL, "stderr": subprocess.DEVNULL, "stdin": subprocess.DEVNULL}
        pid = subprocess.Popen(self.words, cwd=self.folder, **quiet).pid
        _, status, used = os.wait4(pid, 0)
        if status == 0:
            self.seconds.append(used.ru_utime + used.ru_stime)

    def turn(self, elapsed):
        """Starts a check where one is due and none is under way."""
        if elapsed >= self.due and not (self.running and self.running.is_alive()):
            self.due = elapsed + 25 * 60
            self.running = threading.Thread(target=self.check)
            self.running.start()

    def end(self):
        if self.running:
            self.running.join()


def main():
    if sys.argv[1:] in (["--help"], ["-h"]):
        print(__doc__)
        return 0
    command = sys.argv[1:] or ["bash", ".ci/run"]
    room = tempfile.mkdtemp(prefix="gate-")
    subprocess.run(["git", "clone", "-q", TOP, f"{room}/clone"], check=True)
    print(f"{' '.join(command)} in {room}/clone, its output in {room}/log", flush=True)
    seen, begun, units = {}, time.time(), Units(room)
    with open(f"{room}/log", "w") as log:
        how = {"stdout": log, "stderr": subprocess.STDOUT, "stdin": subprocess.DEVNULL}
        ran = subprocess.Popen(command, cwd=f"{room}/clone", **how)
        while ran.poll() is None:
            look(seen, ran.pid)
            units.turn(time.time() - begun)
            time.sleep(2)
    wall = time.time() - begun
    units.end()
    used = resource.getrusage(resource.RUSAGE_CHILDREN)
    whole = used.ru_utime + used.ru_stime - sum(units.seconds)
    show(tabled(seen), whole, wall, ran.returncode)
    if units.seconds:
        unit = sum(units.seconds) / len(units.seconds)
        spread = f"{min(units.seconds):.0f} to {max(units.seconds):.0f}"
        print(f"{whole / unit:.1f} units of {unit:.0f} processor seconds ({len(units.seconds)} of them, {spread})")
    return ran.returncode


if __name__ == "__main__":
    sys.exit(main())
