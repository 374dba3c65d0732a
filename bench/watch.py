#!/usr/bin/env python3
"""Tries `tools/mesh-watch` over a generated project of some hundred intervals, with a look every few hundredths of a second.

Each trial gives a command alone and beside the watch, over copies of the same warehouse. Output, errors and status have to
be the same, and so do all records afterwards. The counts that are shown never fall, and the last one is the planned number.
Then a command is stopped: by a signal to the watch, which has to end both; and by one to the command alone, at several
moments, by which the last count and what a plan then has as due have to add up to the planned number. There is one line for
each trial, and the status is 1 if one failed.

Usage: bench/watch.py [PROGRAM], where PROGRAM is crates/mesh/out/mesh if left out (`rt run` in its folder makes it)."""
import datetime
import os
import pty
import re
import shutil
import signal
import subprocess
import sys
import tempfile

from measured import TOP
from memory import records

FIRST, DAYS, HOURS = datetime.date(2023, 6, 1), 220, 96
LAST = FIRST + datetime.timedelta(DAYS)
WATCH = [f"{TOP}/tools/mesh-watch", "--every", "0.02"]
COUNT = re.compile(r"mesh-watch: (\d+)(?: of (\d+))? intervals")
SHOWN = re.compile(r"\r[^\r\n]*\x1b\[K")
# A library that refuses to open a file after some times.
FAILING = """
import os
from _sqlite3 import *
from _sqlite3 import connect as opened
looks = int(os.environ["LOOKS"])
def connect(*words, **more):
    global looks
    looks -= 1
    if looks < 0:
        raise Error("refused")
    return opened(*words, **more)
"""
MODELS = {
    "days": "kind INCREMENTAL_BY_TIME_RANGE (time_column day{lookback}), start '{first}'); SELECT id, day FROM raw.events",
    "hours": "kind INCREMENTAL_BY_TIME_RANGE (time_column at), cron '@hourly', start '{hours}');"
    " SELECT id, at FROM raw.events WHERE at BETWEEN @start_epoch AND @end_epoch",
    "total": "kind FULL); SELECT day, COUNT(*) AS n FROM s.days GROUP BY day",
    "shown": "kind VIEW); SELECT day, n FROM s.total",
    "names": "kind SEED (path '../names.csv'));",
}


def project(folder, lookback):
    os.makedirs(f"{folder}/models")
    words = {"lookback": ", lookback 3" if lookback else "", "first": FIRST, "hours": LAST - datetime.timedelta(hours=HOURS)}
    for name, text in MODELS.items():
        with open(f"{folder}/models/{name}.sql", "w") as file:
            file.write(f"MODEL (name s.{name}, {text.format(**words)}\n")
    with open(f"{folder}/names.csv", "w") as file:
        file.write("name\nAnn\nBo\n")
    with open(f"{folder}/external_models.csv", "w") as file:
        file.write("name,column,type,role\n" + "".join(f"raw.events,{it},\n" for it in ("id,INT", "day,DATE", "at,INT")))
    with open(f"{folder}/events.csv", "w") as file:
        file.write("id,day,at\n")
        for n in range(12000):
            day = FIRST + datetime.timedelta(n % (DAYS + 10))
            file.write(f"{n},{day},{(day - datetime.date(1970, 1, 1)).days * 86400 + n % 24 * 3600}\n")


class Trials:
    """A room with a project, where commands run over copies of a warehouse, alone and beside the watch."""

    def __init__(self, program, room, name, lookback=False):
        self.room, self.name, self.failed, self.number = f"{room}/{name}", name, 0, 0
        self.program, self.env = program, {**os.environ, "MESH": program, "TMPDIR": room}
        project(f"{self.room}/project", lookback)
        os.mkdir(f"{self.room}/0")

    def run(self, folder, words, front, **files):
        return subprocess.Popen([*front, *words], cwd=folder, env=self.env, text=True, **files)

    def ran(self, folder, words, front=()):
        """The status, the output and the errors of a command."""
        child = self.run(folder, words, front or [self.program], stdout=subprocess.PIPE, stderr=subprocess.PIPE)
        output, errors = child.communicate()
        return child.returncode, output, errors

    def copy(self, base):
        """A copy of a warehouse's folder."""
        self.number += 1
        shutil.copytree(base, f"{self.room}/{self.number}")
        return f"{self.room}/{self.number}"

    def say(self, what, wrong, more=""):
        self.failed += bool(wrong)
        print(f"{self.name}, {what}: {'wrong: ' + wrong if wrong else 'as it should be'}{more}", flush=True)

    def both(self, what, base, words, planned=True, told=None):
        """Tries a command alone and beside the watch, and returns the folder of the warehouse that it leaves."""
        alone, beside = self.copy(base), self.copy(base)
        status, output, errors = self.ran(alone, words)
        found = self.ran(beside, words, WATCH)
        lines = found[2].splitlines(True)
        own = [line for line in lines if line.startswith("mesh-watch: ")]
        counts = [COUNT.match(line) for line in own]
        if (*found[:2], "".join(line for line in lines if line not in own)) != (status, output, errors):
            wrong = f"status {found[0]} and not {status}, or another output, or other errors"
        elif records(f"{alone}/warehouse.db") != records(f"{beside}/warehouse.db"):
            wrong = "other records"
        elif told is None:
            wrong = self.lines(output, counts, planned)
        else:
            wrong = "" if sum(told in line for line in own) == 1 else f"this is said: {own}"
        seen = len({it[1] for it in counts if it})
        self.say(what, wrong, f", {seen} counts up to {[it for it in counts if it][-1][1]}" if seen else "")
        return alone

    def lines(self, output, counts, planned):
        """What is wrong with the counts of a command that has this output."""
        said = re.search(r"^(\d+) units$", output, re.M)
        numbers = [int(it[1]) for it in counts if it]
        if not said:
            return "counts of a command that was refused" if any(numbers) else ""
        if not counts and int(said[1]) < 20:
            return ""  # it was done before a line was due
        if not numbers or len(numbers) != len(counts):
            return "lines without a count"
        if numbers != sorted(numbers):
            return f"counts that fall: {numbers}"
        if any((it[2] or None) != (said[1] if planned else None) for it in counts):
            return "another planned number"
        return "" if numbers[-1] == int(said[1]) else f"{numbers[-1]} at the end, and not {said[1]}"

    def terminal(self, base, words):
        """The same on a terminal, where output and errors are one text."""
        alone, beside = self.copy(base), self.copy(base)
        status, output, _ = self.ran(alone, words)
        ours, theirs = pty.openpty()
        child = self.run(beside, words, WATCH, stdout=theirs, stderr=theirs)
        os.close(theirs)
        text = b""
        try:
            while block := os.read(ours, 65536):
                text += block
        except OSError:
            pass
        os.close(ours)
        text = text.decode().replace("\r\n", "\n")
        numbers = [int(it[1]) for it in COUNT.finditer(text)]
        left = "".join(line for line in SHOWN.sub("", text).splitlines(True) if not COUNT.match(line))
        wrong = "" if (child.wait(), left) == (status, output) else f"another status, or another text: {left!r}"
        wrong = wrong or ("" if numbers == sorted(numbers) and numbers[-1] == units(output) else f"counts {numbers}")
        self.say("on a terminal", wrong, f", {len(set(numbers))} counts up to {numbers[-1]}")

    def begun(self, base, words, least):
        """A command beside the watch that has shown a count of some intervals, with the lines that it has shown, and the
        number of the command's process if there still is one."""
        folder, lines = self.copy(base), []
        child = self.run(folder, words, WATCH, stdout=subprocess.PIPE, stderr=subprocess.PIPE)
        for line in child.stderr:
            lines.append(line)
            count = COUNT.match(line)
            if count and int(count[1]) >= least:
                break
        with open(f"/proc/{child.pid}/task/{child.pid}/children") as file:
            inner = file.read().split()
        return folder, child, lines, int(inner[0]) if inner else None

    def stop(self, base, words):
        """A signal to the watch ends both, and the same command then does the rest."""
        whole = self.copy(base)
        self.ran(whole, words)
        folder, child, lines, inner = self.begun(base, words, 20)
        child.send_signal(signal.SIGINT)
        output = child.communicate()[0]
        wrong = ""
        if (child.returncode, output) != (-signal.SIGINT, ""):
            wrong = f"status {child.returncode}, output {output!r}"
        elif os.path.exists(f"/proc/{inner}"):
            wrong = "the command goes on"
        elif self.ran(folder, words)[0] or records(f"{folder}/warehouse.db") != records(f"{whole}/warehouse.db"):
            wrong = "the same command then leaves other records"
        self.say("a stop by SIGINT", wrong, f", at {COUNT.match(lines[-1])[1]} intervals")

    def kill(self, what, base, words, least, plan):
        """The command alone is killed. What was counted and what is due then add up to the planned number."""
        for _ in range(5):
            folder, child, lines, inner = self.begun(base, words, least)
            if inner:
                os.kill(inner, signal.SIGKILL)
            lines += child.communicate()[1].splitlines(True)
            if child.returncode == -signal.SIGKILL:
                break
        count = COUNT.match(lines[-1])
        rest = units(self.ran(folder, plan)[1])
        wrong = "" if child.returncode == -signal.SIGKILL else f"it was done before, with status {child.returncode}"
        if int(count[1]) + rest != int(count[2]):
            wrong = f"{count[1]} done and {rest} due are not {count[2]}"
        self.say(f"{what}, killed", wrong, f", {count[1]} done and {rest} due of {count[2]}")


def units(text):
    found = re.search(r"^(\d+) units$", text, re.M)
    return int(found[1]) if found else -1


def at(days):
    return ["--execution-time", f"{LAST + datetime.timedelta(days)}T00:30"]


def firsts(it):
    """Trials of a first apply, and of what comes after it. The folder that they begin with is returned, and the last one."""
    front = ["--paths", "../project"]
    it.both("a source that is missing", f"{it.room}/0", [*front, "apply", *at(0)])
    it.ran(f"{it.room}/0", [*front, "ingest", "raw.events", "events.csv"])
    base = it.both("a first apply", f"{it.room}/0", [*front, "apply", *at(0)])
    it.both("the same again", base, [*front, "apply", *at(0)])
    it.both("a plan that applies", f"{it.room}/0", [*front, "plan", "dev", "--auto-apply", *at(0)])
    it.both("all computed again", base, [*front, "apply", *at(0), "--restate-model", "s.days"])
    some = ["--restate-model", "s.days", "--start", "2023-07-01", "--end", "2023-08-09"]
    it.both("some days again", base, [*front, "apply", *at(0), *some])
    it.both("a run", base, [*front, "run", *at(8)])
    return base


def main():
    program = os.path.abspath(sys.argv[1]) if len(sys.argv) > 1 else f"{TOP}/crates/mesh/out/mesh"
    front = ["--paths", "../project"]
    with tempfile.TemporaryDirectory(prefix="watch-") as room:
        back = Trials(program, room, "with a lookback", True)
        firsts(back)
        it = Trials(program, room, "without one")
        base, none = firsts(it), f"{it.room}/0"
        it.both("a run without its project", base, ["run", *at(8)], planned=False)
        it.both("words that are faulty", none, [*front, "apply", "Dev"])
        it.terminal(none, [*front, "apply", *at(0)])
        it.both("no warehouse to look at", none, ["--warehouse", ":memory:", *front, "apply"], told="in memory")
        it.stop(none, [*front, "apply", *at(0)])
        for least in (1, 50, 150, 250):
            it.kill("a first apply", none, [*front, "apply", *at(0)], least, [*front, "plan", *at(0)])
        for least in (1, 100):
            again = [*front, "apply", *at(0), "--restate-model", "s.days"]
            it.kill("all computed again", base, again, least, [*front, "plan", *at(0)])
        with open(f"{room}/sqlite3.py", "w") as file:
            file.write(FAILING)
        it.env["PYTHONPATH"] = room
        for looks in (0, 5):
            it.env["LOOKS"] = str(looks)
            words, told = [*front, "apply", *at(0)], "can't look at warehouse.db: refused"
            it.both(f"each look fails after {looks}", none, words, told=told)
    failed = back.failed + it.failed
    print(f"{failed} trials failed")
    return 1 if failed else 0


if __name__ == "__main__":
    sys.exit(main())
