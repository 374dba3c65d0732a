#!/usr/bin/env python3
"""Times `mesh batch` over a warehouse in memory and a source of 100,000 rows, without the seconds that the source takes to be
loaded: an apply of a model of 2,000 daily units, which are computed in runs, and of half as many, in seconds of processor and by
the clock; and an apply of 64 FULL models over the one source with a group each, by the clock, with 1, 2, 4 and 64 workers. The
least of five rounds counts, in each of which all that is compared runs in turn, so that a machine whose pace changes is the same for
all. The clock says something on a quiet machine alone.

Usage: bench/exec.py [PROGRAM], where PROGRAM is crates/mesh/out/mesh if left out (`rt run` in its folder makes it)."""
import datetime
import os
import subprocess
import sys
import tempfile
import time

from measured import TOP

ROWS = 100_000
DAYS = 2_000
FIRST = datetime.date(2020, 1, 1)
WORKERS = (1, 2, 4, 64)
ROUNDS = 5
LOAD = "ingest raw.events events.csv\n"


def once(program, folder, script):
    """The seconds of processor and by the clock of one run of a script over the project in a folder."""
    begin = time.perf_counter()
    child = subprocess.Popen([program, "--warehouse", ":memory:", "batch"], stdin=subprocess.PIPE, stdout=subprocess.DEVNULL, cwd=folder)
    child.stdin.write(script.encode())
    child.stdin.close()
    _, status, used = os.wait4(child.pid, 0)
    passed = time.perf_counter() - begin
    assert os.waitstatus_to_exitcode(status) == 0, status
    return used.ru_utime + used.ru_stime, passed


def ran(program, folder, scripts):
    """The least seconds of processor, and the least by the clock, of each script, over rounds in which they run in turn."""
    rounds = [[once(program, folder, script) for script in scripts] for _ in range(ROUNDS)]
    return [(min(used for used, _ in runs), min(passed for _, passed in runs)) for runs in zip(*rounds)]


def source(folder):
    """A source whose rows are spread over the days, and a folder for models."""
    os.makedirs(f"{folder}/models")
    with open(f"{folder}/external_models.csv", "w") as file:
        file.write("name,column,type,role\nraw.events,id,INT,\nraw.events,day,DATE,time\nraw.events,kind,INT,\n")
    with open(f"{folder}/events.csv", "w") as file:
        file.write("id,day,kind\n")
        for n in range(ROWS):
            file.write(f"{n},{FIRST + datetime.timedelta(n % DAYS)},{n * 7919 % 1009}\n")


def apply(days, workers=1):
    """The line that applies the project half an hour after so many days."""
    return f"apply --execution-time {FIRST + datetime.timedelta(days)}T00:30 --workers {workers}\n"


def units(program):
    with tempfile.TemporaryDirectory() as folder:
        source(folder)
        with open(f"{folder}/models/daily.sql", "w") as model:
            model.write(f"MODEL (name s.daily, kind INCREMENTAL_BY_TIME_RANGE (time_column day), start '{FIRST}');\n")
            model.write("SELECT id, day, kind FROM raw.events WHERE day BETWEEN @start_ds AND @end_ds\n")
        none, half, full = ran(program, folder, [LOAD, LOAD + apply(DAYS // 2), LOAD + apply(DAYS)])
    for name, at in (("processor", 0), ("clock", 1)):
        print(f"units by the {name}: {DAYS // 2:,} {half[at] - none[at]:.3f} s, {DAYS:,} {full[at] - none[at]:.3f} s, growth {(full[at] - none[at]) / (half[at] - none[at]):.2f}")


def models(program):
    with tempfile.TemporaryDirectory() as folder:
        source(folder)
        for number in range(64):
            with open(f"{folder}/models/m{number:02}.sql", "w") as model:
                model.write(f"MODEL (name s.m{number:02}, kind FULL); SELECT kind + {number} AS kind, COUNT(*) AS n, MAX(id) AS last FROM raw.events GROUP BY kind + {number}\n")
        (_, none), *each = ran(program, folder, [LOAD, *(LOAD + apply(1, workers) for workers in WORKERS)])
    one = each[0][1] - none
    for workers, (_, passed) in zip(WORKERS, each):
        print(f"64 FULL models, {workers} workers: {passed - none:.3f} s by the clock, {one / (passed - none):.2f} times as fast as 1")


def main():
    program = os.path.abspath(sys.argv[1]) if len(sys.argv) > 1 else f"{TOP}/crates/mesh/out/mesh"
    units(program)
    models(program)


if __name__ == "__main__":
    main()
