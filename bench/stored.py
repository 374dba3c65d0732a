#!/usr/bin/env python3
"""Times `mesh batch` over a warehouse in a file, beside the same over one in memory, by the clock and in seconds of processor. A
commit is what a change costs that writes one small record: janitors that sweep nothing, each of which raises the moment alone, over
a file and without what they take in memory; beside it are transactions of SQLite, as Python has it, that each put the same record
into the same table. Then: an apply of 1,000 models that changes nothing, which makes 2,003 changes, beside as many commits and the
same apply in memory; changes of single kinds, each beside transactions of SQLite that write what the change has written; a first
apply of a seed of about 4 MB under ten FULL models; a question to a small file, with the start of the program; and 2,000 days of a
model over 100,000 rows, of which each writes the whole table's record again.

The files lie in a folder of their own, under TMPDIR if that is set: the figures are those of its disk. The clock says something on
a quiet machine alone.

Usage: bench/stored.py [PROGRAM], where PROGRAM is crates/mesh/out/mesh if left out (`rt run` in its folder makes it)."""
import os
import shutil
import sqlite3
import subprocess
import sys
import tempfile
import time

import apply
import exec as units
from measured import TOP

FILE = "warehouse.db"
COMMITS = 1_000
MODELS = 1_000
MOMENT = "2024-01-03T00:30"
APPLY = f"apply --execution-time {MOMENT}\n"
TIMES = 3


def once(program, folder, warehouse, script):
    """The seconds of a script by the clock, and of processor."""
    begin = time.perf_counter()
    child = subprocess.Popen([program, "--warehouse", warehouse, "batch"], stdin=subprocess.PIPE, stdout=subprocess.DEVNULL, cwd=folder)
    child.stdin.write(script.encode())
    child.stdin.close()
    _, status, used = os.wait4(child.pid, 0)
    assert os.waitstatus_to_exitcode(status) == 0, status
    return time.perf_counter() - begin, used.ru_utime + used.ru_stime


def least(found):
    """The least of some pairs, each part by itself."""
    return tuple(map(min, zip(*found)))


def stored(program, folder, base, script):
    """The least of some runs of a script, each over a copy of a warehouse's file, or over none."""
    found = []
    for _ in range(TIMES):
        if os.path.exists(f"{folder}/{FILE}"):
            os.remove(f"{folder}/{FILE}")
        if base:
            shutil.copy(f"{folder}/{base}", f"{folder}/{FILE}")
        found.append(once(program, folder, FILE, script))
    return least(found)


def kept(program, folder, name, script):
    """Leaves the file of a warehouse after a script under a name."""
    stored(program, folder, None, script)
    os.replace(f"{folder}/{FILE}", f"{folder}/{name}")


def less(a, b):
    return tuple(x - y for x, y in zip(a, b))


def part(a, count):
    return tuple(x / count for x in a)


def said(name, pair, more=""):
    print(f"{name}: {pair[0]:.4f} s by the clock, {pair[1]:.4f} s of processor{more}")


def transactions(folder, base, records):
    """The least seconds of putting each of some records into a copy of a warehouse's file by a transaction of its own."""
    found = []
    for _ in range(TIMES):
        shutil.copy(f"{folder}/{base}", f"{folder}/{FILE}")
        store = sqlite3.connect(f"{folder}/{FILE}", isolation_level=None)
        begin, used = time.perf_counter(), time.process_time()
        for record in records:
            store.execute("BEGIN IMMEDIATE")
            store.execute("INSERT OR REPLACE INTO things VALUES (?, ?, ?)", record)
            store.execute("COMMIT")
        found.append((time.perf_counter() - begin, time.process_time() - used))
        store.close()
    return least(found)


def records(folder, base, kind):
    store = sqlite3.connect(f"{folder}/{base}")
    found = store.execute("SELECT kind, name, body FROM things WHERE kind = ?", (kind,)).fetchall()
    store.close()
    return found


def janitors(count):
    return f"janitor --execution-time {MOMENT}\n" * count


def commits(program, folder):
    """What one commit takes, without what its command takes in memory."""
    kept(program, folder, "empty.db", janitors(1))
    over_file = less(stored(program, folder, "empty.db", janitors(COMMITS + 1)), stored(program, folder, "empty.db", janitors(1)))
    memory = less(least(once(program, folder, ":memory:", janitors(COMMITS + 1)) for _ in range(TIMES)), least(once(program, folder, ":memory:", janitors(1)) for _ in range(TIMES)))
    commit = part(less(over_file, memory), COMMITS)
    said("a commit", commit)
    other = part(transactions(folder, "empty.db", records(folder, "empty.db", 0) * COMMITS), COMMITS)
    said("the same by SQLite alone", other, f", ratio {commit[0] / other[0]:.2f}")
    return commit


def unchanged(program, commit):
    with tempfile.TemporaryDirectory() as folder:
        apply.models(folder, MODELS)
        kept(program, folder, "first.db", APPLY)
        start = stored(program, folder, "first.db", "")
        over_file = less(stored(program, folder, "first.db", APPLY), start)
        memory = less(least(once(program, folder, ":memory:", 2 * APPLY) for _ in range(TIMES)), least(once(program, folder, ":memory:", APPLY) for _ in range(TIMES)))
        least_time = (2 * MODELS + 3) * commit[0] + memory[0]
        said(f"an apply of {MODELS:,} models that changes nothing", over_file, f", in memory {memory[0]:.4f} s, ratio {over_file[0] / least_time:.2f} to as many commits and the apply in memory")
        kinds = (("PutSnapshot", 1), ("PointView", 4))
        puts = sum((transactions(folder, "first.db", records(folder, "first.db", kind))[0] for _, kind in kinds), 3 * commit[0])
        print(f"the same records by SQLite alone: {puts:.4f} s by the clock, ratio {(over_file[0] - memory[0]) / puts:.2f}")


def single(program):
    """Changes of the kinds that a first apply makes: versions, tables, rows and marks, each by the records that it leaves."""
    with tempfile.TemporaryDirectory() as folder:
        apply.models(folder, MODELS)
        kept(program, folder, "empty.db", janitors(1))
        full = less(stored(program, folder, "empty.db", APPLY), stored(program, folder, "empty.db", ""))
        memory = less(least(once(program, folder, ":memory:", APPLY) for _ in range(TIMES)), least(once(program, folder, ":memory:", "") for _ in range(TIMES)))
        kept(program, folder, "first.db", APPLY)
        # For each model: PutSnapshot, MakeTable, ReplaceRows, RecordMarks and PointView, of which two write two records.
        puts = sum(transactions(folder, "first.db", records(folder, "first.db", kind) * times)[0] for kind, times in ((1, 1), (5, 2), (2, 1), (4, 1)))
        said(f"a first apply of {MODELS:,} models", full, f", in memory {memory[0]:.4f} s; a record a change by SQLite alone {puts:.4f} s, ratio {(full[0] - memory[0]) / puts:.2f}")


def seeds(program):
    with tempfile.TemporaryDirectory() as folder:
        apply.seed(folder, apply.SEED_LIMIT // 41)
        said("a first apply of a 4 MB seed and ten FULL models", stored(program, folder, None, APPLY))


def question(program):
    starter = f"{TOP}/examples/starter"
    with tempfile.TemporaryDirectory() as folder:
        path = f"{folder}/{FILE}"
        subprocess.run([program, "--warehouse", path, "--paths", starter, "apply", "--execution-time", "2020-01-08T00:30"], check=True, stdout=subprocess.DEVNULL)
        found = []
        for _ in range(20):
            begin = time.perf_counter()
            subprocess.run([program, "--warehouse", path, "--paths", starter, "fetchdf", "SELECT * FROM sqlmesh_example.full_model"], check=True, stdout=subprocess.DEVNULL)
            found.append(time.perf_counter() - begin)
        print(f"a question to a file of {os.path.getsize(path):,} bytes, with the start: {min(found) * 1000:.1f} ms by the clock")


def daily(program):
    with tempfile.TemporaryDirectory() as folder:
        units.source(folder)
        with open(f"{folder}/models/daily.sql", "w") as model:
            model.write(f"MODEL (name s.daily, kind INCREMENTAL_BY_TIME_RANGE (time_column day), start '{units.FIRST}');\n")
            model.write("SELECT id, day, kind FROM raw.events WHERE day BETWEEN @start_ds AND @end_ds\n")
        for days in (units.DAYS // 4, units.DAYS // 2, units.DAYS):
            passed = once(program, folder, FILE, units.LOAD + units.apply(days))
            size = os.path.getsize(f"{folder}/{FILE}")
            os.remove(f"{folder}/{FILE}")
            said(f"{days:,} days of one table over {units.ROWS:,} rows, a file of {size / 1e6:.1f} MB", passed)


def main():
    program = os.path.abspath(sys.argv[1]) if len(sys.argv) > 1 else f"{TOP}/crates/mesh/out/mesh"
    with tempfile.TemporaryDirectory() as folder:
        commit = commits(program, folder)
    unchanged(program, commit)
    single(program)
    seeds(program)
    question(program)
    daily(program)


if __name__ == "__main__":
    main()
