#!/usr/bin/env python3
"""Times the suite `house` of `mesh_answers` on a warehouse in memory: one with tables, a view and a version for each, and
then 100,000 changes that each record an hour of one version after another; for 2,048 tables and for 4,096. Then one change
that forgets 200,000 units of a version, which adjoin or are every second one; and one that gives 10,000 snapshots other
fingerprints, which are of as many models or of one. Their seconds are those of a file that makes the changes at once and
counts what is then there, without one that has the same changes and makes none. Last the suite `rows`: the promotion of a
further environment of many models, by `apply` without one that is stopped before it, and a janitor's sweep of the snapshots and tables of
four versions that a fifth one has replaced; and a question over a view of 100,000 rows, beside a copy of these rows and the evaluation of its
query alone, as the suite `queries` makes them. Prints seconds of processor and growth.

Usage: bench/house.py [PROGRAM], where PROGRAM is crates/mesh_answers/out/mesh_answers if left out (`rt run` makes it)."""
import random
import sys

from eval import ours
import played
from measured import Suite

PROGRAM = Suite("rows", *sys.argv[1:]).command[0]
CHANGES = 100_000
UNITS = 200_000
SNAPSHOTS = 10_000
TIMES = 20
RUNS = 6
STOPPED = 3
MOVES = 5
HOUR = 3_600
OWN = "own m (own 1:a 1:m (view) 9:0 0 * * * hour none [] (query [] []))"


def made(suite, front, changes, answer):
    """The seconds of making these changes at once behind those in front, which leaves so many snapshots and spans."""
    kept = [OWN, *(f"also {change}" for change in front), "count_all", *(f"also {change}" for change in changes)]
    none, _ = suite.ran("changes.txt", kept)
    all, said = suite.ran("changes.txt", [*kept, "count_all"])
    assert said.splitlines()[1] == answer, said[-1000:]
    return all - none


def recorded(suite, tables):
    front = []
    for n in range(tables):
        front += [f"put_snapshot b.{n:04}/0 m 0 s__b.{n:04} 0", f"make_table s__b.{n:04}", f"point_view b.{n:04} s__b.{n:04}"]
    hours = ((n % tables, n // tables * HOUR) for n in range(CHANGES))
    changes = [f"record_range s__b.{table:04} {start} {start + HOUR}" for table, start in hours]
    # Each version is recorded without a hole.
    return made(suite, front, changes, f"snapshots {tables}, spans {tables}")


def forgotten(suite, units, step):
    front = ["put_snapshot b.m/0 m 0 b.t 0", f"record_range b.t 0 {units * step}"]
    change = " ".join(f"b.t:{n * step}:{n * step + 1}" for n in range(units))
    # Between two units that are forgotten one or none is left.
    return made(suite, front, [f"forget_units {change}"], f"snapshots 1, spans {0 if step == 1 else units}")


def fingerprints(count):
    """So many fingerprints that differ, each as its first four bytes, of which the last stands in all places behind."""
    drawn = random.Random(7).sample(range(2**32), count)
    return [tuple(number.to_bytes(4, "big")) for number in drawn]


def written(bytes):
    return ".".join(map(str, bytes))


def turned(bytes, places):
    return bytes[places:] + bytes[:places]


def migrated(suite, count, models):
    """The seconds of one of some migrations of snapshots, each of which has the two before it as parents and stands in an
    environment."""
    keys = [(f"b.{n % models:06}", first) for n, first in enumerate(fingerprints(count))]
    said = [f"{name}/{written(first)}" for name, first in keys]
    order = sorted(range(count), key=keys.__getitem__)
    front = [f"put_snapshot {said[n]} m 0 b.000000 0 parents {' '.join(said[max(0, n - 2) : n])}" for n in order]
    front.append(f"set_pending prod none list {' '.join(said[n] for n in order)}")
    changes = []
    for move in range(MOVES):
        old = sorted((name, turned(first, move % 4)) for name, first in keys)
        changes.append(f"migrate {' '.join(f'{name}/{written(bytes)}={written(turned(bytes, 1))}' for name, bytes in old)}")
    return made(suite, front, changes, f"snapshots {count}, spans 0") / MOVES


def promoted(count):
    """The seconds of promoting an environment: those of applies of further environments of a project without those of applies
    that are stopped once the snapshots are put, which is before the environment is."""
    files, front = played.star(count), played.applied(1)
    applies = [f"mesh apply e{n:02} --execution-time 2024-01-03T00:30" for n in range(TIMES)]
    # The moment and the snapshots are made, and the next change fails.
    stopped = [step for apply in applies for step in (f"fail before {1 + count}", apply)]
    whole = played.seconds(PROGRAM, files, front + applies, TIMES, runs=RUNS)
    return (whole - played.seconds(PROGRAM, files, front + stopped, TIMES, STOPPED, RUNS)) / TIMES


def swept(count):
    """The seconds of a janitor that sweeps four versions of so many models, which the fifth one has replaced."""
    files, front = played.star(count), played.applied(5)
    return played.each(PROGRAM, files, front, ["mesh janitor --execution-time 2024-02-03T00:30"])


def asked(rows):
    """The seconds of a question over a view of a table of so many rows, and those of copying its rows and evaluating its query
    alone."""
    lines = "".join(f"{n},{n}\n" for n in range(rows))
    files = {
        "project/seeds/l.csv": "k,v\n" + lines,
        "project/models/l.sql": "MODEL (name a.s, kind SEED (path '../seeds/l.csv'));\n",
        "project/models/m.sql": "MODEL (name a.l, kind FULL); SELECT k, v FROM a.s\n",
    }
    question = 'mesh fetchdf "SELECT COUNT(DISTINCT v) AS n FROM a.l"'
    ask = played.each(PROGRAM, files, ["mesh apply --execution-time 2024-01-03T00:30"], [question] * TIMES)
    suite = Suite("queries", *sys.argv[1:])
    return ask, ours(suite, "rows", rows)[0] + ours(suite, "number", rows)[0]


def main():
    suite = Suite("house", *sys.argv[1:])
    half = recorded(suite, 2048)
    full = recorded(suite, 4096)
    print(f"{CHANGES:,} changes over 2,048 tables: {half:.3f} s")
    print(f"{CHANGES:,} changes over 4,096 tables: {full:.3f} s")
    print(f"growth from half to full: {full / half:.2f}")
    for step, how in ((1, "adjoining"), (2, "every second one")):
        once = forgotten(suite, UNITS, step)
        twice = forgotten(suite, 2 * UNITS, step)
        print(f"{UNITS:,} units forgotten, {how}: {once:.3f} s, growth when doubled {twice / once:.2f}")
    for models, how in ((1_000_000, "of as many models"), (1, "of one model")):
        once = migrated(suite, SNAPSHOTS, models)
        twice = migrated(suite, 2 * SNAPSHOTS, models)
        print(f"{SNAPSHOTS:,} snapshots migrated, {how}: {once:.3f} s, growth when doubled {twice / once:.2f}")
    half, full = promoted(2048), promoted(4096)
    print(f"4,096 models promoted: {full:.4f} s, growth {full / half:.2f}")
    half, full = swept(1250), swept(2500)
    print(f"10,000 snapshots and tables swept: {full:.4f} s, growth {full / half:.2f}")
    ask, alone = asked(100_000)
    print(f"a question over a view of 100,000 rows: {ask:.4f} s, its rows and query alone {alone:.4f} s, ratio {ask / alone:.2f}")


if __name__ == "__main__":
    main()
