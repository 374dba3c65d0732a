#!/usr/bin/env python3
"""Times the suite `plans` of `mesh_answers` on projects of many incremental models, each over all of the rank below it,
joined and bound to the unit: the categories of all, where each gains a column; what all models read; and which aren't steady.
Each also with half of the ranks. Then its suite `rows` on plans: of a project that is unchanged, over a book of four times as many
snapshots; and of one model with many hours, none of which is recorded. A plan's seconds are those of the command without
those of one at an earlier moment, which loads the project, reads the book and refuses. Last `mesh batch` over a warehouse in a file
whose version has all hours but one of every twenty, by scripts of one plan and of many. Prints seconds of processor and growth.

Usage: bench/plan.py [lattice] [plans] [holes] for one of the parts; the programs are crates/mesh_answers/out/mesh_answers and
crates/mesh/out/mesh (`rt run` makes them)."""
import datetime
import os
import sqlite3
import sys
import tempfile

import apply
import played
from measured import TOP, Suite

PROGRAM = f"{TOP}/crates/mesh/out/mesh"
TIMES = 60
REFUSED = 7
HOURS = {200_000: "2023-10-26T08:00", 100_000: "2012-05-29T16:00"}
HOURLY = "MODEL (name s.m, kind INCREMENTAL_BY_TIME_RANGE (time_column t), start '2001-01-01', cron '@hourly'); SELECT 1 AS t\n"
FIRST = int(datetime.datetime(2001, 1, 1, tzinfo=datetime.timezone.utc).timestamp())
EACH = 20
VERSION = 2


def seconds(suite, lines):
    return suite.taken("cases.txt", lines, 2)[0]


def asked(suite, width, height, words):
    """The seconds of one question of each kind to a project, without those that making the project takes."""
    front = [f"lattice {width} {height}", "project", f"wider {width} {height}"]
    none = seconds(suite, front + [f"{words[0]} 1"])
    return [(seconds(suite, front + [f"{words[0]} 1", f"{word} {TIMES}"]) - none) / TIMES for word in words]


def lattices():
    suite = Suite("plans")
    words = ("count", "readings", "unsteady")
    halves, fulls = asked(suite, 64, 32, words), asked(suite, 64, 64, words)
    for name, half, full in zip(("categorize", "reads", "unsteady"), halves, fulls):
        print(f"{name}: 2,048 models {half:.4f} s, 4,096 models {full:.4f} s, growth {full / max(half, 1e-9):.2f}")


def planned(files, front, moment):
    """The seconds of planning behind these steps, which end at a moment."""
    plan = played.each(played.PROGRAM, files, front, [f"mesh plan --execution-time {moment}"] * TIMES)
    refused = played.each(played.PROGRAM, files, front, ["mesh plan --execution-time 2000-01-01"] * TIMES, REFUSED)
    return plan - refused


def unchanged(count):
    """The seconds of a plan that has nothing to do, over a book with four versions of each model."""
    return planned(played.star(count), played.applied(4), "2024-01-03T00:30")


def hours(count):
    """The seconds of a plan of one model with so many hours, of which none is recorded."""
    moment = HOURS[count]
    return planned({"project/models/m.sql": HOURLY}, [f"mesh janitor --execution-time {moment}"], moment)


def plans():
    for half, full in ((500, 1000), (2048, 4096)):
        once, twice = unchanged(half), unchanged(full)
        print(f"unchanged plan, {full:,} models, {4 * full:,} snapshots: {twice:.4f} s, growth {twice / once:.2f}")
    once, twice = hours(100_000), hours(200_000)
    print(f"plan of 200,000 hours, all due: {twice:.4f} s, growth {twice / once:.2f}")


def listed(parts):
    """The text of a list of texts."""
    return b"[" + b" ".join(b"%d:%s" % (len(part), part) for part in parts) + b"]"


def parts(text):
    """The texts of a list."""
    found, at = [], 1
    while text[at : at + 1] != b"]":
        colon = text.index(b":", at)
        end = colon + 1 + int(text[at:colon])
        found.append(text[colon + 1 : end])
        at = end + (text[end : end + 1] == b" ")
    return found


def record(path, spans):
    """Gives the one version of a warehouse's file these spans of seconds."""
    store = sqlite3.connect(path)
    name, body = store.execute("SELECT name, body FROM things WHERE kind = ?", (VERSION,)).fetchone()
    fields = parts(bytes(body))
    fields[2] = listed(listed((b"%d" % start, b"%d" % end)) for start, end in spans)
    store.execute("UPDATE things SET body = ? WHERE kind = ? AND name = ?", (listed(fields), VERSION, name))
    store.commit()
    store.close()


def holed(count):
    """The seconds of a plan of one model with so many hours, of which one in every few isn't recorded."""
    with tempfile.TemporaryDirectory() as folder:
        os.makedirs(f"{folder}/models")
        with open(f"{folder}/models/m.sql", "w") as model:
            model.write(HOURLY)
        path = f"{folder}/warehouse.db"
        apply.ran(PROGRAM, folder, "apply --execution-time 2001-01-01T01:30\n", path)
        hour = lambda n: FIRST + n * 3600
        record(path, [(hour(n), hour(n + EACH - 1)) for n in range(0, count, EACH)])
        plan = f"plan --execution-time {HOURS[count]}\n"
        return (apply.ran(PROGRAM, folder, plan * (1 + TIMES), path)[0] - apply.ran(PROGRAM, folder, plan, path)[0]) / TIMES


def holes():
    once, twice = holed(100_000), holed(200_000)
    print(f"plan of 200,000 hours with {200_000 // EACH:,} holes: {twice:.4f} s, growth {twice / once:.2f}")


def main():
    asked_for = sys.argv[1:] or ["lattice", "plans", "holes"]
    if "lattice" in asked_for:
        lattices()
    if "plans" in asked_for:
        plans()
    if "holes" in asked_for:
        holes()


if __name__ == "__main__":
    main()
