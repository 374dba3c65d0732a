#!/usr/bin/env python3
"""Times the suite `plans` of `mesh_answers` on loading whole projects from a folder, of models of 300 bytes each: a chain, a
star, and 64 layers of 64 models that read three of the layer before; and one of a seed of nearly 4 MB, whose cells are in its
fingerprint, beside reading that seed alone. Prints seconds of processor and growth.

Usage: bench/project.py [PROGRAM], where PROGRAM is crates/mesh_answers/out/mesh_answers if left out (`rt run` makes it)."""
import sys

import text as texts
from measured import Suite

BYTES = 300
ROWS = 120_000
SEED = "MODEL (name s.s, kind SEED (path '../seeds/s.csv'), columns (id INT, day DATE, name TEXT));\n"


def text(name, query):
    front = f"MODEL (name s.{name}, kind FULL); {query} "
    return front + "-- " + "x" * (BYTES - len(front) - 3)


def chain(count):
    return [text(f"m{i:04}", f"SELECT x + 1 AS x FROM s.m{i - 1:04}" if i else "SELECT 1 AS x") for i in range(count)]


def star(count):
    return [text(f"m{i:04}", "SELECT x + 1 AS x FROM s.m0000" if i else "SELECT 1 AS x") for i in range(count)]


def layers(width, height):
    made = []
    for rank in range(height):
        for place in range(width):
            names = [f"s.m{rank - 1:02}_{(place + k) % width:02}" for k in (0, 1, 7)]
            joins = " CROSS JOIN ".join(f"{name} AS p{k}" for k, name in enumerate(names))
            made.append(text(f"m{rank:02}_{place:02}", f"SELECT p0.x AS x FROM {joins}" if rank else "SELECT 1 AS x"))
    return made


def seconds(suite, models):
    files = {f"project/models/m{number:04}.sql": model for number, model in enumerate(models)}
    least, _, said = suite.taken("cases.txt", ["read project"], 3, files)
    assert said == f"read project {len(models)}\n", said
    return least


def seed(suite):
    """The seconds of loading a project of one seed, and those of reading its file alone."""
    rows = "id,day,name\n" + "1234567,2024-02-29,a longer text\n" * ROWS
    files = {"project/models/s.sql": SEED, "project/seeds/s.csv": rows}
    loaded, _, said = suite.taken("cases.txt", ["read project"], 3, files)
    assert said == "read project 1\n", said
    return loaded, texts.seed([None, None, Suite("files", *sys.argv[1:])], ROWS, "id int day date name text")[0]


def main():
    suite = Suite("plans", *sys.argv[1:])
    for name, made in (("chain", chain), ("star", star)):
        few, half, full = seconds(suite, made(1000)), seconds(suite, made(2048)), seconds(suite, made(4096))
        print(f"{name}: 1,000 models {few:.3f} s, 2,048 models {half:.3f} s, 4,096 models {full:.3f} s, growth {full / max(half, 1e-9):.2f}")
    half, full = seconds(suite, layers(64, 32)), seconds(suite, layers(64, 64))
    print(f"layers: 2,048 models {half:.3f} s, 4,096 models {full:.3f} s, growth {full / max(half, 1e-9):.2f}")
    loaded, read = seed(suite)
    print(f"a seed of 4 MB: {loaded:.3f} s, reading it alone {read:.3f} s, {loaded - read:.3f} s more")


if __name__ == "__main__":
    main()
