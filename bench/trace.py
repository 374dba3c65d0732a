#!/usr/bin/env python3
"""Times `mesh trace` and `mesh impact` over projects of models with ten columns: a chain, and layers of 40 models that
read three of the layer before. Each column is made of two to four columns below, so that nearly all of a project is in
a trace. What a command takes is its seconds of processor without those of one that names no relation, which loads the
project and is refused. Prints them beside the seconds of loading, with the number of lines, and their growth where
there are twice as many models.

Usage: bench/trace.py [PROGRAM], where PROGRAM is crates/mesh/out/mesh if left out (`rt run` makes it)."""
import os
import subprocess
import sys
import tempfile

from measured import TOP

PROGRAM = os.path.abspath(sys.argv[1]) if sys.argv[1:] else f"{TOP}/crates/mesh/out/mesh"
COLUMNS = 10
WIDTH = 40
RUNS = 7


def items(tables):
    """Each column out of that of each of the tables, and of the next one of the first table."""
    summed = lambda k: " + ".join([f"{table}.c{k}" for table in tables] + [f"{tables[0]}.c{(k + 1) % COLUMNS}"])
    return ", ".join(f"{summed(k)} AS c{k}" for k in range(COLUMNS))


def first():
    return "SELECT " + ", ".join(f"{k} AS c{k}" for k in range(COLUMNS))


def chain(count):
    """The names and queries of a chain of models."""
    return [(f"m{i:04}", f"SELECT {items(['p'])} FROM s.m{i - 1:04} AS p" if i else first()) for i in range(count)]


def layers(count):
    made = []
    for i in range(count):
        rank, place = divmod(i, WIDTH)
        below = [f"s.m{(rank - 1) * WIDTH + (place + k) % WIDTH:04}" for k in (0, 1, 7)]
        joins = " CROSS JOIN ".join(f"{name} AS p{k}" for k, name in enumerate(below))
        made.append((f"m{i:04}", f"SELECT {items(['p0', 'p1', 'p2'])} FROM {joins}" if rank else first()))
    return made


def seconds(folder, words, status):
    """The least seconds of processor of some runs, and how many lines the last one printed."""
    least = None
    for _ in range(RUNS):
        command = [PROGRAM, *words]
        child = subprocess.Popen(command, cwd=folder, stdout=subprocess.PIPE, stderr=subprocess.DEVNULL)
        lines = child.stdout.read().count(b"\n")
        _, ended, used = os.wait4(child.pid, 0)
        assert os.waitstatus_to_exitcode(ended) == status, (words, ended)
        passed = used.ru_utime + used.ru_stime
        least = passed if least is None else min(least, passed)
    return least, lines


def measured(models):
    """The seconds of loading, of a trace from the last model and of an impact of the first, with their lines."""
    with tempfile.TemporaryDirectory() as folder:
        os.makedirs(f"{folder}/models")
        for name, query in models:
            with open(f"{folder}/models/{name}.sql", "w") as file:
                file.write(f"MODEL (name s.{name}, kind FULL); {query}\n")
        loaded, _ = seconds(folder, ["trace", "s.none", "c0"], 1)
        traced, above = seconds(folder, ["trace", f"s.{models[-1][0]}", "c0"], 0)
        affected, below = seconds(folder, ["impact", f"s.{models[0][0]}", "c0"], 0)
        return loaded, traced - loaded, affected - loaded, above, below


def main():
    for name, made in (("chain", chain), ("layers", layers)):
        before = None
        for count in (1000, 2048, 4096):
            loaded, traced, affected, above, below = measured(made(count))
            print(f"{name}: {count:,} models, loading {loaded:.3f} s", end="; ")
            print(f"a trace of {above:,} lines {traced:.4f} s, {traced / loaded:.3f} of loading", end="; ")
            print(f"an impact of {below:,} lines {affected:.4f} s, {affected / loaded:.3f} of loading", end="")
            if before and count == 4096:
                print(f"; growth {traced / max(before[0], 1e-9):.2f} and {affected / max(before[1], 1e-9):.2f}", end="")
            print(flush=True)
            before = (traced, affected)


if __name__ == "__main__":
    main()
