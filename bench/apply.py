#!/usr/bin/env python3
"""Times `mesh batch` over a warehouse in memory: an apply of projects that the apply before left unchanged, by the difference
between scripts of one apply and of three; a first apply of a seed of about 4 MB, the most that a seed may have, under ten FULL
models; a question to the last of 4,095 VIEWs, each over the one before, which has to give the row of the table under the first; and
a script that has nothing. Prints the least seconds of processor of three runs, growth when the size doubles, and peak memory.

Usage: bench/apply.py [PROGRAM], where PROGRAM is crates/mesh/out/mesh if left out (`rt run` in its folder makes it)."""
import os
import subprocess
import sys
import tempfile

from measured import TOP

SEED_LIMIT = 4_194_304
APPLY = "apply --execution-time 2024-01-03T00:30\n"


def ran(program, folder, script, warehouse=":memory:"):
    """The least seconds of processor of three runs of a script over the project in a folder, and the most memory in MB."""
    best, peak = None, 0
    for _ in range(3):
        child = subprocess.Popen([program, "--warehouse", warehouse, "batch"], stdin=subprocess.PIPE, stdout=subprocess.DEVNULL, cwd=folder)
        child.stdin.write(script.encode())
        child.stdin.close()
        _, status, used = os.wait4(child.pid, 0)
        assert os.waitstatus_to_exitcode(status) == 0, status
        passed = used.ru_utime + used.ru_stime
        best = passed if best is None else min(best, passed)
        peak = max(peak, used.ru_maxrss // 1024)
    return best, peak


def models(folder, count):
    """A chain of layers of 64 FULL models, each over one of the layer before."""
    os.makedirs(f"{folder}/models")
    for number in range(count):
        query = f"SELECT x + 1 AS x FROM s.m{number - 64:04}" if number >= 64 else "SELECT 1 AS x"
        with open(f"{folder}/models/m{number:04}.sql", "w") as model:
            model.write(f"MODEL (name s.m{number:04}, kind FULL); {query}\n")


def unchanged(program, count):
    """Seconds of one more apply of a project that is unchanged."""
    with tempfile.TemporaryDirectory() as folder:
        models(folder, count)
        one, _ = ran(program, folder, APPLY)
        three, _ = ran(program, folder, 3 * APPLY)
        return (three - one) / 2, one


def seed(folder, rows):
    os.makedirs(f"{folder}/models")
    os.makedirs(f"{folder}/seeds")
    with open(f"{folder}/seeds/s.csv", "w") as file:
        file.write("id,customer,city,amount\n")
        for n in range(rows):
            file.write(f"{n:07d},customer {n % 9973:05d},city {n % 97:02d},{n * 7919 % 1000003:07d}\n")
    with open(f"{folder}/models/s.sql", "w") as model:
        model.write("MODEL (name shop.orders, kind SEED (path '../seeds/s.csv'), columns (id INT, customer TEXT, city TEXT, amount INT));\n")
    picks = ["id", "customer", "city", "amount", "id, amount", "customer, city", "city, amount", "id, customer", "amount, id", "customer, amount"]
    for n, pick in enumerate(picks):
        with open(f"{folder}/models/m{n}.sql", "w") as model:
            model.write(f"MODEL (name shop.m{n}, kind FULL); SELECT {pick} FROM shop.orders\n")


def first(program, rows):
    with tempfile.TemporaryDirectory() as folder:
        seed(folder, rows)
        return ran(program, folder, APPLY)


def chain(program, count):
    """The seconds of asking the last of a table and of VIEWs over one another, which are so many models."""
    with tempfile.TemporaryDirectory() as folder:
        os.makedirs(f"{folder}/models")
        for number in range(count):
            kind, query = ("VIEW", f"SELECT x FROM s.m{number - 1:04}") if number else ("FULL", "SELECT 7 AS x")
            with open(f"{folder}/models/m{number:04}.sql", "w") as model:
                model.write(f"MODEL (name s.m{number:04}, kind {kind}); {query}\n")
        question = f'fetchdf "SELECT x FROM s.m{count - 1:04}"\n'
        words = [program, "--warehouse", ":memory:", "batch"]
        said = subprocess.run(words, input=APPLY + question, capture_output=True, text=True, cwd=folder)
        assert said.returncode == 0 and said.stdout.endswith("\nx\n7\n"), (said.returncode, said.stdout[-200:])
        return ran(program, folder, APPLY + 2 * question)[0] - ran(program, folder, APPLY + question)[0]


def main():
    program = os.path.abspath(sys.argv[1]) if len(sys.argv) > 1 else f"{TOP}/crates/mesh/out/mesh"
    with tempfile.TemporaryDirectory() as folder:
        print(f"a script that has nothing: {ran(program, folder, '')[0]:.3f} s")
    for count in (500, 1_000, 2_048, 4_096):
        more, one = unchanged(program, count)
        print(f"{count} unchanged models: {more:.3f} s (first apply {one:.3f} s)")
    rows = SEED_LIMIT // 41
    half, _ = first(program, rows // 2)
    full, peak = first(program, rows)
    print(f"first apply of a 4 MB seed and ten FULL models: {full:.3f} s, growth {full / half:.2f}, peak memory {peak} MB")
    print(f"a question to the last of 4,095 VIEWs over one another: {chain(program, 4_096):.3f} s")


if __name__ == "__main__":
    main()
