#!/usr/bin/env python3
"""Tries what a warehouse in a file does when things go wrong, with the project of `examples/shop`. Four tries:

kill  An apply is killed by SIGKILL at random moments of its length, each time over a warehouse that has the orders alone, and is then
      given again. The second one has to answer 0, and each view to show what it shows after an apply that was never stopped.
full  An apply writes to a small disk of its own (a tmpfs) with so many pages free, from none on by growing steps up to a number that is
      enough. Each has to answer 0 or 3. Once there is space the file has to be readable, and the same apply to answer 0 and to show
      the same. Where nothing can be mounted, a line says that this was left out.
byte  One byte of a finished warehouse's file is changed at random places, each in a copy of its own. Each of some commands over
      each copy has to end by itself with one of the statuses 0, 1, 3 and 7. Counted is how often rows came that differ, all of
      which has to be at places within the records of tables and sources.
two   Two processes over one file at once, which nothing promises: printed is what comes of them.

The random numbers begin with a fixed seed. What has to hold is asserted; the rest is printed.

Usage: bench/durable.py [PROGRAM] [--only TRY] [--kills N] [--bytes N] [--pairs N], where PROGRAM is crates/mesh/out/mesh if left out,
and the numbers are 200, 500 and 50."""
import argparse
import collections
import contextlib
import os
import random
import re
import shutil
import sqlite3
import subprocess
import sys
import tempfile
import time

from measured import TOP

SEED = 20240103
SHOP = f"{TOP}/examples/shop"
FILE = "warehouse.db"
# The longest that a command may take: one that takes longer hangs.
LIMIT = 600
INGEST = ["ingest", "raw.orders", "orders.csv"]
# Thirty days, so that an apply has many changes.
APPLY = ["apply", "--execution-time", "2024-01-31T00:30"]
NEXT = ["run", "--execution-time", "2024-02-01T00:30"]
PLAN = ["plan", "--execution-time", "2024-01-31T00:30"]
VIEWS = ["shop.daily", "shop.totals"]
QUESTIONS = [["fetchdf", f"SELECT * FROM {view}"] for view in VIEWS]


def command(program, folder, words):
    """The words of a command over the shop and the file in a folder."""
    return [program, "--warehouse", f"{folder}/{FILE}", "--paths", SHOP, *words]


def ran(program, folder, words):
    """A command's status, what it printed, and what it wrote as its fault. The status is None where it hangs."""
    try:
        done = subprocess.run(command(program, folder, words), stdin=subprocess.DEVNULL, capture_output=True, timeout=LIMIT)
    except subprocess.TimeoutExpired:
        return None, b"", b""
    return done.returncode, done.stdout, done.stderr


def sure(program, folder, words):
    """What a command prints that has to be done."""
    status, out, err = ran(program, folder, words)
    assert status == 0, (words, status, err)
    return out


def views(program, folder):
    """The rows behind every view."""
    return [sure(program, folder, question) for question in QUESTIONS]


def copied(base, folder):
    """The files of a warehouse, in another folder."""
    os.makedirs(folder)
    for name in os.listdir(base):
        shutil.copy(f"{base}/{name}", folder)


def looked_at(base, spare):
    """Whether sqlite3 finds the file of a folder whole. It reads a copy, so that the file itself is left alone."""
    shutil.rmtree(spare, ignore_errors=True)
    copied(base, spare)
    with contextlib.closing(sqlite3.connect(f"{spare}/{FILE}")) as file:
        assert file.execute("PRAGMA integrity_check").fetchone() == ("ok",)
        return file.execute("SELECT count(*) FROM things").fetchone()[0] > 0


def prepared(program, folder):
    """A warehouse that has the orders alone, another one after an apply, and what its views show."""
    before, after = f"{folder}/before", f"{folder}/after"
    os.makedirs(before)
    sure(program, before, INGEST)
    copied(before, after)
    sure(program, after, APPLY)
    return before, after, views(program, after)


def tally(counter):
    """How often each of some answers came."""
    shorter = sorted(counter.items(), key=lambda item: (len(str(item[0])), str(item[0])))
    return ", ".join(f"{key}: {count}" for key, count in shorter)


def length(program, base, folder):
    """The longest seconds of five applies that aren't stopped."""
    longest = 0.0
    for number in range(5):
        copied(base, f"{folder}/length{number}")
        begin = time.perf_counter()
        sure(program, f"{folder}/length{number}", APPLY)
        longest = max(longest, time.perf_counter() - begin)
    return longest


def killed(program, base, folder, delay):
    """Whether an apply over a copy was still running after some seconds, when it was killed."""
    copied(base, folder)
    child = subprocess.Popen(command(program, folder, APPLY), stdin=subprocess.DEVNULL, stdout=subprocess.DEVNULL, stderr=subprocess.DEVNULL)
    time.sleep(delay)
    child.kill()
    status = child.wait()
    assert status in (-9, 0), status
    return status != 0


def try_kill(program, folder, times):
    before, _, shown = prepared(program, folder)
    longest = length(program, before, folder)
    draws, left, ended = random.Random(SEED), collections.Counter(), 0
    while sum(left.values()) < times:
        trial = f"{folder}/trial"
        if killed(program, before, trial, draws.uniform(0, longest)):
            assert looked_at(trial, f"{folder}/spare")
            out = sure(program, trial, APPLY)
            left[int(re.search(rb"^(\d+) units$", out, re.M)[1])] += 1
            assert views(program, trial) == shown
        else:
            ended += 1
            assert ended < 20 * times, "applies end before they can be killed"
        shutil.rmtree(trial)
    print(f"kill: {times} applies of {longest * 1000:.0f} ms were killed, {ended} more had ended before; the same apply answered 0 after each,")
    print("  and each view showed what it shows after one that was never stopped. So often so many units were left to it:")
    print(f"  {tally(left)}")


def mounted(folder):
    """Whether a disk of 8 MB of its own could be mounted at a folder."""
    os.makedirs(folder)
    try:
        return subprocess.run(["mount", "-t", "tmpfs", "-o", "size=8m", "tmpfs", folder], capture_output=True).returncode == 0
    except OSError:
        return False


def filled(disk, pages):
    """Fills a disk up to so many free pages."""
    room = os.statvfs(disk)
    with open(f"{disk}/filler", "wb") as filler:
        filler.write(bytes(max(0, (room.f_bavail - pages) * room.f_bsize)))


def full_disk(program, base, disk, pages, shown, seen):
    """The status of an apply on a disk with so many free pages, after which there is space again."""
    for name in os.listdir(base):
        shutil.copy(f"{base}/{name}", disk)
    filled(disk, pages)
    status, _, err = ran(program, disk, APPLY)
    assert status in (0, 3), (pages, status, err)
    if status == 3:
        assert err == b"warehouse fault\n", err
        seen[ran(program, disk, PLAN)[0]] += 1
    os.remove(f"{disk}/filler")
    sure(program, disk, PLAN)
    sure(program, disk, APPLY)
    assert views(program, disk) == shown
    for name in os.listdir(disk):
        os.remove(f"{disk}/{name}")
    return status


def try_full(program, folder, _):
    before, _, shown = prepared(program, folder)
    disk = f"{folder}/disk"
    if not mounted(disk):
        print("full: left out, since nothing can be mounted here")
        return
    try:
        pages, tries, seen = 0, 0, collections.Counter()
        while full_disk(program, before, disk, pages, shown, seen) == 3:
            tries += 1
            pages += 1 + pages // 8
        assert tries > 0, "an apply needs no free page"
    finally:
        subprocess.run(["umount", "-l", disk], check=True)
    print(f"full: an apply answered 3 at {tries} numbers of free pages from 0 on, and 0 at {pages}. While the disk was still full, a plan had")
    print(f"  the statuses {tally(seen)}; with space again a plan and the same apply answered 0, and each view showed the same")


def own_places(base, spare):
    """The bytes of a warehouse's file, and the places in it at which a record of a table or of a source stands."""
    copied(base, spare)
    with open(f"{spare}/{FILE}", "rb") as opened:
        content = opened.read()
    with contextlib.closing(sqlite3.connect(f"{spare}/{FILE}")) as conn:
        bodies = [bytes(body) for (body,) in conn.execute("SELECT body FROM things WHERE kind IN (5, 6)")]
    places = set()
    # A record that is longer than a page lies in pieces.
    pieces = bodies[:]
    while pieces:
        piece = pieces.pop()
        at = content.find(piece)
        if at >= 0:
            while at >= 0:
                places.update(range(at, at + len(piece)))
                at = content.find(piece, at + 1)
        elif len(piece) > 16:
            middle = len(piece) // 2
            pieces += [piece[:middle], piece[middle:]]
    return content, places


def try_byte(program, folder, times):
    _, after, shown = prepared(program, folder)
    content, own = own_places(after, f"{folder}/spare")
    questions = [*QUESTIONS, PLAN, NEXT, *QUESTIONS]
    whole = f"{folder}/whole"
    copied(after, whole)
    expected = [sure(program, whole, words) for words in questions]
    assert expected[:2] == shown
    draws, statuses, differ, outside = random.Random(SEED), collections.Counter(), 0, []
    for _ in range(times):
        place = draws.randrange(len(content))
        value = (content[place] + draws.randrange(1, 256)) % 256
        trial = f"{folder}/trial"
        copied(after, trial)
        with open(f"{trial}/{FILE}", "r+b") as file:
            file.seek(place)
            file.write(bytes([value]))
        others = False
        for words, rows in zip(questions, expected):
            status, out, err = ran(program, trial, words)
            assert status in (0, 1, 3, 7), (place, value, words, status, err)
            statuses[status] += 1
            others = others or (words in QUESTIONS and status == 0 and out != rows)
        differ += others
        if others and place not in own:
            outside.append((place, value))
        shutil.rmtree(trial)
    print(f"byte: {times} places of {len(content)} bytes, of which {len(own)} are of tables' and sources' records; {len(questions)} commands over each:")
    print(f"  status {tally(statuses)}; rows differed after {differ} of the changes, of which {len(outside)} were outside of these records: {outside}")
    assert not outside, outside


def two(program, base, folder, pair, after):
    """The statuses of two commands that are begun at once, that of one more after them, and what the views then show."""
    copied(base, folder)
    streams = {"stdin": subprocess.DEVNULL, "stdout": subprocess.DEVNULL, "stderr": subprocess.DEVNULL}
    children = [subprocess.Popen(command(program, folder, words), **streams) for words in pair]
    statuses = tuple(child.wait() for child in children)
    then, _, _ = ran(program, folder, after)
    shows = [ran(program, folder, question)[:2] for question in QUESTIONS]
    shutil.rmtree(folder)
    return statuses, then, shows


def try_two(program, folder, times):
    before, after, shown = prepared(program, folder)
    for name, base, pair, one in [
        ("two applies", before, (APPLY, APPLY), APPLY),
        ("an apply and a question", before, (APPLY, QUESTIONS[1]), APPLY),
        ("a run and a question", after, (NEXT, QUESTIONS[1]), NEXT),
        ("a run and an ingest", after, (NEXT, INGEST), NEXT),
    ]:
        ends, thens, same = collections.Counter(), collections.Counter(), 0
        for _ in range(times):
            statuses, then, shows = two(program, base, f"{folder}/trial", pair, one)
            ends[statuses] += 1
            thens[then] += 1
            same += shows == [(0, rows) for rows in shown]
        print(f"two: {name} at once {times} times, statuses {tally(ends)}; one more {one[0]}, status {tally(thens)};")
        print(f"  then the views showed what they show after one alone {same} times")


TRIES = {"kill": try_kill, "full": try_full, "byte": try_byte, "two": try_two}


def main():
    line = argparse.ArgumentParser()
    line.add_argument("program", nargs="?", default=f"{TOP}/crates/mesh/out/mesh")
    line.add_argument("--only", choices=TRIES)
    line.add_argument("--kills", type=int, default=200)
    line.add_argument("--bytes", type=int, default=500)
    line.add_argument("--pairs", type=int, default=50)
    words = line.parse_args()
    program = os.path.abspath(words.program)
    times = {"kill": words.kills, "full": None, "byte": words.bytes, "two": words.pairs}
    for name, one in TRIES.items():
        if words.only in (None, name):
            with tempfile.TemporaryDirectory(prefix="mesh-durable-") as folder:
                one(program, folder, times[name])
                sys.stdout.flush()


if __name__ == "__main__":
    main()
