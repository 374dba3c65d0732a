#!/usr/bin/env python3
"""Times the suite `files` of `mesh_answers` on the canonical text of a seed: a file of 4 MB of rows, and half of it, written
and read. Reading is a line that reads the text without one that takes it for a day, and writing a line that writes it again
without that which only reads it. Prints seconds of processor for one text, megabytes of text a second, and growth. Last it
has each kind of node that holds another nested 4,095 deep (WHENs half as deep), read, copied, written and dropped, on a
stack of 8 MB.

Usage: bench/canon.py [PROGRAM], where PROGRAM is crates/mesh_answers/out/mesh_answers if left out (`rt run` makes it)."""
import resource
import sys

from measured import Suite, filled, report

ROWS = 100_000
DEPTH = 4_095
SEED = "(own 1:a 1:s (seed) 9:0 0 * * * day none [] (seed [(column 2:id int) (column 1:t text)] ["
QUERY = "(own 1:a 1:d (full) 9:0 0 * * * day none [] (query [] [(select all plain [(as 1:x bool "
NODES = (
    ("(not ", ")", DEPTH),
    ("(neg ", ")", DEPTH),
    ("(isnull ", ")", DEPTH),
    ("(add ", " null)", DEPTH),
    ("(add null ", ")", DEPTH),
    ("(between null null ", ")", DEPTH),
    ("(in null [null ", "])", DEPTH),
    ("(cast bool ", ")", DEPTH),
    ("(call coalesce [null ", "])", DEPTH),
    ("(case [(when true ", ")] null)", DEPTH // 2),
    ("(case [] ", ")", DEPTH),
    ("(agg sum ", ")", DEPTH),
)


def texts(suite, count):
    """The seconds of writing and of reading the text of a seed of so many rows, and its bytes."""
    row = "[(int 100000#) (text 25:a text of twenty-five byt)]"
    text = f"{SEED}{{{count - 1} {row} }}{row.replace('#', '7')}]))"
    size = len(filled(text))
    none = suite.each("times", [f"day {text}"], "none")
    read = suite.each("canon", [f"read-own {text}"], "=> read")
    both = suite.each("canon", [f"own {text}"], f"=> kept, bytes {size}")
    return both - read, read - none, size


def nested(suite):
    resource.setrlimit(resource.RLIMIT_STACK, (8 << 20, resource.getrlimit(resource.RLIMIT_STACK)[1]))
    lines = [f"copied {QUERY}{{{depth} {front}}}null{{{depth} {back}}})] [] none [] none)]))" for front, back, depth in NODES]
    _, said = suite.ran("canon", lines)
    sizes = [len(filled(line)) - len("copied ") for line in lines]
    assert said == "".join(f"{line} => kept, bytes {size}\n" for line, size in zip(lines, sizes)), said[-1000:]
    print(f"nested {DEPTH:,} deep: {sum(sizes)} bytes")


def main():
    suite = Suite("files", *sys.argv[1:])
    half, full = texts(suite, ROWS // 2), texts(suite, ROWS)
    report("own_text", full[2], half[0], full[0])
    report("read_own", full[2], half[1], full[1])
    nested(suite)


if __name__ == "__main__":
    main()
