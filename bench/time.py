#!/usr/bin/env python3
"""Times the suite `files` of `mesh_answers`: ranges with 10,000 holes and the units that are missing of 200,000 hours, and the last ticks of
ten crons at 10,000 moments from 1970 to 9999; and half of each. Each is the time of a file that has these lines eleven times
without one that has them once, since a line of its own asks for so many ranges or moments. Prints seconds of processor and
growth.

Usage: bench/time.py [PROGRAM], where PROGRAM is crates/mesh_answers/out/mesh_answers if left out (`rt run` makes it)."""
import sys

from measured import Suite

HOUR = 3_600
CRONS = (
    "@hourly",
    "@daily",
    "@weekly",
    "@monthly",
    "@yearly",
    "30 6 * * *",
    "0 */7 * * *",
    "0 0 29 2 *",
    "0 0 13 * 5",
    "15 12 1-7 6 *",
)


def ranges(suite, holes):
    """The seconds of recording 19 of each 20 hours, and of finding the units that are missing."""
    lines = ["ranges", f"spread 0 {19 * HOUR} {20 * HOUR} {holes}", f"missing-size 0 {20 * HOUR * holes} hour"]
    return suite.each("ranges", lines, f"=> spans {holes}")


def ticks(suite, moments):
    lines = [f"floors {cron} | 25340231 {moments}" for cron in CRONS]
    return suite.each("times", lines, "")


def main():
    suite = Suite("files", *sys.argv[1:])
    for name, measure in (("ranges with holes, and what is missing", ranges), ("last ticks of ten crons", ticks)):
        half, full = measure(suite, 5_000), measure(suite, 10_000)
        print(f"{name}: half {half:.4f} s, full {full:.4f} s, growth {full / half:.2f}")


if __name__ == "__main__":
    main()
