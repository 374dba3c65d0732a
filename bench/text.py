#!/usr/bin/env python3
"""Times suites of `mesh_answers` on texts: `text` on a query of nearly 1 MB with many CTEs and items, some nested 60 deep,
which is scanned into tokens, and its tokens are read; `queries` on the names and types of a query of many CTEs, each with
joins and groups, that are joined; and `files` on a seed of nearly 4 MB, without declared columns and with them. Each also at
half the size. Prints seconds of processor for one text, megabytes of text a second, and growth.

A text's seconds are those of its line without those of one with as long a text that is refused sooner: tokens at their first
byte; a tree at its first token; names and types at the first name of a query that is refused at the last name. A seed's are
those without a line that takes as long a text for a day.

Usage: bench/text.py [PROGRAM], where PROGRAM is crates/mesh_answers/out/mesh_answers if left out (`rt run` makes it)."""
import sys

from measured import Suite, filled, report

CTE = "c AS (SELECT a, count(*) AS n FROM s.t WHERE a > 1 GROUP BY a), "
ITEM = "t.amount * 2 + 10 AS total_amount, "
DEEP = "(" * 60 + "1" + ")" * 60 + " AS z, "
REFUSED = "-:0: M1 syntax"

MODELS = (
    "model | MODEL (name s.t, kind SEED (path 's.csv'), columns (k TEXT, amount INT, day DATE));",
    "model | MODEL (name s.u, kind SEED (path 's.csv'), columns (k TEXT, w INT));",
)
GROUPS = (
    "c# AS (SELECT t.k, t.amount * 2 + 10 AS x, CASE WHEN u.w BETWEEN 1 AND 5 THEN 'low' ELSE t.k END AS l, COUNT(*) AS n "
    "FROM s.t JOIN s.u ON t.k = u.k WHERE day = '2024-02-29' GROUP BY t.k, t.amount, u.w), "
)
UNKNOWN = "M7 unknown column w"


def query(size):
    """A query of many CTEs, and then of many items of which some are nested 60 deep, so many bytes at most."""
    ctes, items, deep = f"{{{size // 200}*{CTE}}}", f"{{{size // 100}*{ITEM}}}", f"{{{size // 500}*{DEEP}}}"
    return f"WITH {ctes}d AS (SELECT 1 AS a) SELECT {items}{deep}1 AS z FROM s.t"


def tokens(suites, size):
    text = query(size)
    scanned = suites[0].each("limits.txt", [f") {text}"], REFUSED)
    return scanned - suites[0].each("tokens.txt", [f"? {text}"], REFUSED), len(filled(text))


def tree(suites, size):
    text = query(size)
    read = suites[0].each("limits.txt", [text], " read")
    return read - suites[0].each("limits.txt", [f") {text}"], REFUSED), len(filled(text))


def grouped(size, first, last):
    """A query of many CTEs over a join, each a group of rows, and of a SELECT over a join of a tenth of them, so many bytes at
    most, which begins and ends with a column."""
    count = size // 250
    items, joins = f"{{{count // 10} a#.x + a#.n AS x#, }}", f"{{{count // 10}  JOIN c# AS a# ON a#.k = y.k}}"
    return f"WITH y AS (SELECT {first} FROM s.t), {{{count} {GROUPS}}}z AS (SELECT 1 AS k) SELECT {items}{last} FROM s.u AS y{joins}"


def names(suites, size):
    # The same bytes, but that the column that isn't there stands in the other place.
    soon, late = grouped(size, "w", "w"), grouped(size, "k", "t")
    resolved = suites[1].each("resolved.txt", [f"read | {late}"], "M7 unknown column t", MODELS)
    return resolved - suites[1].each("resolved.txt", [f"read | {soon}"], "M7 unknown column w", MODELS), len(filled(late))


def seed(suites, rows, columns):
    """A seed of rows of a number, a day and a text, about 34 bytes each."""
    text = f"id,day,name\\n{{{rows} 1234567,2024-02-29,a longer text\\n}}"
    read = suites[2].each("seeds", [f"seed-size {text}"], f"columns 3, rows {rows}", [f"columns {columns}"])
    return read - suites[2].each("times", [f"day {text}"], "none"), len(filled(text))


def main():
    suites = [Suite(name, *sys.argv[1:]) for name in ("text", "queries", "files")]
    measures = (
        ("tokens", tokens, 1_000_000),
        ("parse", tree, 1_000_000),
        ("resolve", names, 1_000_000),
        ("read_seed", lambda all, rows: seed(all, rows, ""), 120_000),
        ("read_seed of declared columns", lambda all, rows: seed(all, rows, "id int day date name text"), 120_000),
    )
    for name, measure, size in measures:
        half, _ = measure(suites, size // 2)
        full, length = measure(suites, size)
        report(name, length, half, full)


if __name__ == "__main__":
    main()
