#!/usr/bin/env python3
"""Times the suite `queries` of `mesh_answers` on queries over tables of many rows, and the same queries in SQLite, in memory:
joins, a left join of which half the rows have no partner, groups, sums and maxima of 1,000 groups, DISTINCT, COUNT(DISTINCT), a
filter, a CASE of ten branches, ten columns, arithmetic, functions of texts, UNION ALL and a CTE that is read twice, each over
1,000,000, 100,000 and 50,000 rows. Prints seconds of processor of one evaluation, growth from 50,000 to
100,000 rows, and beside them SQLite's seconds for the same rows, all of which it hands over. Last it prints the most memory
that a run took, and that of the tables alone. The program reads its cases where it runs, so each run gets a folder with a
file of its own.

Usage: bench/eval.py [PROGRAM], where PROGRAM is crates/mesh_answers/out/mesh_answers if left out (`rt run` makes it)."""
import sqlite3
import sys
import time

from measured import Suite

SIZES = (1_000_000, 100_000, 50_000)
BLOCK = 1000
WHENS = " ".join(f"WHEN v % 10 = {n} THEN {n}" for n in range(9))
QUERIES = {
    "join": "SELECT COUNT(*) AS n, SUM(y.v) AS s FROM l AS x JOIN r AS y ON x.k = y.k",
    "where": "SELECT COUNT(*) AS n, SUM(y.v) AS s FROM l AS x, r AS y WHERE x.k = y.k",
    "left": "SELECT COUNT(*) AS n, SUM(y.v) AS s FROM l AS x LEFT JOIN r AS y ON x.k = y.k",
    "group": "SELECT k, COUNT(*) AS n FROM l GROUP BY k",
    "distinct": "SELECT DISTINCT v FROM l",
    "number": "SELECT COUNT(DISTINCT v) FROM l",
    "filter": "SELECT k FROM l WHERE v < {half}",
    "case": f"SELECT CASE {WHENS} ELSE 9 END FROM l",
    "sums": "SELECT k % 1000 AS g, SUM(v) AS s, MAX(v) AS m FROM l GROUP BY k % 1000",
    "columns": "SELECT k, v, k, v, k, v, k, v, k, v FROM l",
    "arithmetic": "SELECT (k + v) * 2 - v % 7 + ABS(3 - v) FROM l",
    "text": "SELECT LENGTH(UPPER(CAST(v AS TEXT)) || 'x') FROM l",
    "union": "SELECT k FROM l UNION ALL SELECT v FROM l",
    "cte": "WITH c AS (SELECT k, v FROM l WHERE v % 2 = 0) SELECT COUNT(*) AS n, SUM(y.v) AS s FROM c AS x JOIN c AS y ON x.k = y.k",
}

# The same in canonical text.
K = "(col 0 1:k)"
V = "(col 0 1:v)"
SAME = f"(eq {K} (col 1 1:k))"
BOTH = "(as 1:n int (count)) (as 1:s int (agg sum (col 1 1:v)))"
LEFT = "(item first (rel 1:a 1:l) none)"
RIGHT = "(rel 1:a 1:r)"
BRANCHES = " ".join(f"(when (eq (rem {V} (int 10)) (int {n})) (int {n}))" for n in range(9))


def select(items, more="", where="none", keys="", how="all plain", first=LEFT):
    """A SELECT from the left table, or what comes first, and more."""
    return f"(select {how} [{items}] [{first}{more}] {where} [{keys}] none)"


TEN = " ".join(f"(as 2:c{n} int {K if n % 2 == 0 else V})" for n in range(10))
SUM = f"(add (sub (mul (add {K} {V}) (int 2)) (rem {V} (int 7))) (call abs [(sub (int 3) {V})]))"
LENGTH = f"(call length [(cat (call upper [(cast text {V})]) (text 1:x))])"
GROUP = f"(rem {K} (int 1000))"
EVEN = f"(eq (rem {V} (int 2)) (int 0))"
CTE = f"(cte [{select(f'(as 1:k int {K}) (as 1:v int {V})', where=EVEN)}])"

# Of the query alone, its SELECTs; with a CTE before them where it has one.
SELECTS = {
    "join": select(BOTH, f" (item inner {RIGHT} {SAME})", how="all grouped"),
    "where": select(BOTH, f" (item cross {RIGHT} none)", SAME, how="all grouped"),
    "left": select(BOTH, f" (item left {RIGHT} {SAME})", how="all grouped"),
    "group": select(f"(as 1:k int {K}) (as 1:n int (count))", keys=K, how="all grouped"),
    "distinct": select(f"(as 1:v int {V})", how="distinct plain"),
    "number": select(f"(as 1:n int (agg countd {V}))", how="all grouped"),
    "filter": select(f"(as 1:k int {K})", where=f"(lt {V} (int {{half}}))"),
    "case": select(f"(as 1:n int (case [{BRANCHES}] (int 9)))"),
    "sums": select(f"(as 1:g int {GROUP}) (as 1:s int (agg sum {V})) (as 1:m int (agg max {V}))", keys=GROUP, how="all grouped"),
    "columns": select(TEN),
    "arithmetic": select(f"(as 1:n int {SUM})"),
    "text": select(f"(as 1:n int {LENGTH})"),
    "union": f"{select(f'(as 1:k int {K})')} {select(f'(as 1:k int {V})')}",
    "cte": select(BOTH, f" (item inner (cte 0) {SAME})", how="all grouped", first="(item first (cte 0) none)"),
}
CTES = {"cte": CTE}
# A copy of a table's rows, for bench/house.py.
SELECTS["rows"] = select(f"(as 1:k int {K}) (as 1:v int {V})")


def table(name, rows, step):
    """The line of a table: rows by the thousand, whose v is their number and whose k is so many times that."""
    said = []
    for begin in range(0, rows, BLOCK):
        v = f"(add (col 0 1:n) (int {begin}))"
        k = v if step == 1 else f"(mul {v} (int {step}))"
        said.append(f"(select all plain [(as 1:k int {k}) (as 1:v int {v})] [(item first (rel 1:a 1:b) none)] none [] none)")
    return f"table 1:{name} | (query [] [{' '.join(said)}])"


def cases(what, rows, times):
    """The lines of a query that is evaluated so often over two tables of so many rows, which are whole thousands."""
    numbers = " ".join(f"[(int {n})]" for n in range(BLOCK))
    block = f"table 1:b | (seed [(column 1:n int)] [{numbers}])"
    tables = [table("l", rows, 1), table("r", rows, 2 if what == "left" else 1)]
    query = SELECTS[what].format(half=rows // 2)
    return [block, *tables] + [f"sum {what} | (query [{CTES.get(what, '')}] [{query}])"] * times


def run(suite, what, rows, times, runs=1):
    """The least seconds of processor of some runs, megabytes at the most, and what was printed."""
    return suite.taken("cases.txt", cases(what, rows, times), runs)


def ours(suite, what, rows):
    """The least seconds of one evaluation, without those that making the tables takes, and what one prints."""
    times = 1 if rows > 100_000 else 5
    none, _, _ = run(suite, what, rows, 0, 3)
    least, _, said = run(suite, what, rows, times, 3)
    return (least - none) / times, " ".join(set(said.splitlines()))


def theirs(what, rows):
    """The least seconds in SQLite, and the number of rows with the sum of their numbers."""
    base = sqlite3.connect(":memory:")
    base.execute("CREATE TABLE l (k INT, v INT)")
    base.execute("CREATE TABLE r (k INT, v INT)")
    step = 2 if what == "left" else 1
    base.executemany("INSERT INTO l VALUES (?, ?)", ((n, n) for n in range(rows)))
    base.executemany("INSERT INTO r VALUES (?, ?)", ((n * step, n) for n in range(rows)))
    query = QUERIES[what].format(half=rows // 2)
    best = None
    for _ in range(3):
        begin = time.process_time()
        answer = base.execute(query).fetchall()
        passed = time.process_time() - begin
        best = passed if best is None else min(best, passed)
    return best, f"sum {what}: {len(answer)} {sum(cell for row in answer for cell in row)}"


def main():
    suite = Suite("queries", *sys.argv[1:])
    for what in QUERIES:
        taken = {}
        for rows in SIZES:
            own, said = ours(suite, what, rows)
            other, wanted = theirs(what, rows)
            assert said == wanted, (what, rows, said, wanted)
            taken[rows] = own
            print(f"{what}, {rows:,} rows: {own:.4f} s, SQLite {other:.4f} s, ratio {own / other:.2f}")
        print(f"{what}: growth {taken[100_000] / taken[50_000]:.2f}")
    for what in ("join", "group", "distinct"):
        _, tables, _ = run(suite, what, 1_000_000, 0)
        _, most, _ = run(suite, what, 1_000_000, 1)
        print(f"{what}, 1,000,000 rows: {most:.0f} MB at the most, the two tables alone {tables:.0f} MB")


if __name__ == "__main__":
    main()
