#!/usr/bin/env python3
"""Tries the tools of `docs/TOOLS.md` with a program, on copies of the projects of `examples/`: mesh-at on real faults,
mesh-guard and mesh-diff on real warehouses, completion in bash and zsh, Vim's list of errors, the task and the matcher for
VS Code, and the steps of the workflow for GitHub. What is expected is written here by hand; for completion it is what
`docs/COMMANDS.md` says. Where vim, zsh or Python's yaml isn't there, that is skipped and said.

One line is printed for each trial. The status is 1 if one went wrong.

Usage: bench/tools.py [PROGRAM]"""
import json
import os
import pty
import re
import shlex
import shutil
import signal
import subprocess
import sys
import tempfile
import time

TOP = os.path.dirname(os.path.dirname(os.path.abspath(__file__)))
LINE = "MODEL (name shop.totals, kind FULL);\n"
DAILY = "MODEL (name shop.daily, kind INCREMENTAL_BY_TIME_RANGE (time_column day), start '2024-01-01');\n"
AT = ("--execution-time", "2024-01-03T00:30")
ADDED = """plan prod at 2024-01-03T00:30:00
added shop.daily INCREMENTAL_BY_TIME_RANGE
added shop.totals FULL
due shop.daily 2024-01-01T00:00:00 2024-01-03T00:00:00 2
due shop.totals whole
3 units
"""
REMOVED = """plan prod at 2024-01-03T00:30:00
removed shop.daily INCREMENTAL_BY_TIME_RANGE
removed shop.totals FULL
nothing due
0 units
"""
USAGE = "usage: mesh [--paths DIR] [--warehouse FILE] COMMAND\n"
SAME = "plan prod at 2024-01-03T00:30:00\nno changes\nnothing due\n0 units\n"
# A program that notes with which words it is called, prints $PLANS, and ends with $PLANNED or $APPLIED.
FAKE = """#!/bin/sh
for word; do printf '[%s]' "$word" >> "$CALLS"; done
echo >> "$CALLS"
printf '%s' "$PLANS"
case $1 in apply) exit "${APPLIED:-0}" ;; *) exit "${PLANNED:-0}" ;; esac
"""


class Room:
    """A folder with the program as `mesh`, the tools and the examples, in which commands run."""

    def __init__(self, at, program):
        self.at = at
        os.symlink(program, f"{at}/mesh")
        for name in ("tools", "examples"):
            shutil.copytree(f"{TOP}/{name}", f"{at}/{name}")
        os.mkdir(f"{at}/bin")
        for name, path in (("mesh", "mesh"), ("mesh-at", "tools/mesh-at"), ("mesh-guard", "tools/mesh-guard")):
            os.symlink(f"../{path}", f"{at}/bin/{name}")

    def write(self, path, text):
        os.makedirs(os.path.dirname(f"{self.at}/{path}"), exist_ok=True)
        with open(f"{self.at}/{path}", "wb") as file:
            file.write(text if isinstance(text, bytes) else text.encode())

    def copy(self, name):
        """A copy of the shop's project in a folder of its own."""
        shutil.copytree(f"{self.at}/examples/shop", f"{self.at}/{name}", dirs_exist_ok=True)

    def run(self, *words, given="", cwd="", env=None):
        """The status of a command, its output and its errors."""
        around = {name: value for name, value in os.environ.items() if name != "MESH"}
        around |= {"TZ": "UTC", "LC_ALL": "C", **(env or {})}
        how = {"cwd": f"{self.at}/{cwd}", "env": around, "capture_output": True, "timeout": 120}
        ran = subprocess.run(words, input=given if isinstance(given, bytes) else given.encode(), **how)
        return ran.returncode, ran.stdout.decode("utf-8", "replace"), ran.stderr.decode("utf-8", "replace")

    def mesh(self, *words):
        return self.run("./mesh", *words)

    def shop(self, name):
        """The shop's project and a warehouse of that name, with production applied."""
        self.copy(name)
        front = ("--warehouse", f"{name}.db", "--paths", name)
        self.mesh(*front, "ingest", "raw.orders", "orders.csv")
        return front, self.mesh(*front, "apply", *AT)


def helps(room):
    for name in ("mesh-at", "mesh-guard", "mesh-diff"):
        status, out, err = room.run(f"tools/{name}", "--help")
        yield f"{name} --help", (status, f"Usage: tools/{name} " in out, err), (0, True, "")


# A file of the project at, which fault mesh tells, and what mesh-at says of it. Line 1 has 36 bytes and its line feed.
FAULTS = [
    # 37 + 12 bytes are before the third line, and 4 of it before the parenthesis.
    ("a tab", "models/totals.sql", LINE + "SELECT day,\n\tAVG(qty) AS total\nFROM shop.daily\nGROUP BY 1\n",
     "models/totals.sql:53: M1 syntax", "models/totals.sql:3:5: M1 syntax\n\tAVG(qty) AS total\n\t   ^\n"),
    # `SELECT 'größe' AS s, AVG` has 24 characters, two of them of two bytes.
    ("letters of two bytes", "models/totals.sql", LINE + "SELECT 'größe' AS s, AVG(qty) AS m FROM shop.daily\n",
     "models/totals.sql:63: M1 syntax",
     "models/totals.sql:2:25: M1 syntax\nSELECT 'größe' AS s, AVG(qty) AS m FROM shop.daily\n" + " " * 24 + "^\n"),
    # `SELECT '日本' AS s, AVG` has 21 characters, two of them of three bytes and as wide as two.
    ("wide letters", "models/totals.sql", LINE + "SELECT '日本' AS s, AVG(qty) AS m FROM shop.daily\n",
     "models/totals.sql:62: M1 syntax",
     "models/totals.sql:2:22: M1 syntax\nSELECT '日本' AS s, AVG(qty) AS m FROM shop.daily\n" + " " * 23 + "^\n"),
    # The line end of Windows isn't a part of the line.
    ("line ends of Windows", "models/totals.sql", LINE.replace("\n", "\r\n") + "SELECT day, dya FROM shop.daily\r\n",
     "models/totals.sql:50: M7 unknown column dya",
     "models/totals.sql:2:13: M7 unknown column dya\nSELECT day, dya FROM shop.daily\n            ^\n"),
    # The file ends after 37 + 32 bytes, without a line feed.
    ("the end of a file", "models/totals.sql", LINE + "SELECT day FROM shop.daily WHERE",
     "models/totals.sql:69: M1 syntax",
     "models/totals.sql:2:33: M1 syntax\nSELECT day FROM shop.daily WHERE\n" + " " * 32 + "^\n"),
    ("a control character", "models/totals.sql", LINE + "SELECT \x1b day FROM shop.daily\n",
     "models/totals.sql:44: M1 syntax", "models/totals.sql:2:8: M1 syntax\nSELECT \ufffd day FROM shop.daily\n       ^\n"),
    ("a cell of a seed", "seeds/b.csv", 'item,cents\n"a\nb",1\n\npear,0.99\n',
     "seeds/b.csv:0: M16 record 3 field 2", "seeds/b.csv:5:6: M16 record 3 field 2\npear,0.99\n     ^\n"),
    ("a header", "seeds/b.csv", "item;cents\n",
     "seeds/b.csv:0: M16 record 1 field 1", "seeds/b.csv:1:1: M16 record 1 field 1\nitem;cents\n^\n"),
]
# Lines that go through mesh-at as they are: a plan's, faults of a model, of a query and of a file that isn't there, what only
# looks like a fault, and bytes of no letter.
OTHERS = b"""plan prod at 2024-01-03T00:30:00
shop.daily:0: M17 source raw.orders is missing
-:14: M6 unknown relation raw.orders
missing.csv:0: M16 record 0 field 0
S1 moment is behind
models:5: M1 syntax
models/daily.sql:5: no fault
\xff

usage: mesh"""
SEED = "MODEL (name shop.b, kind SEED (path '../seeds/b.csv'), columns (item TEXT, cents INT));\n"


def at(room):
    """mesh-at on faults that the program tells."""
    for number, (name, path, text, fault, wanted) in enumerate(FAULTS):
        project = f"fault {number}"
        room.copy(project)
        room.write(f"{project}/{path}", text)
        if path.startswith("seeds/"):
            room.write(f"{project}/models/b.sql", SEED)
        told = room.mesh("--warehouse", ":memory:", "--paths", project, "plan")
        yield f"mesh-at, {name}: the fault", told, (1, "", f"{fault}\n")
        yield f"mesh-at, {name}", room.run("../tools/mesh-at", given=told[2], cwd=project), (0, wanted, "")
        there = room.run("tools/mesh-at", "--paths", f"{project}/", given=told[2])
        yield f"mesh-at, {name}: from another folder", there, (0, f"{project}/{wanted}", "")
    query = "SELECT 1 AS x, nn FROM shop.daily"
    front, _ = room.shop("asked")
    told = room.mesh(*front, "fetchdf", query)
    shown = f"-:1:16: M7 unknown column nn\n{query}\n{' ' * 15}^\n"
    yield "mesh-at, a query", room.run("tools/mesh-at", "--query", query, given=told[2]), (0, shown, "")


def at_lines(room):
    """mesh-at on lines that are given: places past the end, other lines, its ways of taking lines, its words."""
    room.write("given/models/daily.sql", "one\nt\u00e9o \u0301x\n\n")
    room.write("given/empty.sql", "")
    room.write("given/log", "models/daily.sql:3: M1 syntax\nother\n")
    run = lambda *words, given="": room.run("../tools/mesh-at", *words, given=given, cwd="given")
    yield "mesh-at, other lines", run(given=OTHERS), (0, OTHERS.decode("utf-8", "replace"), "")
    # The last line, the third one, is empty: the byte 13 is its line feed, and there are 14 bytes.
    for byte in (13, 14, 99999999999999999999):
        wanted = (0, "models/daily.sql:3:1: M1 syntax\n\n^\n", "")
        yield f"mesh-at, byte {byte} of 14", run(f"models/daily.sql:{byte}: M1 syntax"), wanted
    yield "mesh-at, an empty file", run("empty.sql:7: M1 syntax"), (0, "empty.sql:1:1: M1 syntax\n\n^\n", "")
    # Byte 3 is the line feed; byte 6 is the second one of a letter that begins at 5, a mark without a width is before byte 11.
    second = "t\u00e9o \u0301x\n"
    for byte, where, shown in ((3, "1:4", "one\n   ^\n"), (6, "2:2", f"{second} ^\n"), (11, "2:6", f"{second}    ^\n")):
        wanted = (0, f"models/daily.sql:{where}: M1 syntax\n{shown}", "")
        yield f"mesh-at, byte {byte}", run(f"models/daily.sql:{byte}: M1 syntax"), wanted
    counted = run("--bytes", "models/daily.sql:11: M1 syntax")
    yield "mesh-at --bytes", counted, (0, f"models/daily.sql:2:8: M1 syntax\n{second}    ^\n", "")
    logged = "models/daily.sql:1:4: M1 syntax\none\n   ^\nother\n"
    yield "mesh-at, a file of lines", run("log"), (0, logged, "")
    yield "mesh-at, standard input by name", run("log", "-", given="more"), (0, f"{logged}more", "")
    asked = run("--query", "SELECT x", "-:7: M7 unknown column x", "log", "-:99: M1 syntax")
    shown = f"{logged}-:1:8: M7 unknown column x\nSELECT x\n       ^\n-:1:9: M1 syntax\nSELECT x\n        ^\n"
    yield "mesh-at, faults of a query", asked, (0, shown, "")
    yield "mesh-at, no such file", run("nowhere"), (1, "", "mesh-at: nowhere: No such file or directory\n")
    status, out, err = run("--nothing")
    yield "mesh-at, no such option", (status, out, err.count("\n"), err.startswith("mesh-at: ")), (2, "", 1, True)


def documented():
    """The options of each command, as the head of its section in docs/COMMANDS.md has them; those in front of it under ''."""
    with open(f"{TOP}/docs/COMMANDS.md", encoding="utf-8") as file:
        page = file.read()
    names = re.findall(r"^\| \[`([a-z]+)`\]", page, re.M)
    forms = {name: re.search(rf"^## {name}\n\n```text\n(.*?)```", page, re.M | re.S)[1] for name in names}
    front = re.search(r"^mesh (.*) COMMAND", page, re.M)[1]
    return {name: re.findall(r"(--[a-z-]+)( [A-Z]+)?", form) for name, form in {"": front, **forms}.items()}


def completions(known):
    """Lines to complete, each with the words that belong there; `.` in a name begins a word that isn't there."""
    names = [name for name in known if name]
    yield "mesh ", names
    yield "mesh --warehouse :memory: ", names
    yield "../mesh p", ["plan"]
    yield "try p", ["plan"]
    for begun in ("p", "in", "m", "x"):
        yield f"mesh {begun}", [name for name in names if name.startswith(begun)]
    for command, options in known.items():
        front = f"mesh --paths shop {command} " if command else "mesh "
        words = [option for option, _ in options]
        yield f"{front}--", words
        yield f"{front}-- --", [] if command else None
        for option, value in options:
            others = [word for word in words if word != option]
            if value and option not in ("--paths", "--warehouse"):
                yield f"{front}{option} ", []
                yield f"{front}{option}=", []
            given = f"{front}{option}{value and ' 2'} --"
            yield given, others
            if value:
                yield f"{front}{option}=2 --", others
    yield "mesh --paths ", ["shop", "two words"]
    yield "mesh --paths=sh", ["shop"]
    yield "mesh --warehouse sho", ["shop", "shop.db"]
    yield "mesh --warehouse=shop.", ["shop.db"]
    for front in ("--paths shop", "--paths=shop", "--warehouse shop.db --paths ./shop"):
        yield f"mesh {front} ingest raw.orders m", ["models/", "more.csv"]
        yield f"mesh {front} ingest raw.orders models/d", ["models/daily.sql"]
    yield "mesh ingest --append raw.orders shop.", ["shop.db"]
    yield "mesh --paths 'two words' ingest raw.orders l", ["late.csv"]
    yield "mesh --paths 'two words' plan --s", ["--start"]


# Reads lines of words with a line to complete in front of them, and prints what bash offers for each.
BASH = """
. ../tools/completions/mesh.bash
while IFS=$'\\t' read -r COMP_LINE words; do
    IFS=$'\\x1f' read -ra COMP_WORDS <<< "$words"
    [[ $words = *$'\\x1f' ]] && COMP_WORDS+=('')
    COMP_CWORD=$((${#COMP_WORDS[@]} - 1)) COMP_POINT=${#COMP_LINE}
    _mesh mesh "${COMP_WORDS[-1]}"
    printf '%s\\x1f' "${COMPREPLY[@]}"
    echo
done
"""
# Has zsh complete the lines of a file as if they were typed, and notes the words that it is offered.
ZSH = """
fpath=($PWD/../tools/completions $fpath)
autoload -U compinit
compinit -u -D
unsetopt automenu autolist listbeep
compadd() {
    if [[ ${@[1,(i)(-|--)]} == *-(O|A|D)\\ * ]]; then
        builtin compadd "$@"
        return $?
    fi
    local -a hits
    builtin compadd -A hits "$@"
    for it in $hits; do print -r -- "$it" >> offers; done
    builtin compadd "$@"
}
probe() {
    local it
    for it in ${(f)"$(<lines)"}; do
        print -r -- "> $it" >> offers
        BUFFER=$it CURSOR=$#it
        zle complete-word
    done
    print -r -- "> end" >> offers
    BUFFER=''
}
zle -N zle-line-init probe
"""


def pieces(line):
    """The words of a line as bash has them in COMP_WORDS: parted at spaces outside of quotes, and at `=` and `:`."""
    words = re.findall(r"'[^']*'|[^\s=:']+|[=:]+", line)
    return [*words, ""] if line.endswith(" ") else words


def ground(room):
    """A folder with a warehouse's file and two projects, one of which has a space in its name."""
    room.copy("ground/shop")
    room.write("ground/shop.db", "")
    room.write("ground/two words/late.csv", "")


def in_bash(room):
    ground(room)
    cases = [(line, wanted) for line, wanted in completions(documented()) if wanted is not None]
    given = "".join(f"{line}\t{chr(31).join(pieces(line))}\n" for line, _ in cases)
    options = ["--auto-apply", "--workers", "--execution-time", "--restate-model", "--start", "--end"]
    yield "docs/COMMANDS.md is read", ([it for it, _ in documented()["plan"]], len(documented())), (options, 12)
    _, out, err = room.run("bash", "--norc", "-c", BASH, given=given, cwd="ground")
    answers = out.splitlines()
    yield "bash: all lines are answered", (len(answers), err), (len(cases), "")
    for (line, wanted), answer in zip(cases, answers):
        yield f"bash: {line}", sorted(filter(None, answer.split("\x1f"))), sorted(wanted)


def typed_in_zsh(room, lines):
    """What an interactive zsh offers for some lines, by line."""
    at = f"{room.at}/ground"
    room.write("ground/lines", "".join(f"{line}\n" for line in lines))
    room.write("ground/.zshrc", ZSH)
    child, terminal = pty.fork()
    if child == 0:
        os.chdir(at)
        os.execvpe("zsh", ["zsh", "-i"], {**os.environ, "ZDOTDIR": at, "TERM": "dumb", "HOME": at, "LC_ALL": "C.UTF-8"})
    found, until = "", time.time() + 60
    os.set_blocking(terminal, False)
    while "> end\n" not in found and time.time() < until:
        time.sleep(0.1)
        try:
            os.read(terminal, 65536)
        except BlockingIOError:
            pass
        if os.path.exists(f"{at}/offers"):
            with open(f"{at}/offers") as file:
                found = file.read()
    os.kill(child, signal.SIGKILL)
    os.waitpid(child, 0)
    os.close(terminal)
    sections = [it.splitlines() for it in found.split("> ")[1:]]
    return {lines[0]: lines[1:] for lines in sections}


def in_zsh(room):
    if not shutil.which("zsh"):
        yield "zsh isn't installed", None, None
        return
    ground(room)
    cases = [(line, wanted) for line, wanted in completions(documented()) if wanted is not None]
    offers = typed_in_zsh(room, [line for line, _ in cases])
    for line, wanted in cases:
        last = lambda words: sorted({os.path.basename(word.rstrip("/")).replace("\\", "") for word in words})
        yield f"zsh: {line}", last(offers.get(line, ["not asked"])), last(wanted)


def guard(room):
    """mesh-guard over real warehouses."""
    room.copy("guarded")
    front = ("--warehouse", "guarded.db", "--paths", "guarded")
    room.mesh(*front, "ingest", "raw.orders", "orders.csv")
    run = lambda *words: room.run("tools/mesh-guard", *words)
    yield "mesh-guard, a first apply", run(*front, "apply", *AT), (0, f"{ADDED}applied prod: 15 changes\n", "")
    wrong = ("--warehouse=guarded.db", "--paths=gaurded")
    said = "mesh-guard: refused: the plan removes shop.daily and 1 more; with --allow-removed that is meant\n"
    yield "mesh-guard, a wrong folder", run(*wrong, "apply", *AT), (10, REMOVED, said)
    yield "mesh-guard, a wrong folder: nothing was applied", room.mesh(*front, "plan", *AT), (0, SAME, "")
    yield "mesh-guard, a plan of a wrong folder", run(*wrong, "plan", *AT), (10, REMOVED, said)
    yield "mesh-guard, a plan", run(*front, "plan", *AT), (0, SAME, "")
    one = "mesh-guard: refused: the plan removes shop.totals; with --allow-removed=shop.totals that is meant\n"
    yield "mesh-guard, one of two is named", run("--allow-removed=shop.daily", *wrong, "apply", *AT), (10, REMOVED, one)
    both = ("--allow-removed=shop.daily", "--allow-removed=shop.totals")
    yield "mesh-guard, a plan with both named", run(*wrong, "plan", *AT, *both), (0, REMOVED, "")
    applied = f"{REMOVED}applied prod: 5 changes\n"
    yield "mesh-guard, both are named", run(*wrong, "apply", *both, *AT), (0, applied, "")
    back = ADDED[: ADDED.index("due")] + "nothing due\n0 units\napplied prod: 7 changes\n"
    yield "mesh-guard, the right folder again", run(*front, "apply", *AT), (0, back, "")
    yield "mesh-guard --allow-removed", run(*wrong, "apply", *AT, "--allow-removed"), (0, applied, "")
    room.write("guarded/models/totals.sql", FAULTS[0][2])
    yield "mesh-guard, a fault", run(*front, "apply", *AT), (1, "", f"{FAULTS[0][3]}\n")
    yield "mesh-guard, no command line", run(*front, "apply", "Prod"), (2, "", USAGE)
    for words in (("run",), ("plan", "--auto-apply"), ("--paths", "apply"), ("fetchdf", "apply")):
        told = "mesh-guard: the command has to be apply, or plan without --auto-apply; --help says more\n"
        yield f"mesh-guard {' '.join(words)}", run(*words), (2, "", told)


def guard_words(room):
    """The words with which mesh-guard calls the program, and the moment that it gives."""
    room.write("fake", FAKE)
    os.chmod(f"{room.at}/fake", 0o755)

    def called(*words, **more):
        room.write("calls", "")
        env = {"MESH": f"{room.at}/fake", "CALLS": f"{room.at}/calls", "PLANS": "", **more}
        status = room.run("bin/mesh-guard", *words, env=env)[0]
        with open(f"{room.at}/calls") as file:
            return status, file.read()

    front = "[--paths][two words][--warehouse=w *.db]"
    for rest in ("[dev][--execution-time][2024-01-03]", "[--execution-time=2024-01-03][--][dev]"):
        words = f"{front}[apply]{rest}"[1:-1].split("][")
        wanted = (0, f"{front}[plan]{rest}\n{front}[apply]{rest}\n")
        yield f"mesh-guard, a moment is given: {rest}", called(*words), wanted
    before = time.strftime("%Y-%m-%dT%H:%M:%S", time.gmtime())
    status, calls = called("--paths", "apply", "apply", "dev", "", "--workers", "2")
    after = time.strftime("%Y-%m-%dT%H:%M:%S", time.gmtime())
    moments = re.findall(r"\[--execution-time\]\[(.*?)\]", calls)
    right = len(moments) == 2 and before <= moments[0] <= after
    rest = f"[--execution-time][{moments[0]}][dev][][--workers][2]\n"
    wanted = f"[--paths][apply][plan]{rest}[--paths][apply][apply]{rest}"
    yield "mesh-guard, no moment is given", (status, right, calls), (0, True, wanted)
    words = ("apply", "--execution-time", "2024-01-03")
    once = "[plan][--execution-time][2024-01-03]\n"
    for status in (1, 3, 4, 5, 6, 7):
        yield f"mesh-guard, a plan with status {status}", called(*words, PLANNED=str(status)), (status, once)
        both = (status, once + once.replace("plan", "apply"))
        yield f"mesh-guard, an apply with status {status}", called(*words, APPLIED=str(status)), both
    lines = "plan prod at 2024-01-03T00:00:00\nadded removed.one FULL\ndue removed.one whole\n1 units\n"
    status, calls = called(*words, PLANS=lines)
    yield "mesh-guard, a model whose name has the word removed", (status, calls.count("[apply]")), (0, 1)


def diff(room):
    """mesh-diff on a seed, whose rows are known."""
    seed = "MODEL (name shop.items, kind SEED (path '../seeds/items.csv'), columns (id INT, name TEXT));\n"
    room.write("items/models/items.sql", seed)
    room.write("items/models/same.sql", "MODEL (name shop.same, kind FULL); SELECT 1 AS x\n")
    room.write("items/models/gone.sql", "MODEL (name shop.gone, kind FULL); SELECT 1 AS x\n")
    room.write("items/seeds/items.csv", 'id,name\n1,a\n1,a\n1,a\n2,"b\nb"\n4,\n')
    words = ("--warehouse", "items.db", "--paths", "items")
    room.mesh(*words, "apply", *AT)
    room.write("items/seeds/items.csv", 'id,name\n1,a\n2,"b\nb"\n3,"c, ""d"""\n3,"c, ""d"""\n4,""\n')
    os.remove(f"{room.at}/items/models/gone.sql")
    room.write("items/models/new.sql", "MODEL (name shop.new, kind FULL); SELECT 1 AS x\n")
    room.mesh(*words, "apply", "dev", *AT)
    run = lambda *words: room.run("tools/mesh-diff", "--warehouse", "items.db", *words)
    rows = """shop.items: 2 rows only in prod, 2 only in dev, 3 in both
- 2 1,a
+ 2 3,"c, ""d\"""
"""
    wanted = f"shop.gone: only in prod\n{rows}shop.new: only in dev\nshop.same: equal, 1 row\n4 models, 1 equal, 3 different\n"
    yield "mesh-diff, two environments", run("prod", "dev"), (1, wanted, "")
    one = rows.replace('+ 2 3,"c, ""d"""\n', "+ .. and 2 rows more\n").replace("- 2 1,a\n", "- .. and 2 rows more\n")
    yield "mesh-diff, no row is printed", run("--models", "shop.items", "--rows", "0", "prod", "dev"), (
        1, f"{one}1 model, 0 equal, 1 different\n", "")
    same = "shop.same: equal, 1 row\n1 model, 1 equal, 0 different\n"
    yield "mesh-diff, one model", run("--models=Shop.Same", "prod", "dev"), (0, same, "")
    new = "shop.new: only in dev\nshop.same: equal, 1 row\n2 models, 1 equal, 1 different\n"
    yield "mesh-diff, two models", run("--models=shop.same,shop.new", "prod", "dev"), (1, new, "")
    there = (0, SAME.replace("prod", "dev"), "")
    yield "mesh-diff, the warehouse stays as it was", room.mesh(*words, "plan", "dev", *AT), there
    yield from refused(run)


def refused(run):
    """Command lines of mesh-diff that end with 2, over the warehouse of `diff`."""
    for given, told in (
        (("prod",), "two environments or two files are needed; --help says more"),
        (("prod", "dev", "test"), "one or two environments are needed; --help says more"),
        (("prod", "Dev"), "one or two environments are needed; --help says more"),
        (("prod", "test"), "items.db, test: S2 environment test is unknown"),
        (("--models", "shop.none", "prod", "dev"), "neither of both has a model shop.none"),
        (("--models", "none", "prod", "dev"), "--rows is a number, and --models has names as shop.daily; --help says more"),
        (("--rows", "-1", "prod", "dev"), "--rows is a number, and --models has names as shop.daily; --help says more"),
        (("--with", "nowhere.db"), "nowhere.db isn't a file"),
        (("--nothing",), "option --nothing not recognized"),
    ):
        yield f"mesh-diff {' '.join(given)}", run(*given), (2, "", f"mesh-diff: {told}\n")


def diff_files(room):
    """mesh-diff on the shop before and after a change of a column, and before and after a row."""
    front, _ = room.shop("before")
    for end in ("", "-wal"):
        shutil.copy(f"{room.at}/before.db{end}", f"{room.at}/after.db{end}")
    run = lambda *words: room.run("tools/mesh-diff", "--warehouse", "before.db", "--with", "after.db", *words)
    equal = "shop.daily: equal, 3 rows\nshop.totals: equal, 2 rows\n2 models, 2 equal, 0 different\n"
    yield "mesh-diff, a file and its copy", run(), (0, equal, "")
    room.write("builds", "#!/bin/sh\necho 'mesh: 1 of 2 crates' >&2\nexec ./mesh \"$@\"\n")
    os.chmod(f"{room.at}/builds", 0o755)
    told = room.run("tools/mesh-diff", "--warehouse", "before.db", "--with", "after.db", env={"MESH": "./builds"})
    yield "mesh-diff, a program that is built first", told, (0, equal, "mesh: 1 of 2 crates\n" * 4)
    after = ("--warehouse", "after.db", "--paths", "before")
    room.mesh(*after, "ingest", "raw.orders", "fixed.csv")
    room.mesh(*after, "apply", *AT, "--restate-model", "shop.daily")
    wanted = """shop.daily: 1 row only in before.db, 1 only in after.db, 2 in both
- 1 1,2024-01-01,5
+ 1 1,2024-01-01,6
shop.totals: 1 row only in before.db, 1 only in after.db, 1 in both
- 1 2024-01-01,12,2
+ 1 2024-01-01,13,2
2 models, 0 equal, 2 different
"""
    yield "mesh-diff, a restated order", run("prod"), (1, wanted, "")
    room.write("before/models/daily.sql", f"{DAILY}SELECT qty, day FROM raw.orders WHERE day BETWEEN @start_ds AND @end_ds\n")
    room.mesh(*front, "apply", "dev", *AT)
    wanted = """shop.daily: other columns; 0 rows only in prod, 0 only in dev, 3 in both
  columns of prod: id,day,qty
  columns of dev: qty,day
1 model, 0 equal, 1 different
"""
    told = room.run("tools/mesh-diff", "--warehouse", "before.db", "--models", "shop.daily", "prod", "dev")
    yield "mesh-diff, other columns", told, (1, wanted, "")


# Makes in Vim, and writes each entry of the list of errors. $CUT is the name of a file for `:cfile` in the place of `:make`.
VIM = """
let &runtimepath = getcwd() . '/vim,' . &runtimepath
if isdirectory('a project') | let g:mesh_paths = 'a project' | endif
compiler mesh
if empty($CUT) | silent make | else | cfile $CUT | endif
let lines = []
for it in getqflist()
    if it.valid | call add(lines, bufname(it.bufnr) . '|' . it.lnum . '|' . it.col . '|' . it.text) | endif
endfor
call add(lines, 'at ' . line('.') . ' ' . strpart(getline('.'), col('.') - 1, 5))
call writefile(lines, 'list')
qall!
"""


def vim(room):
    """Vim's list of errors, and where it goes, by `:make` and by `:cfile`."""
    if not shutil.which("vim"):
        yield "vim isn't installed", None, None
        return
    room.write("edited/go.vim", VIM)
    os.makedirs(f"{room.at}/edited/vim/compiler")
    os.symlink(f"{room.at}/tools/editors/mesh.vim", f"{room.at}/edited/vim/compiler/mesh.vim")

    def listed(cut=""):
        room.run("vim", "--clean", "-es", "-S", "go.vim", cwd="edited", env={"CUT": cut, "LC_ALL": "C.UTF-8"})
        with open(f"{room.at}/edited/list", encoding="utf-8") as file:
            return file.read()

    room.copy("edited/a project")
    yield "vim: a project without a fault", listed(), "at 1 \n"
    # In bytes the place is two further than in characters, and that is what Vim counts.
    room.write("edited/a project/models/totals.sql", FAULTS[1][2])
    yield "vim: letters of two bytes", listed(), "a project/models/totals.sql|2|27|M1 syntax\nat 2 (qty)\n"
    room.write("edited/a project/models/totals.sql", FAULTS[0][2])
    yield "vim: a tab", listed(), "a project/models/totals.sql|3|5|M1 syntax\nat 3 (qty)\n"
    fault = "a project/models/daily.sql:2:8: M7 unknown column id\nSELECT id\n       ^\n"
    room.write("edited/log", f"plan prod\n{fault}warehouse fault\n")
    yield "vim: a file of lines", listed("log"), "a project/models/daily.sql|2|8|M7 unknown column id\nat 2 id, d\n"


def code(room):
    """The task for VS Code as a shell runs it, and what its matcher finds in what it prints."""
    with open(f"{TOP}/tools/editors/problem-matcher.json") as file:
        matcher = json.load(file)["problemMatcher"]
    with open(f"{TOP}/tools/editors/tasks.json") as file:
        task = json.load(file)["tasks"][0]
    yield "code: the task has the matcher", task["problemMatcher"], matcher
    room.copy("opened")
    room.write("opened/models/totals.sql", FAULTS[0][2])
    path = {"PATH": f"{room.at}/bin:{os.environ['PATH']}"}
    status, out, err = room.run("sh", "-c", task["command"], cwd="opened", env=path)
    yield "code: the task", (status, out, err), (0, FAULTS[0][4], "")
    pattern = matcher[0]["pattern"][0]
    parts = [pattern[it] for it in ("file", "line", "column", "message")]
    found = [[it[part] for part in parts] for it in re.finditer(pattern["regexp"], out, re.M)]
    yield "code: the problems", found, [["models/totals.sql", "3", "5", "M1 syntax"]]
    yield "code: no problem in a plan", re.findall(pattern["regexp"], ADDED, re.M), []


def workflow(room):
    """The steps of the workflow, over a warehouse whose production is of the shop."""
    try:
        import yaml
    except ImportError:
        yield "Python's yaml isn't installed", None, None
        return
    with open(f"{TOP}/tools/ci/github.yml") as file:
        job = yaml.safe_load(file)["jobs"]["plan"]
    yield "workflow: the steps", [it.get("name") for it in job["steps"]], [None, "Copy the warehouse", "Plan", "Rows"]
    room.shop("project")
    os.makedirs(f"{room.at}/backup")
    for end in ("", "-wal"):
        shutil.move(f"{room.at}/project.db{end}", f"{room.at}/backup/warehouse.db{end}")
    room.write("clock/date", "#!/bin/sh\necho 2024-01-03T00:30:00\n")
    os.chmod(f"{room.at}/clock/date", 0o755)
    plan, ran = stepped(room, job, "first")[1]
    yield "workflow: a plan without changes", plan, SAME
    nothing = "nothing due\n0 units\n"
    equal = "shop.daily: equal, 3 rows\nshop.totals: equal, 2 rows\n2 models, 2 equal, 0 different\n"
    wanted = f"run prod at 2024-01-03T00:30:00\n{nothing}ran prod: 1 changes\n"
    yield "workflow: rows without changes", ran, f"{wanted}{SAME.replace('prod', 'ci')}applied ci: 7 changes\n{equal}"
    more = "SELECT day, SUM(qty) AS total, COUNT(*) + 1 AS n FROM shop.daily GROUP BY 1\n"
    room.write("project/models/totals.sql", LINE + more)
    status, said = stepped(room, job, "second")
    gone, come = "- 1 2024-01-01,12,2\n- 1 2024-01-02,1,1\n", "+ 1 2024-01-01,12,3\n+ 1 2024-01-02,1,2\n"
    rows = f"shop.totals: 2 rows only in prod, 2 only in ci, 0 in both\n{gone}{come}2 models, 1 equal, 1 different\n"
    yield "workflow: other rows", (status, said[1].endswith(rows)), (0, True)
    os.remove(f"{room.at}/project/models/totals.sql")
    said = "mesh-guard: refused: the plan removes shop.totals; with --allow-removed=shop.totals that is meant\n"
    removed = f"plan prod at 2024-01-03T00:30:00\nremoved shop.totals FULL\n{nothing}"
    yield "workflow: a model is removed", stepped(room, job, "third"), (10, [removed + said])
    status, said = stepped(room, job, "fourth", REMOVED="shop.none shop.totals")
    yield "workflow: a model is removed on purpose", (status, said[0]), (0, removed)
    room.write("project/models/totals.sql", FAULTS[0][2])
    yield "workflow: a fault", stepped(room, job, "fifth"), (1, [f"project/{FAULTS[0][4]}"])


def stepped(room, job, name, **more):
    """The status of the last step of a workflow that was run, and what each printed behind the one that copies."""
    env = {"TOP": room.at, "PROJECT": "project", "BACKUP": f"{room.at}/backup", "REMOVED": ""}
    env |= {"RUNNER_TEMP": f"{room.at}/{name}", "GITHUB_ENV": f"{room.at}/{name}/env", "PATH": f"{room.at}/clock:{os.environ['PATH']}", **more}
    room.write(f"{name}/env", "")
    status, said = 0, []
    for step in job["steps"][1:]:
        with open(f"{room.at}/{name}/env") as file:
            env |= dict(line.split("=", 1) for line in file.read().splitlines())
        status, out, err = room.run("bash", "--noprofile", "--norc", "-eo", "pipefail", "-c", step["run"], env=env)
        said.append(out + err)
        if status:
            break
    return status, said[1:]


TRIALS = (helps, at, at_lines, in_bash, in_zsh, guard, guard_words, diff, diff_files, vim, code, workflow)


def main():
    words = sys.argv[1:] or [f"{TOP}/crates/mesh/out/mesh"]
    if words[0].startswith("-") or len(words) > 1:
        print(__doc__)
        return 0 if words in (["--help"], ["-h"]) else 2
    program = os.path.abspath(words[0])
    if not os.access(program, os.X_OK):
        print(f"tools: {program} isn't a program")
        return 2
    counts = {"right": 0, "wrong": 0, "skipped": 0}
    for trials in TRIALS:
        with tempfile.TemporaryDirectory(prefix="tools-") as at:
            for name, got, wanted in trials(Room(os.path.realpath(at), program)):
                how = "skipped" if wanted is None else "right" if got == wanted else "wrong"
                counts[how] += 1
                print(f"{how}: {name}")
                if how == "wrong":
                    print(f"  wanted {wanted!r}\n  has    {got!r}")
    print(f"{sum(counts.values())} trials, {counts['wrong']} wrong, {counts['skipped']} skipped")
    return 1 if counts["wrong"] else 0


sys.exit(main())
