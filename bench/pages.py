#!/usr/bin/env python3
"""Checks the pages of this repository, README.md, CHANGELOG.md and docs/*.md (or those that are named).

- Each relative link leads to a file that is here, and each `#heading` to a heading of that page.
- `docs/FAULTS.md` has a heading for each fault and a row for each status, `docs/COMMANDS.md` a heading for each command.
- Each signature in a `rust` block of `docs/CALLS.md` is one of the crate that the heading above it names, but for layout.
- No page is longer than its size (README.md 200 lines; PROVED.md and ARCHITECTURE.md 15 KB).
- `docs/mesh.1` is what `bench/manual.py` makes of `docs/COMMANDS.md`.
- Given a program, each command line that a page shows prints what the page shows below it.

A page's commands stand in fenced blocks whose first word is `console`: a line `$ COMMAND` is run by `sh`, and the lines
below it, up to the next one, are what it prints, standard output and error together; `$ echo $?` prints the status of the
command before. A block whose first line names a language and a path, as ```sql models/daily.sql, is a file, which is
written there first. A page begins in an empty folder with `./mesh` and `./try`, both the program, and copies of
`examples/` and `tools/`; a line `<!-- new folder -->` begins another. Other blocks are shown and not run. Without pages
named, `bench/guide.py` is run too, which compares `docs/GUIDE.md` with the worked examples.

Usage: bench/pages.py [--program FILE] [PAGE ..]"""
import difflib
import os
import re
import shutil
import subprocess
import sys
import tempfile

TOP = os.path.dirname(os.path.dirname(os.path.abspath(__file__)))
COMMANDS = "plan apply run evaluate fetchdf ingest invalidate janitor migrate trace impact batch demo".split()
FAULTS = [f"M{k}" for k in range(1, 21)] + [f"S{k}" for k in range(1, 6)]
STATUSES = range(8)
SIZES = {"PROVED.md": 15 * 1024, "ARCHITECTURE.md": 15 * 1024}
README_LINES = 200
FENCE = re.compile(r"^ {0,3}(```+|~~~+)\s*(.*)$")


def read(path):
    with open(path, encoding="utf-8") as file:
        return file.read()


def split(page):
    """A page as its text outside of fenced blocks, and its blocks: (number of the line, info string, lines)."""
    text, blocks, fence = [], [], None
    for number, line in enumerate(page.splitlines(), 1):
        found = FENCE.match(line)
        if fence is None and found:
            fence = found[1]
            blocks.append((number, found[2].strip(), []))
        elif fence is not None and found and found[1].startswith(fence) and not found[2]:
            fence = None
        elif fence is not None:
            blocks[-1][2].append(line)
        else:
            text.append((number, line))
            if line.strip() == "<!-- new folder -->":
                blocks.append((number, "new folder", []))
    return text, blocks


def slugs(page):
    """The anchors of a page's headings, as GitHub makes them."""
    found, seen = set(), {}
    for _, line in split(page)[0]:
        heading = re.match(r"^#{1,6}\s+(.*?)\s*#*$", line)
        if heading:
            bare = re.sub(r"\[([^\]]*)\]\([^)]*\)", r"\1", heading[1]).replace("`", "").replace("*", "")
            slug = re.sub(r"[^\w\- ]", "", bare.lower()).replace(" ", "-")
            times = seen.get(slug, 0)
            seen[slug] = times + 1
            found.add(f"{slug}-{times}" if times else slug)
    return found


def links(path):
    """What is wrong with a page's links."""
    wrong = []
    for number, line in split(read(path))[0]:
        bare = re.sub(r"`[^`]*`", "", line)
        for target in re.findall(r"\]\(([^)\s]+)\)", bare):
            if re.match(r"[a-z]+:", target):
                continue
            name, _, heading = target.partition("#")
            at = os.path.normpath(os.path.join(os.path.dirname(path), name)) if name else path
            if not os.path.exists(at):
                wrong.append(f"{path}:{number}: no file {name}")
            elif heading and heading not in slugs(read(at)):
                wrong.append(f"{path}:{number}: no heading #{heading} in {name or 'this page'}")
    return wrong


def places():
    """The faults, statuses and commands that have no place of their own, and pages over their size."""
    wrong = []
    for name, words, level in (("FAULTS.md", FAULTS, "#{2,4}"), ("COMMANDS.md", COMMANDS, "##")):
        page = read(f"{TOP}/docs/{name}")
        wrong += [f"docs/{name}: no heading for {it}" for it in words if not re.search(rf"^{level} `?{it}\b", page, re.M)]
    page = read(f"{TOP}/docs/FAULTS.md")
    wrong += [f"docs/FAULTS.md: no row for status {it}" for it in STATUSES if not re.search(rf"^\| `?{it}`? \|", page, re.M)]
    lines = read(f"{TOP}/README.md").count("\n")
    if lines > README_LINES:
        wrong.append(f"README.md has {lines} lines, {README_LINES} at most")
    for name, size in SIZES.items():
        has = os.path.getsize(f"{TOP}/docs/{name}")
        if has > size:
            wrong.append(f"docs/{name} has {has} bytes, {size} at most")
    made = subprocess.run([sys.executable, f"{TOP}/bench/manual.py", "--check"], capture_output=True, text=True)
    if made.returncode:
        wrong.append("docs/mesh.1 isn't what bench/manual.py makes: " + (made.stderr or made.stdout).strip()[-200:])
    return wrong


def bare(code):
    """Code without its layout and trailing commas."""
    return re.sub(r",\)", ")", re.sub(r"\s+", "", code))


def signatures():
    """The signatures that `docs/CALLS.md` shows and that the crate of the heading above doesn't have."""
    wrong, heads, code = [], {}, {}
    text, blocks = split(read(f"{TOP}/docs/CALLS.md"))
    for number, line in text:
        named = re.match(r"^#+ .*?`?(mesh_\w+)", line)
        if named:
            heads[number] = named[1]
    for number, info, lines in blocks:
        crate = next((heads[at] for at in sorted(heads, reverse=True) if at < number), None)
        if info != "rust" or not crate or not os.path.isdir(f"{TOP}/crates/{crate}/src"):
            continue
        if crate not in code:
            folders = os.walk(f"{TOP}/crates/{crate}/src")
            code[crate] = "".join(bare(read(f"{at}/{name}")) for at, _, names in folders for name in sorted(names))
        for item in re.findall(r"\b(?:pub )?fn \w[^;{]*", "\n".join(lines)):
            if bare(item) not in code[crate]:
                wrong.append(f"docs/CALLS.md:{number}: {crate} has no {' '.join(item.split())}")
    return wrong


class Folder:
    """An empty folder in which a page's commands run, with the program and the examples."""

    def __init__(self, room, program):
        self.at = tempfile.mkdtemp(dir=room)
        self.status = 0
        for name in ("mesh", "try"):
            os.symlink(program, f"{self.at}/{name}")
        for name in ("examples", "tools"):
            shutil.copytree(f"{TOP}/{name}", f"{self.at}/{name}")

    def write(self, path, lines):
        at = os.path.join(self.at, path)
        os.makedirs(os.path.dirname(at), exist_ok=True)
        with open(at, "w", encoding="utf-8") as file:
            file.write("".join(f"{line}\n" for line in lines))

    def run(self, command):
        how = {"stdout": subprocess.PIPE, "stderr": subprocess.STDOUT, "stdin": subprocess.DEVNULL}
        words = ["sh", "-c", f"(exit {self.status})\n{command}"]
        # Without MESH the tools take the program of the folder.
        env = {name: value for name, value in os.environ.items() if name != "MESH"} | {"TZ": "UTC", "LC_ALL": "C"}
        ran = subprocess.run(words, cwd=self.at, env=env, timeout=120, **how)
        self.status = ran.returncode
        return ran.stdout.decode("utf-8", "replace")


def steps(lines):
    """The commands of a console block with what is shown below each."""
    found = []
    for number, line in enumerate(lines, 1):
        if line.startswith("$ "):
            found.append((number, line[2:], []))
        elif found:
            found[-1][2].append(line)
    return found


def run(path, program, room):
    """The number of a page's commands, and those that print something else."""
    folder, wrong, count = Folder(room, program), [], 0
    for number, info, lines in split(read(path))[1]:
        words = info.split()
        if info == "new folder":
            folder = Folder(room, program)
        elif words[:1] == ["console"]:
            for offset, command, shown in steps(lines):
                count += 1
                printed = folder.run(command).splitlines()
                while shown and not shown[-1]:
                    shown.pop()
                if printed != shown:
                    diff = "\n".join(difflib.unified_diff(shown, printed, "shown", "printed", lineterm="", n=1))
                    wrong.append(f"{path}:{number + offset}: $ {command}\n{diff}")
        elif len(words) == 2:
            folder.write(words[1], lines)
    return count, wrong


def main():
    words, program = sys.argv[1:], None
    if words[:1] == ["--program"] and len(words) > 1:
        program, words = os.path.abspath(words[1]), words[2:]
    if any(word.startswith("-") for word in words):
        print(__doc__)
        return 0 if words[:1] in (["--help"], ["-h"]) else 2
    docs = sorted(f"{TOP}/docs/{name}" for name in os.listdir(f"{TOP}/docs") if name.endswith(".md"))
    pages = [os.path.abspath(word) for word in words] or [f"{TOP}/README.md", f"{TOP}/CHANGELOG.md", *docs]
    wrong = [line for page in pages for line in links(page)] + ([] if words else places() + signatures())
    with tempfile.TemporaryDirectory(prefix="pages-") as room:
        for page in pages if program else []:
            count, failed = run(page, program, room)
            wrong += failed
            print(f"{os.path.relpath(page, TOP)}: {count} commands, {len(failed)} print something else")
    if not words:
        guide = [sys.executable, f"{TOP}/bench/guide.py", *([program] if program else [])]
        ran = subprocess.run(guide, stdout=subprocess.PIPE, stderr=subprocess.STDOUT, text=True)
        print(ran.stdout.strip()) if ran.returncode == 0 else wrong.append(f"bench/guide.py: {ran.stdout.strip()}")
    for line in wrong:
        print(line)
    print(f"{len(pages)} pages, {len(wrong)} faults")
    return 1 if wrong else 0


sys.exit(main())
