#!/usr/bin/env python3
"""Compares `docs/GUIDE.md` with the worked examples that run its command lines: the commands `./mesh ..` of its `console` blocks, and of
its `text` blocks, with the text below each are the commands of the worked examples `guide_..` of `mesh_answers` with what their files
`expected` say, all of them and each example's in its order; what `cat` prints are files of `examples/`; the examples' projects are
those of `examples/`; and the picture of `examples/bikes` in README.md has its models' FROM and JOIN. (`bench/bikes.py` computes what
`guide_bikes` has to print.)

A command may end in `| tail -n N` or `| head -n N`. One that goes into another program isn't compared, nor is `trace` or `impact`, which
read the project alone; `bench/pages.py --program` runs all commands of the page, from its top to its bottom.

Given a program, it also runs these examples with it as a user would, each in an empty folder and over warehouses in files, but for the
one whose calls are made to fail, and compares what is printed.

Usage: bench/guide.py [PROGRAM]"""
import os
import re
import shlex
import shutil
import subprocess
import sys
import tempfile

from measured import TOP

ROWS = f"{TOP}/crates/mesh_answers/data/rows"
# Examples whose project has all that one of `examples/` has, and those that have some of it.
WHOLE = [("bikes", "guide_bikes"), ("starter", "starter_changed"), ("shop", "shop_late_rows"), ("shop", "shop_stopped")]
PARTS = ["guide_faults", "guide_stopped"]
SKIPPED = ("script", "audits", "more.csv", "fixed.csv")


def read(path):
    with open(path) as file:
        return file.read()


def shown(page):
    """The commands of a page's console and text blocks, each with the text below it."""
    found = []
    for info, block in re.findall(r"^```(\w*)\n(.*?)^```$", page, flags=re.M | re.S):
        if info not in ("console", "text"):
            continue
        for line in block.splitlines():
            if line.startswith("$ ") or line.startswith("./mesh "):
                found.append([line.removeprefix("$ "), ""])
            elif found:
                found[-1][1] += line + "\n"
    return [tuple(one) for one in found]


def examples():
    """The commands of each example of the guide, with what they print."""
    found = {}
    for name in sorted(os.listdir(ROWS)):
        if name.startswith("guide_"):
            found[name] = []
            for step in re.split(r"^> ", read(f"{ROWS}/{name}/expected"), flags=re.M)[1:]:
                line, _, answer = step.partition("\n")
                status, _, printed = answer.partition("\n")
                printed = re.sub(r"\A(out|err):\n", "", printed)
                found[name].append((line, int(re.match(r"status (\d+)", status)[1]), printed))
    return found


def cut(printed, how, many):
    """What `tail -n` or `head -n` leaves of a text."""
    lines = printed.splitlines(True)
    return "".join(lines[-int(many):] if how == "tail" else lines[:int(many)])


def is_shown(step, line, printed):
    """Whether a command of the page, with the text below it, is a step of an example."""
    command, how, many = re.fullmatch(r"(.*?)(?: \| (tail|head) -n (\d+))?", line).groups()
    return f"./{step[0]}" == command and (cut(step[2], how, many) if how else step[2]) == printed


def batched(path, steps):
    """What a script of `examples/` prints, by the steps of an example that has its lines among its own."""
    printed, steps = "", iter(steps)
    for line in read(f"{TOP}/{path}").splitlines():
        if line and not line.startswith("#"):
            bare = (re.sub(r"^mesh (--paths \w+ )?", "", step[0]) == line and step[2] for step in steps)
            printed += next(filter(None, bare))
    return printed


def compare_commands(lines, rows):
    """How many command lines of the page are those of the examples."""
    places, count = dict.fromkeys(rows, 0), 0
    for line, printed in lines:
        if not line.startswith("./mesh ") or re.search(r"\| (?!tail -n|head -n)| (trace|impact) \w+\.", line):
            continue
        count += 1
        batch = re.search(r" batch < (\S+) \| (tail|head) -n (\d+)$", line)
        if batch:
            if cut(batched(batch[1], rows["guide_bikes"]), batch[2], batch[3]) != printed:
                sys.exit(f"guide_bikes prints something else:\n{line}\n{printed}")
            continue
        for name, steps in rows.items():
            if places[name] < len(steps) and is_shown(steps[places[name]], line, printed):
                places[name] += 1
                break
        else:
            sys.exit(f"no example prints this:\n{line}\n{printed}")
    for name, steps in rows.items():
        if places[name] != len(steps):
            sys.exit(f"the page doesn't show this of {name}:\n{steps[places[name]][0]}")
    return count


def compare_files(lines):
    """How many files the page shows by `cat`, each as it is in `examples/` or was copied from there."""
    copied, count = {}, 0

    def text_of(path):
        path = copied.get(path, path)
        return read(f"{TOP}/{path if path.startswith('examples/') else 'examples/' + path}")

    for line, printed in lines:
        words = line.split()
        if words[0] == "cp" and len(words) == 3:
            copied[words[2]] = copied.get(words[1], words[1])
        elif words[0] == "cat":
            count += len(words) - 1
            if printed != "".join(map(text_of, words[1:])):
                sys.exit(f"examples/ has something else:\n{line}")
    return count


def paths_below(start, folder):
    """The files below a folder that count, by their paths from the start on."""
    for top, folders, names in os.walk(f"{start}/{folder}"):
        folders[:] = [folder for folder in folders if folder not in SKIPPED]
        yield from (os.path.relpath(f"{top}/{name}", start) for name in names if name not in SKIPPED)


def compare_mirrors():
    examples = [(example, f"{TOP}/examples", project) for project, example in WHOLE]
    for example, start, folder in examples + [(example, f"{ROWS}/{example}/project", ".") for example in PARTS]:
        for path in paths_below(start, folder):
            if read(f"{TOP}/examples/{path}") != read(f"{ROWS}/{example}/project/{path}"):
                sys.exit(f"examples/{path} isn't that of {example}")


def compare_picture():
    """How many arrows the picture of README.md has, each from what a model of `examples/bikes` reads to that model."""
    drawn, written = set(), set()
    for line in re.search(r"^```mermaid\n(.*?)^```$", read(f"{TOP}/README.md"), flags=re.M | re.S)[1].splitlines():
        ends = [re.findall(r"(?:^|& )\s*(\w+)", side) for side in line.split(" --> ")]
        if len(ends) == 2:
            drawn |= {(start, end) for start in ends[0] for end in ends[1]}
    for name in os.listdir(f"{TOP}/examples/bikes/models"):
        bare = re.sub(r"--.*", "", read(f"{TOP}/examples/bikes/models/{name}"))
        for schema, model in re.findall(r"(?:FROM|JOIN) (raw|bikes)\.(\w+)", bare):
            written.add((f"raw_{model}" if schema == "raw" else model, name.removesuffix(".sql")))
    if drawn != written:
        sys.exit(f"README.md draws other arrows: {sorted(drawn ^ written)}")
    return len(drawn)


def play(program, name, steps, folder):
    """Runs the steps of an example in a folder with a program."""
    shutil.copytree(f"{ROWS}/{name}/project", folder, dirs_exist_ok=True)
    expected = iter(steps)
    for line in read(f"{ROWS}/{name}/script").splitlines():
        words = shlex.split(line, comments=True)
        if words[:1] == ["write"]:
            shutil.copy(f"{ROWS}/{name}/{words[2]}", f"{folder}/{words[1]}")
        elif words[:1] == ["delete"]:
            os.remove(f"{folder}/{words[1]}")
        elif words[:1] == ["mesh"]:
            step, status, printed = next(expected)
            done = subprocess.run([program, *words[1:]], stdin=subprocess.DEVNULL, capture_output=True, text=True, cwd=folder)
            if (step, status, printed) != (line, done.returncode, done.stdout + done.stderr):
                sys.exit(f"{name}: {line}\nhas status {done.returncode}, and prints\n{done.stdout}{done.stderr}")
        elif words:
            sys.exit(f"{name}: {line} can't be played")
    return len(steps)


def main():
    lines, rows = shown(read(f"{TOP}/docs/GUIDE.md")), examples()
    commands, files = compare_commands(lines, rows), compare_files(lines)
    compare_mirrors()
    print(f"{commands} command lines of the page are those of {len(rows)} examples, {files} files and {compare_picture()} arrows of a "
          "picture those of examples/")
    if len(sys.argv) > 1:
        program, played = os.path.abspath(sys.argv[1]), 0
        for name, steps in rows.items():
            if "\nfail" not in read(f"{ROWS}/{name}/script"):
                with tempfile.TemporaryDirectory() as folder:
                    played += play(program, name, steps, folder)
        print(f"over files the program prints what {played} commands of them print")


if __name__ == "__main__":
    main()
