#!/usr/bin/env python3
"""Tries the scripts at the top, `mesh` and `try`, without building anything: each in a copy of the files that it needs, with a
program and a command `rt` of this script's own in the place of the real ones.

- Called through links, relative and absolute and one behind another, in another folder, a built program gets the words,
  the folder and the status.
- Where `rt` isn't there, is of another kit, or its disk or memory are short, one plain line says so and the status is 127.
- A build that ends early and one whose program prints something else are told with the log, and leave no program to be run.
- A build whose smoke test passes is told, and the program runs at once. Progress has one line a step where there is no terminal.
- A source that is newer than the program is named, and the program runs all the same; a newer source of another crate isn't.

Usage: bench/front.py"""
import os
import re
import shutil
import stat
import subprocess
import sys
import tempfile
import time

TOP = os.path.dirname(os.path.dirname(os.path.abspath(__file__)))
PROGRAM = '#!/bin/sh\necho "$PWD|$*"\nexit 7\n'
# `rt run -- WORDS` of a kit that proves two crates and makes a program, which then prints the file `printed`.
RT = """#!/bin/sh
case $1 in
version) echo "$KIT_SAYS" ;;
doc) echo /nowhere/START-HERE.md ;;
run)
    echo 'rt: chose --jobs 2 for low' >&2
    echo 'rt: chose --jobs 2 for mesh' >&2
    [ "$RT_DOES" = stops ] && exit 1
    mkdir -p out
    cp "$MADE" out/mesh
    cat "$PRINTED" ;;
esac
"""


def write(path, text, runs=False):
    os.makedirs(os.path.dirname(path), exist_ok=True)
    with open(path, "w") as file:
        file.write(text)
    if runs:
        os.chmod(path, os.stat(path).st_mode | stat.S_IXUSR | stat.S_IXGRP | stat.S_IXOTH)


class House:
    """A repository of one library and the program, with the scripts that are tried."""

    def __init__(self, room):
        self.at, self.room = f"{room}/house", room
        for name in ("mesh", "try", "tools/build.py", "tools/newer"):
            os.makedirs(os.path.dirname(f"{self.at}/{name}"), exist_ok=True)
            shutil.copy(f"{TOP}/{name}", f"{self.at}/{name}")
        write(f"{self.at}/crates.txt", "low:\nmesh: low\nabove: mesh\n")
        for name in ("low", "mesh", "above"):
            write(f"{self.at}/crates/{name}/src/lib.rt", "fn one() {}\n    pub fn two() {}\n")
        write(f"{self.at}/crates/mesh/args", "--paths\nstarter\nbatch\n")
        write(f"{self.at}/crates/mesh/stdin", "\n")
        write(f"{self.at}/crates/mesh/stdout", "as it should\n")
        write(f"{room}/bin/rt", RT, runs=True)
        write(f"{room}/made", PROGRAM, runs=True)
        write(f"{room}/other", "something else\n")

    def run(self, path, *words, cwd=None, with_rt=True, **env):
        bins = f"{self.room}/bin:" if with_rt else ""
        given = {"PATH": f"{bins}/usr/bin:/bin", "KIT_SAYS": "rattle-kit-13f logic 0", "MADE": f"{self.room}/made"}
        given.update({"PRINTED": f"{self.at}/crates/mesh/stdout", "RT_DOES": "", **env})
        os.makedirs(f"{self.room}/elsewhere", exist_ok=True)
        at = cwd or f"{self.room}/elsewhere"
        return subprocess.run([path, *words], cwd=at, env=given, capture_output=True, text=True, timeout=60)

    def clear(self):
        for it in ("out", "crates/mesh/out"):
            shutil.rmtree(f"{self.at}/{it}", ignore_errors=True)


def tried(house):
    """Each trial's name and whether it went as it should."""
    room = house.room
    programs = {"mesh": f"{house.at}/crates/mesh/out/mesh", "try": f"{house.at}/out/mesh-unproved"}
    for name, program in programs.items():
        write(program, PROGRAM, runs=True)
        os.symlink(f"{house.at}/{name}", f"{room}/absolute-{name}")
        os.symlink(f"house/{name}", f"{room}/relative-{name}")
        os.symlink(f"../relative-{name}", f"{room}/bin/again-{name}")
        for path in (f"{house.at}/{name}", f"{room}/absolute-{name}", f"../relative-{name}", f"{room}/bin/again-{name}", f"again-{name}"):
            ran = house.run(path if "/" in path else f"{room}/bin/{path}", "plan", "a b")
            yield f"{name} by {path.replace(room, '')}", (ran.stdout, ran.returncode) == (f"{room}/elsewhere|plan a b\n", 7)
        write(f"{program}.sources", "low\nmesh\n")
        before, later = time.time() - 60, time.time() + 60
        os.utime(f"{house.at}/crates/low/src/lib.rt", (before, before))
        os.utime(f"{house.at}/crates/above/src/lib.rt", (later, later))
        yield f"{name}: a newer source of another crate", house.run(f"{house.at}/{name}").stderr == ""
        os.utime(f"{house.at}/crates/low/src/lib.rt", (later, later))
        ran = house.run(f"{house.at}/{name}")
        told = ran.stderr.startswith(f"{name}: crates/low/src/lib.rt is newer than the program;")
        yield f"{name}: a newer source", told and ran.returncode == 7
        os.remove(f"{program}.sources")
        yield f"{name}: any newer source", "is newer than the program" in house.run(f"{house.at}/{name}").stderr
        house.clear()
        for what, wanted, how in (
            ("no rt", "no `rt` on the PATH", {"with_rt": False}),
            ("another kit", "rattle-kit-13f is needed, and `rt version` says rattle-kit-9", {"KIT_SAYS": "rattle-kit-9 logic 0"}),
        ):
            ran = house.run(f"{house.at}/{name}", **how)
            yield f"{name}: {what}", (wanted in ran.stderr, ran.stderr.count("\n"), ran.returncode) == (True, 1, 127)
    ran = house.run(f"{house.at}/try")
    yield "try: a kit without its inner ways", ("this kit has no" in ran.stderr, ran.returncode) == (True, 127)
    ran = house.run(f"{house.at}/mesh", RT_DOES="stops")
    yield "mesh: a proof that fails", ("ended early; the log is" in ran.stderr, ran.returncode) == (True, 127)
    ran = house.run(f"{house.at}/mesh", PRINTED=f"{room}/other")
    kept = os.path.exists(f"{house.at}/crates/mesh/out/mesh")
    yield "mesh: a smoke test that fails", ("printed something else" in ran.stderr, ran.returncode, kept) == (True, 127, False)
    ran = house.run(f"{house.at}/mesh", "plan")
    said = re.findall(r"^mesh: (\d) of 2 crates, (\d) of 4 functions", ran.stderr, re.M)
    yield "mesh: progress", said == [("0", "0"), ("1", "2")]
    built = "about an hour" in ran.stderr and "./try" in ran.stderr and "the smoke test passed" in ran.stderr
    yield "mesh: a build", (built, ran.stdout, ran.returncode) == (True, f"{room}/elsewhere|plan\n", 7)
    with open(f"{house.at}/out/proved.log") as log:
        yield "mesh: the log", "rt: chose --jobs 2 for low" in log.read()


def main():
    if len(sys.argv) > 1:
        print(__doc__)
        return 0 if sys.argv[1:] in (["--help"], ["-h"]) else 2
    with tempfile.TemporaryDirectory(prefix="front-") as room:
        results = list(tried(House(os.path.realpath(room))))
    wrong = [name for name, went in results if not went]
    for name in wrong:
        print(f"wrong: {name}")
    print(f"{len(results)} trials, {len(wrong)} wrong")
    return 1 if wrong else 0


sys.exit(main())
