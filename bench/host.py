#!/usr/bin/env python3
"""Tries the program over folders of the host that aren't plain: pipes, sockets, devices and folders in the place of files, and
links to files and folders. Each trial compares what a plan prints, and its status, with what it prints for the same
folder without what is in the way, and has ten seconds.

One line a trial is printed; the status is 1 if one went otherwise.

Usage: bench/host.py [PROGRAM], where PROGRAM is crates/mesh/out/mesh if left out (`./mesh` makes it)."""
import os
import shutil
import socket
import subprocess
import sys
import tempfile

from measured import TOP

WORDS = ["--warehouse", ":memory:", "--paths", "project", "plan", "--execution-time", "2024-01-03T00:30"]
FILES = {
    "external_models.csv": "name,column,type,role\nraw.t,x,INT,\n",
    "models/a.sql": "MODEL (name s.a, kind SEED (path '../seeds/a.csv'));\n",
    "models/b.sql": "MODEL (name s.b, kind FULL); SELECT x FROM s.a\n",
    "models/deep/c.sql": "MODEL (name s.c, kind VIEW); SELECT x FROM raw.t\n",
    "seeds/a.csv": "x\n1\n",
}
PLACES = ["external_models.csv", "models/a.sql", "models/new.sql", "seeds/a.csv"]


def made(room, without=()):
    shutil.rmtree(f"{room}/project", ignore_errors=True)
    for path, text in FILES.items():
        os.makedirs(os.path.dirname(f"{room}/project/{path}"), exist_ok=True)
        if path not in without:
            with open(f"{room}/project/{path}", "w") as file:
                file.write(text)
    return f"{room}/project"


def planned(program, room):
    try:
        ran = subprocess.run([program, *WORDS], cwd=room, stdin=subprocess.DEVNULL, capture_output=True, text=True, timeout=10)
    except subprocess.TimeoutExpired:
        return "no end within ten seconds"
    return ran.returncode, ran.stdout, ran.stderr


def bound(path):
    # A socket's path may have some hundred bytes, so it is bound from within its folder.
    before = os.getcwd()
    os.chdir(os.path.dirname(path))
    one = socket.socket(socket.AF_UNIX)
    one.bind(os.path.basename(path))
    one.close()
    os.chdir(before)


KINDS = {
    "a pipe": os.mkfifo,
    "a socket": bound,
    "a link to a device": lambda path: os.symlink("/dev/zero", path),
    "a link to a pipe": lambda path: (os.mkfifo(f"{path}.pipe"), os.symlink(f"{path}.pipe", path)),
    "a link to itself": lambda path: os.symlink(os.path.basename(path), path),
    "a link to nothing": lambda path: os.symlink("nothing", path),
    "a folder": os.mkdir,
}


def instead(program, room):
    """Something else in the place of a file is as if nothing were there."""
    for place in PLACES:
        made(room, [place])
        nothing = planned(program, room)
        for kind, put in KINDS.items():
            put(f"{made(room, [place])}/{place}")
            yield f"{kind} as {place}", planned(program, room) == nothing


def links(program, room):
    """Links to files are followed, those to folders below models/ aren't, and models itself may be one."""
    made(room)
    whole = planned(program, room)
    yield "the folder as it is", whole[0] == 0 and whole[1].count("added ") == 3
    for path in FILES:
        at = f"{made(room)}/{path}"
        os.rename(at, f"{room}/project/moved")
        os.symlink(f"{room}/project/moved", at)
        yield f"a link in the place of {path}", planned(program, room) == whole
    at = made(room)
    os.rename(f"{at}/models", f"{room}/elsewhere")
    os.symlink(f"{room}/elsewhere", f"{at}/models")
    yield "a link in the place of models", planned(program, room) == whole
    shutil.rmtree(f"{room}/elsewhere")
    at = made(room)
    for name in ("one", "two"):
        os.symlink("..", f"{at}/models/deep/{name}")
        os.symlink(".", f"{at}/models/{name}")
    yield "four links below models that lead back", planned(program, room) == whole
    at = made(room)
    os.mkdir(f"{room}/other")
    shutil.copy(f"{at}/models/b.sql", f"{room}/other")
    os.symlink(f"{room}/other", f"{at}/models/other")
    yield "a link to a folder elsewhere", planned(program, room) == whole


def main():
    program = os.path.abspath(sys.argv[1]) if sys.argv[1:] else f"{TOP}/crates/mesh/out/mesh"
    wrong = count = 0
    for trials in (instead, links):
        with tempfile.TemporaryDirectory(prefix="host-") as room:
            for name, went in trials(program, room):
                count, wrong = count + 1, wrong + (not went)
                print(f"{name}: {'as it should' if went else 'otherwise'}", flush=True)
    print(f"{count} trials, {wrong} wrong")
    return 1 if wrong else 0


if __name__ == "__main__":
    sys.exit(main())
