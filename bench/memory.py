#!/usr/bin/env python3
"""Has memory run out at one allocation after another of the first apply of `examples/shop`, over a warehouse in a file.

The program runs under a small library that counts the allocations that the program itself asks for, and refuses the one
of a given number (it is built by `cc` and loaded by LD_PRELOAD; those of the C library aren't counted). First an apply
runs undisturbed; copies of the file, taken at each of its syncs, are the states after each prefix of its changes. Then,
for each number, over a fresh copy of the warehouse before the apply:

- the status is 0, or 4 with the line `want of memory`, or 3 with `warehouse fault` where a commit was refused;
- the records of the file are one of these states, and the last one if the status is 0;
- the same command again ends with 0, and the views show the rows that they show without a refusal.

How many trials ended with which status, and after how many changes, is printed, and each trial that went otherwise. The
status is 1 if one did.

Usage: bench/memory.py [--every N] [PROGRAM]"""
import collections
import os
import shutil
import sqlite3
import subprocess
import sys
import tempfile
from concurrent.futures import ThreadPoolExecutor

from measured import TOP

LIBRARY = r"""
#define _GNU_SOURCE
#include <errno.h>
#include <fcntl.h>
#include <link.h>
#include <stdio.h>
#include <stdlib.h>
#include <sys/syscall.h>
#include <unistd.h>
static unsigned long low, high, count, refused;
static int of_the_program(struct dl_phdr_info *info, size_t size, void *data) {
    for (int i = 0; i < info->dlpi_phnum; i++) {
        const ElfW(Phdr) *part = &info->dlpi_phdr[i];
        if (part->p_type == PT_LOAD && (part->p_flags & PF_X)) {
            low = info->dlpi_addr + part->p_vaddr;
            high = low + part->p_memsz;
        }
    }
    return 1;
}
__attribute__((constructor)) static void begin(void) {
    const char *number = getenv("REFUSED");
    refused = number ? strtoul(number, 0, 10) : 0;
    dl_iterate_phdr(of_the_program, 0);
}
static int fails(void *from) {
    unsigned long at = (unsigned long)from;
    return at >= low && at < high && __sync_add_and_fetch(&count, 1) == refused;
}
extern void *__libc_malloc(size_t), *__libc_calloc(size_t, size_t), *__libc_realloc(void *, size_t), *__libc_memalign(size_t, size_t);
#define ASKED if (fails(__builtin_return_address(0))) { errno = ENOMEM; return 0; }
void *malloc(size_t size) { ASKED return __libc_malloc(size); }
void *calloc(size_t number, size_t size) { ASKED return __libc_calloc(number, size); }
void *realloc(void *old, size_t size) { ASKED return __libc_realloc(old, size); }
void *aligned_alloc(size_t align, size_t size) { ASKED return __libc_memalign(align, size); }
static void copy(const char *folder, int number, const char *name) {
    char path[4096], block[65536];
    snprintf(path, sizeof path, "%s/%04d-%s", folder, number, name);
    int from = open(name, O_RDONLY), to = open(path, O_CREAT | O_WRONLY, 0600);
    for (ssize_t n; from >= 0 && to >= 0 && (n = read(from, block, sizeof block)) > 0;) if (write(to, block, n) != n) abort();
    close(from);
    close(to);
}
static int synced(int done) {
    static int number;
    const char *folder = getenv("COPIES");
    if (folder) { copy(folder, number, "warehouse.db"); copy(folder, number++, "warehouse.db-wal"); }
    return done;
}
int fsync(int file) { return synced(syscall(SYS_fsync, file)); }
int fdatasync(int file) { return synced(syscall(SYS_fdatasync, file)); }
void _exit(int status) {
    const char *path = getenv("COUNTED");
    if (path) {
        FILE *file = fopen(path, "w");
        if (file) { fprintf(file, "%lu", count); fclose(file); }
    }
    for (;;) syscall(SYS_exit_group, status);
}
"""
APPLY = ["--paths", "shop", "apply", "--execution-time", "2024-01-03T00:30"]
ASKS = [["fetchdf", f"SELECT * FROM shop.{model}"] for model in ("daily", "totals")]


def run(program, words, folder, **env):
    ran = subprocess.run([program, *words], cwd=folder, env={**os.environ, **env}, capture_output=True, text=True)
    return ran.returncode, ran.stdout, ran.stderr


def records(file):
    """The records of a warehouse, read from a copy of its two files."""
    with tempfile.TemporaryDirectory() as room:
        for end in ("", "-wal"):
            if os.path.exists(f"{file}{end}"):
                shutil.copy(f"{file}{end}", f"{room}/warehouse.db{end}")
        opened = sqlite3.connect(f"{room}/warehouse.db")
        found = sorted(opened.execute("SELECT kind, name, body FROM things"))
        opened.close()
        return found


def prefixes(copies, before):
    """The records before an apply, and those of each copy that differ from the ones of the copy before."""
    states = [before]
    for name in sorted(it for it in os.listdir(copies) if it.endswith(".db")):
        state = records(f"{copies}/{name}")
        if state != states[-1]:
            states.append(state)
    return states


def fresh(room, start):
    folder = tempfile.mkdtemp(dir=room)
    for name in ("warehouse.db", "warehouse.db-wal"):
        if os.path.exists(f"{start}/{name}"):
            shutil.copy(f"{start}/{name}", folder)
    os.symlink(f"{TOP}/examples/shop", f"{folder}/shop")
    return folder


def main():
    words, every = sys.argv[1:], 1
    if words[:1] == ["--every"] and len(words) > 1:
        every, words = int(words[1]), words[2:]
    program = os.path.abspath(words[0]) if words else f"{TOP}/crates/mesh/out/mesh"
    with tempfile.TemporaryDirectory(prefix="memory-") as room:
        with open(f"{room}/library.c", "w") as file:
            file.write(LIBRARY)
        subprocess.run(["cc", "-O1", "-shared", "-fPIC", "-o", f"{room}/library.so", f"{room}/library.c"], check=True)
        preload = {"LD_PRELOAD": f"{room}/library.so"}
        start = tempfile.mkdtemp(dir=room)
        os.symlink(f"{TOP}/examples/shop", f"{start}/shop")
        run(program, ["--paths", "shop", "ingest", "raw.orders", "orders.csv"], start)
        whole = fresh(room, start)
        os.mkdir(f"{room}/copies")
        status, text, _ = run(program, APPLY, whole, COUNTED=f"{room}/count", COPIES=f"{room}/copies", **preload)
        with open(f"{room}/count") as file:
            count = int(file.read())
        states, shown = prefixes(f"{room}/copies", records(f"{start}/warehouse.db")), [run(program, ask, whole) for ask in ASKS]
        changes = int(text.split("applied prod: ")[1].split(" ")[0])
        print(f"an apply asks {count} times for memory, and makes {changes} changes, whose states are {len(states) - 1}")
        if status or len(states) - 1 != changes:
            sys.exit("the undisturbed apply isn't as it should be")

        def trial(number):
            folder = fresh(room, start)
            status, _, err = run(program, APPLY, folder, REFUSED=str(number), **preload)
            state = records(f"{folder}/warehouse.db")
            made = states.index(state) if state in states else None
            again = run(program, APPLY, folder)[0]
            rows = [run(program, ask, folder) for ask in ASKS]
            shutil.rmtree(folder)
            told = (status, err) in ((0, ""), (3, "warehouse fault\n"), (4, "want of memory\n"))
            went = told and made is not None and (status or made == changes) and again == 0 and rows == shown
            return number, status, made, went

        with ThreadPoolExecutor(os.cpu_count()) as pool:
            results = list(pool.map(trial, range(1, count + 1, every)))
    ended = collections.Counter((status, made) for _, status, made, _ in results)
    for (status, made), times in sorted(ended.items(), key=str):
        print(f"status {status} after {'no prefix of the' if made is None else made} changes: {times} times")
    wrong = [it for it in results if not it[3]]
    for number, status, made, _ in wrong[:20]:
        print(f"wrong: allocation {number}: status {status}, {made} changes")
    print(f"{len(results)} trials, {len(wrong)} wrong")
    return 1 if wrong else 0


if __name__ == "__main__":
    sys.exit(main())
