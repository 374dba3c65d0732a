#!/usr/bin/env python3
"""Makes `docs/mesh.1`, the manual page, out of `docs/COMMANDS.md`.

The section of each command becomes a subsection of COMMANDS, every other section one of the page, and what stands above the
first section a part of DESCRIPTION. A table becomes a list of tagged paragraphs, so the page needs no `tbl`. Lines of examples
that are wider than the page are folded: commands by a backslash, as a shell takes it. NAME, SYNOPSIS, the beginning of
DESCRIPTION, EXIT STATUS, FILES and SEE ALSO are written here.

Read by this are headings, paragraphs, lists, tables and fenced blocks, and within them code, bold text and links, of which the
text is kept.

Usage: bench/manual.py [--check]

Without the option it writes the page. With it nothing is written, and the status is 1 if the page isn't what would be written."""
import os
import re
import sys

TOP = os.path.dirname(os.path.dirname(os.path.abspath(__file__)))
SOURCE = f"{TOP}/docs/COMMANDS.md"
PAGE = f"{TOP}/docs/mesh.1"
# How many columns an example may have: 80 without the indents of a section and of an example.
WIDTH = 68
# The sections of the source that are a command's.
COMMANDS = ("plan", "apply", "run", "evaluate", "fetchdf", "ingest", "invalidate", "janitor", "migrate", "trace", "impact", "batch", "demo")
HEAD = r"""
.\" Made of docs/COMMANDS.md by bench/manual.py: change that file, not this one.
.TH MESH 1 "" mesh "User Commands"
.nh
.ad l
.SH NAME
mesh \- keep a data warehouse in step with a folder of SQL models
.SH SYNOPSIS
\fBmesh\fR [\fB\-\-paths\fR \fIDIR\fR] [\fB\-\-warehouse\fR \fIFILE\fR] \fICOMMAND\fR [\fIWORD\fR ..]
.SH DESCRIPTION
\fBmesh\fR reads a folder of SQL models, compares it with an environment of a warehouse, computes the intervals that are
missing, and points the environment's views at the tables.
"""
STATUSES = [
    ("0", "The command was done."),
    ("1", "A fault of the project, of a source, or of the words' own query, file or names: M1 to M20."),
    ("2", "The words are no command line."),
    ("3", "The warehouse's file can't be opened, read or written."),
    ("4", "Memory ran out."),
    ("5", "The project's folder, the clock or the standard input can't be read."),
    ("6", "The standard output or the standard error can't be written."),
    ("7", "What the warehouse keeps doesn't allow it: S1 to S5."),
]
FILES = [
    ("warehouse.db", "The warehouse, in the folder of the call, if `--warehouse` names no other file."),
    ("warehouse.db-wal", "Its log, which may have the last changes: copy the two together."),
]


def escaped(text):
    """A text as roff has it."""
    return text.replace("\\", "\\e").replace("~", "\\(ti").replace("^", "\\(ha")


def literal(text):
    """A text that may be copied from the page and typed."""
    return escaped(text).replace("-", "\\-").replace("'", "\\(aq").replace("`", "\\(ga")


def guarded(line):
    """A line that roff doesn't take for a request."""
    return f"\\&{line}" if line.startswith((".", "'")) else line


def inline(text):
    """A line of a paragraph, an item or a cell: code and bold text are bold, a link is its text."""
    made = []
    for piece in re.split(r"(`[^`]*`|\*\*[^*]*\*\*)", re.sub(r"\[([^\]]*)\]\([^)]*\)", r"\1", text)):
        if piece.startswith("`"):
            made.append(f"\\fB{literal(piece[1:-1])}\\fR")
        elif piece.startswith("**"):
            made.append(f"\\fB{escaped(piece[2:-2])}\\fR")
        else:
            made.append(escaped(piece))
    return guarded("".join(made))


def whole(lines):
    """The lines of a piece of text, none of which ends within code or a link."""
    return re.sub(r"`[^`]*`|\[[^\]]*\]", lambda found: found[0].replace("\n", " "), "\n".join(lines)).split("\n")


def folded(line):
    """A line of an example, in lines that fit the page. A command is folded outside of quotes."""
    command, made = line.startswith("$ "), []
    while len(line) > WIDTH:
        fronts = (line[:at] for at in range(WIDTH - 2, 8, -1) if line[at] == " ")
        front = next((it for it in fronts if not command or it.count('"') % 2 == it.count("'") % 2 == 0), None)
        if front is None:
            break
        made.append(front + (" \\" if command else ""))
        line = "    " + line[len(front) + 1 :]
    return [*made, line]


def example(lines, file):
    """The lines of a block; those of a file behind a command that shows them."""
    shown = [f"$ cat {file}", *lines] if file else lines
    return [".PP", ".RS 4", ".nf", *(guarded(literal(piece)) for line in shown for piece in folded(line)), ".fi", ".RE"]


def cells(row):
    return [cell.strip() for cell in row.strip().strip("|").split("|")]


def tagged(pairs):
    return [line for tag, texts in pairs for line in (".TP", tag, *"\n.br\n".join(map(inline, texts)).split("\n"))]


def table(lines):
    """Each row as a tagged paragraph: the first cell, and the others, which have their heads in front from the third one on, or
    all of them if there are more than three."""
    heads, rows = cells(lines[0]), [cells(line) for line in lines[2:]]
    named = 1 if len(heads) > 3 else 2
    texts = [[cell if at < named else f"{head}: {cell}" for at, (head, cell) in enumerate(zip(heads, row)) if cell] for row in rows]
    return [*tagged((inline(row[0]), row[1:]) for row in texts), ".PP"]


def items(lines):
    made = []
    for line in whole(lines):
        begun = re.match(r"(-|\d+\.) +", line)
        if begun:
            made.append(".IP \\(bu 3" if begun[1] == "-" else f".IP {begun[1]} 4")
            line = line[begun.end() :]
        made.append(inline(line.strip()))
    return [*made, ".PP"]


def paragraph(lines):
    return [".PP", *map(inline, whole(lines))]


def heading(line, before):
    """The heading of a section; in front of the first command's that of all commands."""
    title = line.removeprefix("## ")
    if title not in COMMANDS:
        return [f'.SH "{escaped(title).upper()}"']
    return [*([] if ".SH COMMANDS" in before else [".SH COMMANDS"]), f".SS {title}"]


def body(text):
    """The page's sections in the order of the source. The source's title and its comments are left out."""
    made, lines, at = [], [*text.splitlines(), ""], 0
    while at < len(lines):
        line, end = lines[at], at + 1
        if line.startswith("```"):
            end = lines.index("```", end) + 1
            made += example(lines[at + 1 : end - 1], " ".join(line.split()[1:]))
        elif line.startswith("## "):
            made += heading(line, made)
        elif line and not line.startswith(("# ", "<!--")):
            while lines[end] and not lines[end].startswith("```"):
                end += 1
            kind = table if line.startswith("|") else items if re.match(r"(-|\d+\.) ", line) else paragraph
            made += kind(lines[at:end])
        at = end
    assert [f".SS {name}" for name in COMMANDS] == [line for line in made if line.startswith(".SS ")]
    return made


def tidy(lines):
    """Without a paragraph's request where a heading or another request makes one too."""
    begin = (".SH", ".SS", ".PP", ".TP", ".IP")
    pairs = zip(lines, [".SH", *lines], [*lines[1:], ".SH"])
    return [line for line, front, after in pairs if line != ".PP" or not after.startswith(begin) and not front.startswith((".SH", ".SS"))]


def manual(text):
    pages = ", ".join(f"`docs/{name}`" for name in dict.fromkeys(re.findall(r"\]\(([A-Z-]+\.md)", text)))
    statuses = tagged((f"\\fB{status}\\fR", [meaning]) for status, meaning in STATUSES)
    files = tagged((f"\\fB{literal(name)}\\fR", [meaning]) for name, meaning in FILES)
    ends = ['.SH "EXIT STATUS"', *statuses, ".SH FILES", *files, '.SH "SEE ALSO"', inline(f"{pages} of the sources.")]
    return "\n".join([*HEAD.strip().split("\n"), *tidy([".PP", *body(text), *ends])]) + "\n"


def read(path):
    with open(path, encoding="utf-8") as file:
        return file.read()


def main():
    words = sys.argv[1:]
    if words not in ([], ["--check"]):
        print(__doc__)
        sys.exit(0 if words in (["--help"], ["-h"]) else 2)
    made = manual(read(SOURCE))
    if not words:
        with open(PAGE, "w", encoding="utf-8") as file:
            file.write(made)
    elif not os.path.exists(PAGE) or read(PAGE) != made:
        sys.exit("docs/mesh.1 isn't what docs/COMMANDS.md gives: run bench/manual.py")


if __name__ == "__main__":
    main()
