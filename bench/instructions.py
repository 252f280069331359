#!/usr/bin/env python3
"""Counts the instructions that programs take for a byte of a text, by valgrind's callgrind. Prints two tables with a
row for each program and each peer of `peers.py`: of texts that are made as `canon.py` makes them and one file of the
standard library, and of the shapes that `shapes.py` calls weak, of some hundred kilobytes each. What a run on the
shortest text takes is subtracted, and stands in the last column. A count is the same whatever else runs on the machine.

Usage: bench/instructions.py [lex] [alone] PROGRAM...   A program reads standard input. With `lex` each lexes only, and
so do the peers; with `alone` there are no peers. It fetches Debian's packages rust-src, librust-proc-macro2-dev,
librust-syn-dev, librust-quote-dev and valgrind where they are missing."""

import os
import re
import subprocess
import sys
import tempfile

import canon
from peers import all_peers
from shapes import weak

SIZE = 100_000
SHORTEST = b"fn f(){}\n"


def counted(command, text, place):
    """How many instructions a run on a text takes; none if the text is refused."""
    with open(place, "wb") as file:
        file.write(text)
    valgrind = ["valgrind", "--trace-children=yes", "--tool=callgrind", "--callgrind-out-file=/dev/null"]
    with open(place, "rb") as file:
        ran = subprocess.run([*valgrind, *command], stdin=file, stdout=subprocess.DEVNULL, stderr=subprocess.PIPE)
    return int(re.findall(rb"Collected : (\d+)", ran.stderr)[-1]) if ran.returncode == 0 else None


def texts():
    """Each text and what it is."""
    canon.SIZE = SIZE
    of_canon = [(what, text) for what, text in canon.texts() if isinstance(text, bytes)]
    return [it for it in of_canon if len(it[1]) < 2 * SIZE]


def table(title, commands, made, place):
    """Each program's row."""
    print(f"\n| {title} | " + " | ".join(what for what, _ in made) + " | `fn f(){}`, thousands |")
    print("|---|" + "---:|" * (len(made) + 1))
    for name, command in commands.items():
        shortest = counted(command, SHORTEST, place)
        counts = [(counted(command, text, place), len(text)) for _, text in made]
        cells = ["refused" if count is None else f"{(count - shortest) / size:.0f}" for count, size in counts]
        print(f"| {name} | {' | '.join(cells)} | {shortest / 1000:.0f} |", flush=True)


def main():
    words = sys.argv[1:]
    task = "lex" if "lex" in words else "whole"
    programs = [word for word in words if word not in ("lex", "alone")]
    canon.fetch("librust-syn-dev", "librust-quote-dev", "valgrind")
    with tempfile.TemporaryDirectory() as work:
        peers = {} if "alone" in words else all_peers(work)
        commands = {os.path.basename(program): [program] for program in programs}
        commands.update({name: tasks[task] for name, tasks in peers.items() if task in tasks})
        place = os.path.join(work, "text")
        table("Instructions a byte", commands, texts(), place)
        table("Instructions a byte, of weak shapes", commands, list(weak(SIZE)), place)


if __name__ == "__main__":
    main()
