#!/usr/bin/env python3
"""Times making and walking the buffer of the standard library's tokens beside syn's own buffer, all in one run. Prints
a table: for each task the least processor time of several runs, less that of a run which only lexes, and the peak of
memory for each byte of the text.

Usage: bench/buffer.py [RUNS]. It builds the programs first, which proves what isn't proved yet, and fetches Debian's
packages rust-src, librust-proc-macro2-dev, librust-syn-dev and librust-quote-dev where they are missing. The peer is
built with plain rustc, and nothing of it is kept."""

import os
import subprocess
import sys
import tempfile

from peers import HERE, SYN, TOP, syn_peer
from shapes import Runner, fetch, library, measured

# what the programs are told to do: how often the buffer is walked, and whether kinds are looked for
TASKS = [
    ("the buffer is made", ["0"]),
    ("made, and walked once", ["1"]),
    ("made, and walked once with peeks of kinds", ["1", "kinds"]),
    ("made, and walked ten times", ["10"]),
    ("made, and walked ten times with peeks of kinds", ["10", "kinds"]),
]


def built(work):
    """The programs: this buffer, and the peer with and without span locations."""
    programs = {"this": f"{TOP}/crates/bench_buffer/out/bench_buffer"}
    for name, flags in SYN.items():
        programs[name] = syn_peer(os.path.join(work, name.replace(" ", "-")), flags, HERE + "/buffer_peer.rs")
    folder = f"{TOP}/crates/bench_buffer"
    subprocess.run(["rt", "run"], cwd=folder, stdin=subprocess.DEVNULL, capture_output=True, check=True)
    return programs


def same_counts(programs, path):
    """Each program met the same tokens; the kinds they look for are those of their own tables of keywords."""
    said = set()
    for program in programs.values():
        with open(path, "rb") as text:
            words = subprocess.run([program, "1"], stdin=text, capture_output=True, text=True, check=True).stdout
        said.add(words)
    if len(said) != 1:
        raise SystemExit(f"the programs met other tokens: {said}")
    return said.pop().strip()


def main():
    runs = int(sys.argv[1]) if len(sys.argv) > 1 else 5
    fetch("librust-syn-dev", "librust-quote-dev")
    runner = Runner()
    text = library()
    with tempfile.TemporaryDirectory() as work:
        programs = built(work)
        path = os.path.join(work, "text")
        with open(path, "wb") as file:
            file.write(text)
        print(f"{len(text) / 1e6:.1f} MB: {same_counts(programs, path)}\n")
        print("| Lexing aside | this | peer with spans | peer without | this/with | this/without "
              "| Bytes a byte, each |")
        print("|---|---|---|---|---|---|---|")
        order = ["this", *SYN]
        lexing, _ = measured(runner, [[programs[name]] for name in order], path, runs)
        for title, arguments in TASKS:
            commands = [[programs[name], *arguments] for name in order]
            seconds, memory = measured(runner, commands, path, runs)
            ours, spans, plain = (took - lexed for took, lexed in zip(seconds, lexing))
            each = ", ".join(f"{peak / len(text):.1f}" for peak in memory)
            times = f"{ours:.3f} s | {spans:.3f} s | {plain:.3f} s | {ours / spans:.2f} | {ours / plain:.2f}"
            print(f"| {title} | {times} | {each} |", flush=True)


if __name__ == "__main__":
    main()
