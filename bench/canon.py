#!/usr/bin/env python3
"""Times `canon` beside the peers of `peers.py`, which read the same text as a file, all in one run. Prints tables: for
each text the least processor time of several runs of `canon`, its ratio to that of each peer, and the peak memory of
each for each byte of the text; a peer that refuses a text has none. The first is of whole runs: syn prints the tokens
of its tree, and rust-analyzer's parser and rustc print nothing. The second is of an outline, for which the file is read
whole, and a line is written for each name, beside lexing and reading alone: syn's tree is let go of. The third is of
lexing alone. The last one has Debian's rustfmt beside it, on files of std alone, as it asks for more than that a text
is lexed and read: on the largest and one of 0.1 MB, and on all that both take, each by itself, the sum of one run of
each.

Usage: bench/canon.py [RUNS [CANON LEXER]]. It builds the programs first, which proves what isn't proved yet, or takes
those that are named, and fetches Debian's packages rust-src, librust-proc-macro2-dev, librust-syn-dev,
librust-quote-dev and rustfmt where they are missing. Nothing of the peers is kept."""

import glob
import os
import random
import subprocess
import sys
import tempfile

from peers import TOP, all_peers
from shapes import Runner, fetch, library, measured, weak

SIZE = 1_000_000
WEAK = 2_000_000
INFIX = ["+", "-", "*", "/", "%", "&", "|", "^", "<<", ">>", "&&", "||"]


def name(source):
    return "".join(source.choice("abcdefghijklmnopqrstuvwxyz") for _ in range(source.randrange(1, 8))) + "_"


def joined(source, most, make):
    return ", ".join(make() for _ in range(source.randrange(1, most)))


def path(source, depth, turbofish):
    """A path of one to three names, of which the last may have arguments: behind `::` in an expression."""
    names = "::".join(name(source) for _ in range(source.randrange(1, 4)))
    if depth > 0 and source.randrange(3) == 0:
        names += turbofish + "<" + joined(source, 3, lambda: kind(source, depth - 1)) + ">"
    return names


def kind(source, depth):
    """A type."""
    if depth == 0:
        return path(source, 0, "")
    inner = lambda: kind(source, depth - 1)
    return source.choice([
        lambda: path(source, depth, ""),
        lambda: f"&'{name(source)} mut {inner()}",
        lambda: f"&{inner()}",
        lambda: f"*const {inner()}",
        lambda: f"[{inner()}]",
        lambda: f"[{inner()}; {source.randrange(100)}]",
        lambda: f"({inner()}, {inner()})",
        lambda: f"fn({joined(source, 3, inner)}) -> {inner()}",
        lambda: f"Box<dyn {name(source)} + Send>",
    ])()


def value(source, depth):
    """An expression."""
    if depth == 0:
        return source.choice([name(source), str(source.randrange(1000)), '"text"'])
    inner = lambda: value(source, depth - 1)
    return source.choice([
        # A block or an arm that begins with a block is ended by it, so no operator stands behind what may be one.
        lambda: f"{name(source)} {source.choice(INFIX)} {inner()}",
        lambda: f"({inner()}) {source.choice(INFIX)} {name(source)}",
        lambda: f"{name(source)}({joined(source, 4, inner)})",
        lambda: f"{name(source)}.{name(source)}({joined(source, 3, inner)})?",
        lambda: f"{name(source)}.{name(source)}",
        lambda: f"[{joined(source, 4, inner)}]",
        lambda: f"&{name(source)}[{inner()}]",
        lambda: f"!{name(source)}",
        lambda: f"if {name(source)} {{ {inner()} }} else {{ {inner()} }}",
        lambda: f"match {name(source)} {{ Some({name(source)}) if {name(source)} => {inner()}, _ => {inner()} }}",
        lambda: f"|{name(source)}| {inner()}",
        lambda: f"{path(source, 1, '::')}",
    ])()


def data(source):
    """A struct, an enum or a constant."""
    field = lambda: f"/// A field.\n    pub {name(source)}: {kind(source, 1)},"
    fields = "\n    ".join(field() for _ in range(source.randrange(1, 12)))
    return source.choice([
        lambda: f"#[derive(Clone, Debug)]\npub struct {name(source)}<'a, T: Clone> {{\n    {fields}\n}}\n",
        lambda: f"pub enum {name(source)} {{ {joined(source, 9, lambda: name(source) + f'({kind(source, 1)})')} }}\n",
        lambda: f"pub const {name(source)}: {kind(source, 1)} = {value(source, 1)};\n",
    ])()


def function(source):
    """A function with some statements, perhaps in an impl."""
    lines = "".join(f"    let {name(source)} = {value(source, 2)};\n" for _ in range(source.randrange(1, 9)))
    body = f"fn {name(source)}(x: {kind(source, 1)}) -> {kind(source, 1)} {{\n{lines}    {name(source)}\n}}\n"
    return source.choice([body, f"impl {name(source)} for {name(source)} {{\n{body}}}\n"])


def written(make):
    """Items of one sort, one megabyte of them: the same text each time."""
    source = random.Random(23)
    parts, size = [], 0
    while size < SIZE:
        parts.append(make(source))
        size += len(parts[-1])
    return "".join(parts).encode()


# What the names of the texts that rustfmt is given begin with.
OF_STD = ("largest file", "`core/src")

RUSTFMT = ["/usr/bin/rustfmt", "--edition", "2021"]


def is_read(command, text):
    """Whether the program reads the text as a file."""
    ran = subprocess.run(command, input=text, stdout=subprocess.DEVNULL, stderr=subprocess.DEVNULL)
    return ran.returncode == 0


def files_of_std():
    """The folder of std, and its files, the largest last."""
    listed = subprocess.run(["dpkg", "-L", "rust-src"], capture_output=True, text=True, check=True).stdout
    folder = next(line for line in listed.splitlines() if line.endswith("/library"))
    return folder, sorted(glob.glob(folder + "/**/*.rs", recursive=True), key=os.path.getsize)


def content(name):
    with open(name, "rb") as file:
        return file.read()


def modules(files):
    """The files, each as a module of its own."""
    inside = (content(name).removeprefix(b"\xef\xbb\xbf") for name in files)
    return [b"mod file_%d {\n%s\n}\n" % (at, text) for at, text in enumerate(inside)]


def texts():
    """Each text and what it is. One that is a list is of parts, of which those stand that all programs read."""
    yield "types", written(lambda source: f"type {name(source)} = {kind(source, 3)};\n")
    yield "paths", written(lambda source: f"type {name(source)} = {path(source, 3, '')};\n")
    yield "expressions", written(lambda source: f"const {name(source)}: u8 = {value(source, 4)};\n")
    yield "data types and constants", written(data)
    yield "functions and impls", written(function)
    folder, files = files_of_std()
    yield "std, each of its files a module", modules(files)
    yield "largest file of std", content(files[-1])
    yield "`core/src/iter/traits/iterator.rs`", content(folder + "/core/src/iter/traits/iterator.rs")
    yield "one macro with std inside", b"m!{" + library() + b"}"


def built(given):
    """This project's programs, as they are given or built here, by what they are to do."""
    canon, lexer = given or (f"{TOP}/crates/{name}/out/{name}" for name in ("canon_cli", "bench_lexer"))
    for name in [] if given else ["canon_cli", "bench_lexer"]:
        folder = f"{TOP}/crates/{name}"
        subprocess.run(["rt", "run"], cwd=folder, stdin=subprocess.DEVNULL, capture_output=True, check=True)
    return {"whole": [canon], "read": [canon, "outline"], "lex": [lexer]}


def made_texts(commands):
    """Each text and what it is. Of one that has parts those stand that all the commands read."""
    whole = lambda part: all(is_read(command, part) for command in commands)
    for what, text in texts():
        yield what, text if isinstance(text, bytes) else b"".join(filter(whole, text))
    yield from weak(WEAK)


def table(runner, title, commands, made, place, runs):
    """Each text's row: what the first program takes, and its ratio to each other that reads the text."""
    ours, *peers = commands
    print(f"\n| {title} | MB | {ours} | {' | '.join(f'/ {peer}' for peer in peers)} | Bytes a byte, each |")
    print("|---|" + "---:|" * (len(peers) + 2) + "---|")
    for what, text in made:
        with open(place, "wb") as file:
            file.write(text)
        reading = [name for name in commands if name == ours or is_read(commands[name], text)]
        seconds, memory = measured(runner, [commands[name] for name in reading], place, runs)
        took = dict(zip(reading, seconds))
        ratios = [f"{took[ours] / took[peer]:.2f}" if peer in took else "refused" for peer in peers]
        each = ", ".join(f"{peak / len(text):.0f}" for peak in memory)
        print(f"| {what} | {len(text) / 1e6:.1f} | {took[ours]:.3f} s | {' | '.join(ratios)} | {each} |", flush=True)


def beside_rustfmt(runner, canon, made, place, runs):
    """The rows beside rustfmt, with one for all files of std that both take, each by itself."""
    commands = {"this": canon, "rustfmt": RUSTFMT}
    table(runner, "Beside rustfmt", commands, made, place, runs)
    taken = [name for name in files_of_std()[1] if all(is_read(it, content(name)) for it in commands.values())]
    size = sum(os.path.getsize(name) for name in taken)
    ours, theirs = (sum(runner.once(command, name)[0] for name in taken) for command in commands.values())
    times = f"{ours:.3f} s | {ours / theirs:.2f}"
    print(f"| {len(taken)} files of std, each by itself | {size / 1e6:.1f} | {times} | |", flush=True)


def main():
    runs = int(sys.argv[1]) if len(sys.argv) > 1 else 5
    fetch("librust-syn-dev", "librust-quote-dev", "rustfmt")
    runner = Runner()
    with tempfile.TemporaryDirectory() as work:
        programs = {"this": built(sys.argv[2:]), **all_peers(work)}
        commands = lambda task: {name: tasks[task] for name, tasks in programs.items() if task in tasks}
        made = list(made_texts(commands("whole").values()))
        place = os.path.join(work, "text")
        table(runner, "Read, written and printed", commands("whole"), made, place, runs)
        table(runner, "An outline, and the peers' reading alone", commands("read"), made, place, runs)
        table(runner, "Lexed", commands("lex"), made, place, runs)
        of_std = [it for it in made if it[0].startswith(OF_STD)]
        beside_rustfmt(runner, programs["this"]["whole"], of_std, place, runs)


if __name__ == "__main__":
    main()
