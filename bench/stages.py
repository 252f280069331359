#!/usr/bin/env python3
"""Times reading alone and printing alone beside syn's, with span locations and without them, all in one run. Prints a
table: for each text of `canon.py` but the macro what one reading of its tokens takes, from the making of the buffer to
the letting go of the tree, and what one printing of a tree takes, from the tree to the text. Each is the difference of
two whole runs, of which one reads or prints more often, divided by how much more often. Of each run it is the least
processor time of several, in which the programs take turns.

Usage: bench/stages.py [RUNS]                 measures: 5 runs
       bench/stages.py with PROGRAM [RUNS]    the same of a program that is built already
       bench/stages.py crate FOLDER           writes a copy of the repository with the program's crate, and no more

The program is proved and built as that of `walks.py` is, and the peer as that of `canon.py`."""

import os
import sys
import tempfile

from canon import is_read, texts
from peers import HERE, SYN, syn_peer
from shapes import Runner, fetch, measured
from walks import built, crate

NAME = "stages"

# The program: two numbers on the first line of standard input, and the text behind it.
SOURCE = """\
//! Reads the tokens of a text as a file so often, and writes and prints what was read so often: two numbers on the
//! first line of standard input, and the text behind it.
#![tactic(auto)]

use anyhow::{Result, anyhow};
use std::alloc::Global;
use std::io::{Read, Write};
use syn::{Arena, Kind, SourceMap, TokenBuffer, TokenStream, Tree, parse_as, print, write};

// How often, as a word says.
fn count_of(word: &str) -> Result<usize> {
    match word.parse::<usize>().ok() {
        Some(count) => Ok(count),
        None => Err(anyhow!("no number")),
    }
}

// The file that a buffer holds.
fn parsed<'a>(arena: &'a Arena, buffer: &'a TokenBuffer<'a>) -> Result<Tree<'a>> {
    Ok(parse_as(arena, Kind::AFile, buffer)?)
}

// Reads a buffer as a file, and lets go of it.
fn read_buffer(alloc: Global, buffer: &TokenBuffer) -> Result<()> {
    let arena = Arena::new(alloc);
    let _tree = parsed(&arena, buffer)?;
    Ok(())
}

// Reads tokens as a file, and lets go of it.
fn read_once(alloc: Global, stream: &TokenStream) -> Result<()> {
    let buffer = TokenBuffer::new2(alloc, stream, 1)?;
    read_buffer(alloc, &buffer)
}

// The length of what a tree is printed as.
fn printed_once(alloc: Global, tree: &Tree) -> Result<usize> {
    let mut pieces = Vec::new(alloc);
    write(tree, &mut pieces)?;
    let text = print(alloc, pieces.as_slice())?;
    Ok(text.len())
}

// Prints the file that a buffer holds so often, and puts the length of its text.
fn put_printed(prints: usize, buffer: &TokenBuffer, out: &mut String) -> Result<()> {
    let alloc = *out.allocator();
    let arena = Arena::new(alloc);
    let tree = parsed(&arena, buffer)?;
    let mut length = 0;
    for _ in 0..prints {
        length = printed_once(alloc, &tree)?;
    }
    Ok(writeln!(out, "{length}")?)
}

// Reads a text so often, and prints it so often.
fn put_stages(reads: usize, prints: usize, text: &str, out: &mut String) -> Result<()> {
    let alloc = *out.allocator();
    let mut map = SourceMap::new(alloc);
    let stream = TokenStream::from_str(alloc, text, &mut map)?;
    for _ in 1..reads {
        read_once(alloc, &stream)?;
    }
    let buffer = TokenBuffer::new2(alloc, &stream, 1)?;
    put_printed(prints, &buffer, out)
}

fn main(rt: HostRuntime) -> Result<()> {
    let mut asked = String::new(rt.alloc());
    rt.reader().read_to_string(&mut asked)?;
    let mut out = String::new(rt.alloc());
    let (line, text) = asked.as_str().split_once('\\n').unwrap_or(("", ""));
    let (reads, prints) = line.split_once(' ').unwrap_or(("", ""));
    put_stages(count_of(reads)?, count_of(prints)?, text, &mut out)?;
    rt.stdout().write_all(out.as_bytes())?;
    Ok(())
}
"""


def took(runner, programs, place, text, counts, runs):
    """What a run that reads and prints so often takes each program."""
    with open(place, "wb") as file:
        file.write(b"%d %d\n" % counts + text)
    return measured(runner, [[program] for program in programs], place, runs)[0]


def put_row(runner, programs, what, text, place, runs):
    """What one reading and one printing of a text take each program."""
    times = 4 if len(text) < 10_000_000 else 1
    once = took(runner, programs, place, text, (1, 0), runs)
    cells = []
    for counts in ((1 + times, 0), (1, times)):
        more = took(runner, programs, place, text, counts, runs)
        ours, spans, plain = ((after - before) / times for before, after in zip(once, more))
        cells += [f"{ours:.4f} s", f"{spans:.4f} s", f"{plain:.4f} s", f"{ours / spans:.2f}", f"{ours / plain:.2f}"]
    print(f"| {what} | {len(text) / 1e6:.1f} | {' | '.join(cells)} |", flush=True)


def measure(given, runs):
    fetch("librust-syn-dev", "librust-quote-dev")
    runner = Runner()
    with tempfile.TemporaryDirectory() as work:
        programs = [given or built(work, b"1 1\n", NAME, SOURCE)]
        for peer, flags in SYN.items():
            programs.append(syn_peer(os.path.join(work, peer.replace(" ", "-")), flags, HERE + "/stage_peer.rs"))
        whole = lambda part: all(is_read([program], b"1 0\n" + part) for program in (programs[0], programs[-1]))
        names = "this | peer with spans | peer without | this/with | this/without"
        print(f"| One reading, and one printing | MB | Read: {names} | Printed: {names} |")
        print("|---" * 12 + "|", flush=True)
        for what, text in texts():
            if not what.startswith("one macro"):
                text = text if isinstance(text, bytes) else b"".join(filter(whole, text))
                put_row(runner, programs, what, text, os.path.join(work, "text"), runs)


def main():
    words = sys.argv[1:]
    if words[:1] == ["crate"]:
        os.makedirs(words[1])
        return crate(words[1], NAME, SOURCE)
    given = words[1] if words[:1] == ["with"] else None
    numbers = words[2:] if given else words
    measure(given, int(numbers[0]) if numbers else 5)


if __name__ == "__main__":
    main()
