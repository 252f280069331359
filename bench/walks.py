#!/usr/bin/env python3
"""Measures what walks along expressions take, by a small program over `syn` that stands below. Prints tables of two
kinds.

Depth: along chains of n operators, method calls and `else if`, up to how many each walk ends with 8 MiB of stack:
reading, comparing two readings, copying and comparing, comparing with a tree of no token, what is put as it was read,
written, or listed as nodes or leaves. What was made is let go of in each.

Built: trees of n forms that are put together by hand, in five shapes, and written by `write_in` and by `put_normal` and
printed, and those that are made and no more: the least processor time of several whole runs, and the peak of memory (of
which the script has 11 MB itself before the program begins), with a stack without limit.

Usage: bench/walks.py [RUNS [MOST [SIZE..]]]           measures: 5 runs, up to 100,000, sizes 10,000, 20,000 and 40,000
       bench/walks.py with PROGRAM [RUNS [MOST [SIZE..]]]   the same of a program that is built already
       bench/walks.py crate FOLDER                     writes a copy of the repository with the program's crate

The program is proved and built in a copy of the repository, in a folder that is removed behind it: the crates below it
are proved there too where nothing of them is kept on this machine. For a look at small texts `crate` is enough:

    bench/walks.py crate /tmp/walks && cd /tmp/walks/crates/walks
    printf 'write_in 3\\n[a, a + a, a * a]' | rt try
"""

import os
import resource
import shutil
import subprocess
import sys
import tempfile

HERE = os.path.dirname(os.path.abspath(__file__))
TOP = os.path.dirname(HERE)
STACK = 8 << 20
NAME = "walks"
BELOW = "anyhow syn"

# The program: the first line of standard input says what it does, the text behind it is an expression. With a number in
# that line it is an array: its first element is put into the next, that into the one behind it, and so on, all of them
# so often.
SOURCE = """\
//! Walks along an expression that is read, or that is put together by hand. The first line of standard input names the
//! walk, and the text behind it is an expression.
//!
//! Behind the walk a number may stand, and `right`: then the expression is an array, whose first element becomes the
//! left operand, or the right one, of the next element, that of the one behind it, and so on, all of them so often. The
//! walk is along what was put together so.
#![tactic(auto)]

use anyhow::{Result, anyhow};
use std::io::{Read, Write};
use syn::{
    Arena, ExprArray, Form, Kind, Position, SourceMap, TokenBuffer, TokenStream, Tree, equal, made,
    parse_as, print, put_as_read, put_leaves, put_nodes, put_normal, same, write, write_in,
};

// What is asked for.
#[derive(Clone, Copy)]
struct Asked<'t> {
    // The walk.
    walk: &'t str,
    // How often forms are put around one another; of what is read, nothing.
    count: Option<usize>,
    // Whether they stand left of what is put into them.
    is_right: bool,
}

// What the first line asks for.
fn asked_of(line: &str) -> Asked<'_> {
    let (walk, others) = line.split_once(' ').unwrap_or((line, ""));
    let (count, side) = others.split_once(' ').unwrap_or((others, ""));
    Asked {
        walk,
        count: count.parse::<usize>().ok(),
        is_right: side == "right",
    }
}

// The form of an expression.
fn form_of<'t, 'a>(tree: &'t Tree<'a>) -> &'t Tree<'a> {
    match tree.node() {
        Some((_, inner)) => inner.whole().unwrap_or(tree),
        None => tree,
    }
}

// What a buffer holds.
fn parsed<'a>(arena: &'a Arena, buffer: &'a TokenBuffer<'a>) -> Result<Tree<'a>> {
    Ok(parse_as(arena, Kind::Expression(Position::Plain), buffer)?)
}

// The forms of an array's elements.
fn forms_of<'t, 'a>(array: &'t Tree<'a>, forms: &mut Vec<&'t Tree<'a>>) -> Result<()> {
    let Some(array) = ExprArray::of(form_of(array)) else {
        return Err(anyhow!("no array"));
    };
    for element in array.elems.iter() {
        forms.push(form_of(element))?;
    }
    Ok(())
}

// A form with another operand.
fn around<'a>(
    arena: &'a Arena,
    form: &Tree<'a>,
    is_right: bool,
    operand: Tree<'a>,
) -> Result<Tree<'a>> {
    match &form.form {
        Form::Infix(kind, three) if is_right => {
            let (left, own) = (three.left.copy(), three.own.copy());
            Ok(made::infix(arena, left, *kind, own, operand)?)
        }
        Form::Infix(kind, three) => {
            let (own, right) = (three.own.copy(), three.right.copy());
            Ok(made::infix(arena, operand, *kind, own, right)?)
        }
        Form::Back(kind, two) => Ok(made::back(arena, operand, *kind, two.back.copy())?),
        _ => Err(anyhow!("a form without that operand")),
    }
}

// The expression that is the first form put into all others, one after the other, so often.
fn put_together<'a>(
    arena: &'a Arena,
    forms: &[&Tree<'a>],
    count: usize,
    is_right: bool,
) -> Result<Tree<'a>> {
    let Some((first, others)) = forms.split_first() else {
        return Err(anyhow!("no forms"));
    };
    let mut tree = first.copy();
    for _ in 0..count {
        for form in others {
            tree = around(arena, form, is_right, tree)?;
        }
    }
    let whole = made::whole(arena, tree)?;
    Ok(made::node(arena, Kind::Expression(Position::Plain), whole)?)
}

// What is walked along: what was read, or what is put together of it.
fn walked<'a>(arena: &'a Arena, asked: Asked<'_>, read: &Tree<'a>) -> Result<Tree<'a>> {
    let Some(count) = asked.count else {
        return Ok(read.copy());
    };
    let mut forms = Vec::new(arena.alloc());
    forms_of(read, &mut forms)?;
    put_together(arena, &forms, count, asked.is_right)
}

// How many nodes a tree has.
fn put_node_count(tree: &Tree, out: &mut String) -> Result<()> {
    let mut nodes = Vec::new(*out.allocator());
    put_nodes(tree, &mut nodes)?;
    let count = nodes.len();
    Ok(writeln!(out, "{count}")?)
}

// How many leaves a tree has.
fn put_leaf_count(tree: &Tree, out: &mut String) -> Result<()> {
    let mut leaves = Vec::new(*out.allocator());
    put_leaves(tree, &mut leaves)?;
    let count = leaves.len();
    Ok(writeln!(out, "{count}")?)
}

// The text of a tree.
fn put_text<'a>(arena: &'a Arena, walk: &str, tree: &Tree<'a>, out: &mut String) -> Result<()> {
    let mut pieces = Vec::new(arena.alloc());
    match walk {
        "put_as_read" => put_as_read(tree, &mut pieces)?,
        "write" => write(tree, &mut pieces)?,
        "write_in" => write_in(Position::Plain, form_of(tree), &mut pieces)?,
        "put_normal" if put_normal(arena, tree, &mut pieces).is_ok() => {}
        _ => return Err(anyhow!("no such walk")),
    }
    let text = print(arena.alloc(), pieces.as_slice())?;
    Ok(writeln!(out, "{text}")?)
}

// A walk along a tree.
fn put_walk<'a>(
    arena: &'a Arena,
    walk: &str,
    tree: &Tree<'a>,
    buffer: &'a TokenBuffer<'a>,
    out: &mut String,
) -> Result<()> {
    match walk {
        "nothing" => Ok(()),
        "equal" => {
            let is_equal = equal(tree, &parsed(arena, buffer)?);
            Ok(writeln!(out, "{is_equal}")?)
        }
        "copy" => {
            let is_equal = equal(tree, &tree.copy());
            Ok(writeln!(out, "{is_equal}")?)
        }
        "same" => {
            let is_same = same(arena, tree, &parsed(arena, buffer)?)?;
            Ok(writeln!(out, "{is_same}")?)
        }
        "unlike" => {
            let is_same = same(arena, tree, &made::nil())?;
            Ok(writeln!(out, "{is_same}")?)
        }
        "put_nodes" => put_node_count(tree, out),
        "put_leaves" => put_leaf_count(tree, out),
        _ => put_text(arena, walk, tree, out),
    }
}

// What is asked for of what a buffer holds.
fn put_answer(asked: Asked<'_>, buffer: &TokenBuffer, out: &mut String) -> Result<()> {
    let arena = Arena::new(*out.allocator());
    let read = parsed(&arena, buffer)?;
    let tree = walked(&arena, asked, &read)?;
    put_walk(&arena, asked.walk, &tree, buffer, out)
}

// What is asked for of a text.
fn put_asked(line: &str, text: &str, out: &mut String) -> Result<()> {
    let alloc = *out.allocator();
    let mut map = SourceMap::new(alloc);
    let stream = TokenStream::from_str(alloc, text, &mut map)?;
    let buffer = TokenBuffer::new2(alloc, &stream, 1)?;
    put_answer(asked_of(line), &buffer, out)
}

fn main(rt: HostRuntime) -> Result<()> {
    let mut lines = String::new(rt.alloc());
    rt.reader().read_to_string(&mut lines)?;
    let mut out = String::new(rt.alloc());
    let (line, text) = lines.as_str().split_once('\\n').unwrap_or(("", ""));
    put_asked(line, text, &mut out)?;
    rt.stdout().write_all(out.as_bytes())?;
    Ok(())
}
"""

# Chains of n, and what each walk is called.
CHAINS = [
    ("`a + a + ..`", lambda n: "a" + "+a" * n),
    ("`a.b().b()..`", lambda n: "a" + ".b()" * n),
    ("`else if`", lambda n: "if a{}" + "else if a{}" * n + "else{}"),
]
WALKS = [
    ("read", "nothing"),
    ("read twice and compared by `equal`", "equal"),
    ("copied and compared", "copy"),
    ("read twice and compared by `same`, which `equal` answers", "same"),
    ("compared by `same` with a tree of no token", "unlike"),
    ("`put_as_read`", "put_as_read"),
    ("`write`", "write"),
    ("`put_nodes`", "put_nodes"),
    ("`put_leaves`", "put_leaves"),
    ("`put_normal`", "put_normal"),
    ("`write_in`", "write_in"),
]

# Shapes that are put together, with what stands behind the count.
SHAPES = [
    ("`a + a + ..`", "", "[a, a + a]"),
    ("`a - (a - (a ..))`, n deep", " right", "[a, a - a]"),
    ("`((a + a) * a + a) * a ..`, n pairs, n deep", "", "[a, a + a, a * a]"),
    ("`a as A as A ..`", "", "[a, a as A]"),
    ("`((((a as A) < a) as A) < a) ..`, n pairs, n deep", "", "[a, a as A, a < a]"),
]


def crate(folder, name=NAME, source=SOURCE):
    """A copy of the repository's crates without what was built, with a program's, whose folder is answered."""
    for top_file in ("crates.txt", "HANDLES"):
        shutil.copy(os.path.join(TOP, top_file), folder)
    shutil.copytree(os.path.join(TOP, "crates"), os.path.join(folder, "crates"), ignore=shutil.ignore_patterns("out"))
    with open(os.path.join(folder, "crates.txt"), "a", encoding="utf-8") as file:
        file.write(f"{name}: {BELOW}\n")
    own = os.path.join(folder, "crates", name)
    os.makedirs(os.path.join(own, "src"))
    with open(os.path.join(own, "src", "main.rt"), "w", encoding="utf-8") as file:
        file.write(source)
    return own


def built(folder, asked=b"nothing\na", name=NAME, source=SOURCE):
    """A program, proved and built, which was asked that."""
    own = crate(folder, name, source)
    subprocess.run(["rt", "run"], cwd=own, input=asked, stdout=subprocess.DEVNULL, check=True)
    return os.path.join(own, "out", name)


def once(program, line, text, stack):
    """Whether a run ends well with so much stack, its seconds of a processor, and its peak of memory."""
    with tempfile.TemporaryFile() as asked:
        asked.write(f"{line}\n{text}".encode())
        asked.seek(0)
        hard = resource.getrlimit(resource.RLIMIT_STACK)[1]
        limits = (hard if stack == resource.RLIM_INFINITY else stack, hard)
        limit = lambda: resource.setrlimit(resource.RLIMIT_STACK, limits)
        child = subprocess.Popen([program], stdin=asked, stdout=subprocess.DEVNULL, preexec_fn=limit)
        _, status, usage = os.wait4(child.pid, 0)
        child.returncode = os.waitstatus_to_exitcode(status)
    if child.returncode > 0:
        raise SystemExit(f"{line}: status {child.returncode}")
    return child.returncode == 0, usage.ru_utime + usage.ru_stime, usage.ru_maxrss * 1024


def deepest(program, walk, chain, most):
    """Up to how many a walk along the chain ends well, to a hundredth; none if it does at the most that is tried."""
    ends = lambda n: once(program, walk, chain(n), STACK)[0]
    if ends(most):
        return None
    fits, fails = 0, most
    while fails - fits > max(10, fits // 100):
        middle = (fits + fails) // 2
        fits, fails = (middle, fails) if ends(middle) else (fits, middle)
    return fits


def depth_table(program, most):
    print(f"\n| Along a chain of n | {' | '.join(what for what, _ in CHAINS)} |")
    print("|---" * (1 + len(CHAINS)) + "|")
    for what, walk in WALKS:
        found = [deepest(program, walk, chain, most) for _, chain in CHAINS]
        cells = [f"more than {most:,}" if n is None else f"{n:,}" for n in found]
        print(f"| {what} | {' | '.join(cells)} |", flush=True)


def built_table(program, walk, sizes, runs):
    print(f"\n| {walk}: shape, of n operators | {' | '.join(f'{n:,}' for n in sizes)} |")
    print("|---" * (1 + len(sizes)) + "|")
    for what, side, text in SHAPES:
        cells = []
        for n in sizes:
            line = f"{walk} {n}{side}"
            all_runs = [once(program, line, text, resource.RLIM_INFINITY) for _ in range(runs)]
            if all(ended for ended, _, _ in all_runs):
                seconds, peak = min(it[1] for it in all_runs), max(it[2] for it in all_runs)
                cells.append(f"{seconds:.3f} s, {peak / 1e6:.0f} MB")
            else:
                cells.append("ended by a signal")
        print(f"| {what} | {' | '.join(cells)} |", flush=True)


def main():
    words = sys.argv[1:]
    if words[:1] == ["crate"]:
        os.makedirs(words[1])
        return crate(words[1])
    given = words[1] if words[:1] == ["with"] else None
    numbers = [int(word) for word in (words[2:] if given else words)]
    runs, most = (numbers[0:1] or [5])[0], (numbers[1:2] or [100_000])[0]
    sizes = numbers[2:] or [10_000, 20_000, 40_000]
    with tempfile.TemporaryDirectory() as folder:
        program = given or built(folder)
        depth_table(program, most)
        for walk in ("write_in", "put_normal", "nothing"):
            built_table(program, walk, sizes, runs)


if __name__ == "__main__":
    main()
