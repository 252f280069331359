#!/usr/bin/env python3
"""Times lexing on texts of many shapes beside proc-macro2's own lexer, with and without span locations, and lexing and
printing, all in one run. Prints tables: for each program the least processor time of several runs and its
peak memory for each byte of the text.

Usage: bench/shapes.py [RUNS]. It builds the programs first, which proves what isn't proved yet, and fetches Debian's
packages rust-src and librust-proc-macro2-dev where they are missing. The peer is built with plain rustc, and nothing of
it is kept."""

import glob
import json
import os
import random
import subprocess
import sys
import tempfile

from peers import HERE, SYN, TOP, Crates

SIZE = 10_000_000
LONG = 4 * SIZE


def fetch(*more):
    """Debian's packages with the library's sources and the peer's, and those that are named."""
    packages = ["rust-src", "librust-proc-macro2-dev", *more]
    if subprocess.run(["dpkg", "-s", *packages], capture_output=True).returncode != 0:
        subprocess.run(["apt-get", "update", "-qq"], check=True)
        subprocess.run(["apt-get", "install", "-y", "-qq", *packages], stdout=subprocess.DEVNULL, check=True)


def library():
    """The standard library's files, joined by line feeds, byte order marks cut off."""
    listed = subprocess.run(["dpkg", "-L", "rust-src"], capture_output=True, text=True, check=True).stdout
    folder = next(line for line in listed.splitlines() if line.endswith("/library"))
    names = glob.glob(folder + "/**/*.rs", recursive=True)
    files = (open(name, "rb").read().removeprefix(b"\xef\xbb\xbf") for name in sorted(names))
    return b"\n".join(files) + b"\n"


def generated():
    """One large file of functions, types and tables, such as programs write: the same text each time."""
    source = random.Random(11)
    parts = []
    size = 0
    while size < 2 * SIZE:
        number = source.randrange(10**6)
        kind = source.randrange(3)
        if kind == 0:
            fields = "".join(f"    pub field_{n}: Option<u{8 << source.randrange(4)}>,\n" for n in range(12))
            part = f"#[derive(Clone, Debug)]\npub struct Type{number} {{\n{fields}}}\n\n"
        elif kind == 1:
            rows = "".join(f'    (0x{source.randrange(2**32):08x}, "{source.randrange(10**9)}"),\n' for _ in range(40))
            part = f"pub static TABLE_{number}: [(u32, &str); 40] = [\n{rows}];\n\n"
        else:
            lines = "".join(f"    let x{n} = self.call_{n}(x, {n})? + 1; // step {n}\n" for n in range(12))
            head = f"/// Does step {number}.\nfn step_{number}(&mut self, x: u32) -> Result<u32> {{\n"
            part = f"{head}{lines}    Ok(x)\n}}\n\n"
        parts.append(part)
        size += len(part)
    return "".join(parts).encode()


def weak(size):
    """Texts of which a program may take longer than a peer, though not of others: files of Rust, of about that size."""
    repeated = lambda line: line * (size // len(line))
    constant = b'const A: &str = "' + b"\\n" * 50 + b'";\n'
    yield "short comments of a line", repeated(b"// c\n") + b"fn f(){}\n"
    yield "comments of a line that aren't ASCII", repeated(b"// " + "é".encode() * 40 + b"\n") + b"fn f(){}\n"
    yield "strings of escapes", repeated(constant)
    yield "`fn f(){}` repeated", repeated(b"fn f(){}\n")
    yield "one large function", b"fn f() {\n" + repeated(b"    let x = f(a.b, 1);\n") + b"}\n"
    yield "one large array", b"const A: &[u8] = &[" + repeated(b"1, ") + b"];\n"
    yield "one large struct", b"struct A {\n" + repeated(b"    a: u8,\n") + b"}\n"
    yield "one large match", b"fn f() { match a {\n" + repeated(b"    a => b,\n") + b"} }\n"
    yield "one function of short statements", b"fn f(){" + repeated(b"a;") + b"}\n"


def shapes(std):
    """Each shape's name and text."""
    yield "std, joined", std
    yield "one large generated file", generated()
    yield "tokens of one character", b"a+" * (SIZE // 4)
    yield "one string", b'"' + b"s" * LONG + b'"'
    yield "one string, each eighth character an escape", b'"' + b"sssssss\\n" * (LONG // 9) + b'"'
    yield "one raw string", b'r"' + b"s" * LONG + b'"'
    yield "one comment", b"/*" + b"c" * LONG + b"*/"
    yield "one comment of a line", b"//" + b"c" * LONG + b"\n"
    yield "one run of white", b" " * LONG
    yield "one identifier", b"i" * LONG
    yield "one number", b"7" * LONG
    yield "one doc comment", b"///" + b"d" * LONG + b"\n"
    yield from weak(SIZE)


def built(work):
    """The programs: this lexer, and the peer with and without span locations."""
    programs = {"this": f"{TOP}/crates/bench_lexer/out/bench_lexer"}
    for name, flags in SYN.items():
        crates = Crates(os.path.join(work, name.replace(" ", "-")))
        crates.tokens(flags)
        programs[name] = crates.program(HERE + "/peer.rs", ["proc_macro2"])
    folder = f"{TOP}/crates/bench_lexer"
    subprocess.run(["rt", "run"], cwd=folder, stdin=subprocess.DEVNULL, capture_output=True, check=True)
    return programs


def once(command, path):
    """Seconds of a processor and bytes of memory of one run of a command."""
    with open(path, "rb") as text, open(os.devnull, "wb") as out:
        child = subprocess.Popen(command, stdin=text, stdout=out)
        _, status, usage = os.wait4(child.pid, 0)
        child.returncode = os.waitstatus_to_exitcode(status)
    if child.returncode != 0:
        raise SystemExit(f"{command}: status {child.returncode}")
    return usage.ru_utime + usage.ru_stime, usage.ru_maxrss * 1024


def serve():
    """Runs the commands that stand on standard input. A run's peak of memory begins at that of the process which starts
    it, so this one is started before the texts are made, and holds none."""
    for line in sys.stdin:
        print(json.dumps(once(*json.loads(line))), flush=True)


class Runner:
    """A process that runs commands and answers what each took."""

    def __init__(self):
        command = [sys.executable, os.path.abspath(__file__), "serve"]
        self.process = subprocess.Popen(command, stdin=subprocess.PIPE, stdout=subprocess.PIPE, text=True)

    def once(self, command, path):
        """Seconds of a processor and bytes of memory of one run of a command."""
        self.process.stdin.write(json.dumps([command, path]) + "\n")
        self.process.stdin.flush()
        return json.loads(self.process.stdout.readline())


def measured(runner, commands, path, runs):
    """For each command the least seconds and the peak of memory; the commands take turns."""
    seconds = [float("inf")] * len(commands)
    memory = [0] * len(commands)
    for _ in range(runs):
        for at, command in enumerate(commands):
            took, peak = runner.once(command, path)
            seconds[at] = min(seconds[at], took)
            memory[at] = max(memory[at], peak)
    return seconds, memory


def lexing_table(runner, title, programs, arguments, texts, path, runs):
    """Each text's row: this lexer beside the peer with and without span locations."""
    print(f"\n| {title} | MB | this | peer with spans | peer without | this/with | this/without | Bytes a byte, each |")
    print("|---|---|---|---|---|---|---|---|")
    commands = [[programs[name], *arguments] for name in ["this", "peer with spans", "peer without"]]
    for name, text in texts:
        with open(path, "wb") as file:
            file.write(text)
        (ours, spans, plain), memory = measured(runner, commands, path, runs)
        each = ", ".join(f"{peak / len(text):.1f}" for peak in memory)
        times = f"{ours:.3f} s | {spans:.3f} s | {plain:.3f} s | {ours / spans:.2f} | {ours / plain:.2f}"
        print(f"| {name} | {len(text) / 1e6:.1f} | {times} | {each} |", flush=True)


def main():
    runs = int(sys.argv[1]) if len(sys.argv) > 1 else 5
    fetch()
    runner = Runner()
    std = library()
    with tempfile.TemporaryDirectory() as work:
        programs = built(work)
        path = os.path.join(work, "text")
        lexing_table(runner, "Lexing", programs, [], shapes(std), path, runs)
        lexing_table(runner, "Lexing and printing", programs, ["print"], [("std, joined", std)], path, runs)


if __name__ == "__main__":
    if sys.argv[1:] == ["serve"]:
        serve()
    else:
        main()
