#!/usr/bin/env python3
"""What `canon` says of thirty texts with a mistake that people make, beside the first error of rustc 1.95. The texts
and the answers are here, and docs/MESSAGES.md shows them in a table.

  tests/messages.py PROGRAM         runs a built `canon` on each text, and compares what it says with the answer
  tests/messages.py --rustc RUSTC   does the same with rustc
  tests/messages.py --cases FOLDER  puts each text into a file of a folder, of which `rt try --cases` makes its runs
  tests/messages.py --page          writes the page's table

Each call also sees that the page is as it would be written, and that the functions which it names stand where it says.
What is amiss is printed, and the status is 1 then. Answers of `canon` were worked out by hand. What is said to be
expected is what must stand there, and not what may be left out. It is said at the first token that can't be read, or
at the word that is to blame. Columns count from 0 for both, so rustc's are one less than it prints."""
import argparse
import collections
import json
import os
import re
import subprocess
import sys

sys.dont_write_bytecode = True
TOP = os.path.dirname(os.path.dirname(os.path.abspath(__file__)))
PAGE = os.path.join(TOP, 'docs', 'MESSAGES.md')
RUSTC = ['--edition', '2021', '--crate-type', 'lib', '--emit', 'metadata', '-o', '/dev/null']

# A mistake, and a text with it. What canon says without `canon: ` in front, or None with what it writes; and rustc.
# Whether the places are of one token, and whether a reader knows from the words of canon and rustc what to do.
Case = collections.namedtuple('Case', 'mistake text canon rustc place clear rustc_clear written', defaults=[''])

CASES = [
    Case('a `;` missing', 'fn main() {\n    let a = 1\n    let b = 2;\n}\n',
         'syntax fault at 3:4: expected `;`', '2:13: expected `;`, found keyword `let`', 'next', 'yes', 'yes'),
    Case('a brace not closed', 'fn main() {\n    if a {\n        run();\n}\n',
         'lexical fault at 1:10', '4:2: this file contains an unclosed delimiter', 'marked', 'no', 'yes'),
    Case('a string not closed', 'fn main() {\n    print("hello);\n}\n',
         'lexical fault at 2:10', '2:10: unterminated double quote string', 'same', 'no', 'yes'),
    Case('a misspelt keyword', 'pub strcut S;\n',
         'syntax fault at 1:4: expected item', '1:0: visibility `pub` is not followed by an item',
         'other', 'yes', 'partly'),
    Case('another misspelt keyword', 'fucntion main() {}\n',
         'syntax fault at 1:0: expected item', '1:9: expected one of `!` or `::`, found `main`',
         'other', 'yes', 'no'),
    Case('a stray comma', 'fn main() {\n    run(1,, 2);\n}\n',
         'syntax fault at 2:10: expected expression', '2:10: expected expression, found `,`', 'same', 'yes', 'yes'),
    Case('no comma between fields', 'struct S {\n    a: u8\n    b: u8,\n}\n',
         'syntax fault at 3:4: expected `,`', '2:9: expected `,`, or `}`, found `b`', 'next', 'yes', 'yes'),
    Case('no `:` in a field', 'struct S {\n    a u8,\n}\n',
         'syntax fault at 2:6: expected `:`', '2:6: expected `:`, found `u8`', 'same', 'yes', 'yes'),
    Case('`=` for `==`', 'fn f(a: u8) {\n    if a = 1 {\n        run();\n    }\n}\n\nfn run() {}\n',
         None, '2:7: mismatched types', 'none', 'none', 'yes',
         'fn f (a : u8) { if a = 1 { run () ; } } fn run () { }'),
    Case('a chained comparison', 'fn f(a: u8) -> bool {\n    0 < a < 9\n}\n',
         'syntax fault at 2:10: comparison operators cannot be chained',
         '2:6: comparison operators cannot be chained', 'marked', 'yes', 'yes'),
    Case('no type behind `->`', 'fn f() -> {\n    1\n}\n',
         'syntax fault at 1:10: expected type', '1:10: expected type, found `{`', 'same', 'yes', 'yes'),
    Case('no type of a parameter', 'fn f(a, b: u8) {}\n',
         'syntax fault at 1:6: expected `:`', '1:6: expected one of `:`, `@`, or `|`, found `,`',
         'same', 'yes', 'yes'),
    Case("a receiver that isn't first", 'struct S;\n\nimpl S {\n    fn f(a: u8, &self) {}\n}\n',
         'syntax fault at 4:17: expected `self` before all parameters, and `...` behind them',
         '4:16: unexpected `self` parameter in function', 'marked', 'yes', 'yes'),
    Case('`else` without `if`', 'fn f() {\n    run();\n    else {\n        stop();\n    }\n}\n',
         'syntax fault at 3:4: expected expression', '3:4: expected expression, found keyword `else`',
         'same', 'partly', 'partly'),
    Case('`let` in a struct', 'struct S {\n    let a: u8,\n}\n',
         'syntax fault at 2:4: expected identifier', '2:4: expected identifier, found keyword `let`',
         'same', 'partly', 'yes'),
    Case('no `=>` in an arm', 'fn f(a: u8) {\n    match a {\n        1 { 2 }\n        _ => 3,\n    }\n}\n',
         'syntax fault at 3:10: expected `=>`',
         '3:10: expected one of `...`, `..=`, `..`, `=>`, `if`, or `|`, found `{`', 'same', 'yes', 'yes'),
    Case('a label behind `break`', "fn f() {\n    loop {\n        break 'a: loop {};\n    }\n}\n",
         'syntax fault at 3:14: expected parentheses round what is labelled',
         '3:14: parentheses are required around this expression to avoid confusion with a labeled break expression',
         'same', 'yes', 'yes'),
    Case('a bracket that closes nothing', 'fn f() {}\n}\n',
         'lexical fault at 2:0', '2:0: unexpected closing delimiter: `}`', 'same', 'no', 'yes'),
    Case("brackets that don't match", 'fn f() {\n    let a = [1, 2);\n}\n',
         'lexical fault at 2:17', '2:17: mismatched closing delimiter: `)`', 'same', 'no', 'yes'),
    Case('a character literal of two', "const A: char = 'ab';\n",
         'lexical fault at 1:16', '1:16: character literal may only contain one codepoint', 'same', 'no', 'yes'),
    Case('a digit that the base lacks', 'const A: u8 = 0b12;\n',
         'lexical fault at 1:14', '1:17: invalid digit for a base 2 literal', 'same', 'no', 'yes'),
    Case('a block comment not closed', 'fn f() {}\n/* a note\n',
         'lexical fault at 2:0', '2:0: unterminated block comment', 'same', 'no', 'yes'),
    Case('`pub` alone at the end', 'struct S;\npub\n',
         'syntax fault at end of input: unexpected end of input, expected item',
         '2:0: visibility `pub` is not followed by an item', 'other', 'partly', 'yes'),
    Case('`impl` without a type', 'impl {\n    fn f() {}\n}\n',
         'syntax fault at 1:5: expected type', '1:5: expected type, found `{`', 'same', 'yes', 'yes'),
    Case('generics not closed', 'struct S<T {\n    a: T,\n}\n',
         'syntax fault at 1:11: expected `>`', '1:11: expected one of `,`, `:`, `=`, or `>`, found `{`',
         'same', 'yes', 'yes'),
    Case('a lifetime behind a bound, without `+`', "fn f<T: Copy 'static>(a: T) {}\n",
         'syntax fault at 1:13: expected `>`',
         "1:13: expected one of `(`, `+`, `,`, `::`, `<`, `=`, or `>`, found `'static`", 'same', 'partly', 'yes'),
    Case('an attribute at the end', 'struct S;\n#[derive(Clone)]\n',
         'syntax fault at end of input: unexpected end of input, expected item',
         '2:0: expected item after attributes', 'other', 'partly', 'yes'),
    Case('the macro `try`', 'fn f() {\n    let a = try!(g());\n}\n',
         'syntax fault at 2:12: expected expression', '2:12: use of deprecated `try` macro', 'same', 'no', 'yes'),
    Case('`dyn` with a lifetime alone', "fn f(a: &dyn 'static) {}\n",
         'syntax fault at 1:9: expected trait among the bounds',
         '1:9: at least one trait is required for an object type', 'same', 'yes', 'yes'),
    Case('a doc comment before `}`', 'struct S {\n    a: u8,\n    /// the end\n}\n',
         'syntax fault at 4:0: unexpected end of input, expected identifier',
         "3:4: found a documentation comment that doesn't document anything", 'other', 'no', 'yes'),
]

TABLE = re.compile(r'(<!-- tests/messages\.py --page writes this -->\n).*?(<!-- to here -->)', re.S)
# A function that the page names: its name, its file.
FUNCTION = re.compile(r'`(\w+)`\s+in\s+(crates/[\w/]+\.rt)')


# What is said.

def run(command, text):
    return subprocess.run(command, input=text, capture_output=True, text=True)


def answer_of(case):
    """The status, what is written, and what is said on standard error."""
    if case.canon is None:
        return 0, case.written + '\n', ''
    return 1, '', f'canon: {case.canon}\n'


def canon_amiss(program, case):
    done = run([os.path.abspath(program)], case.text)
    found = done.returncode, done.stdout, done.stderr
    if found != answer_of(case):
        yield f'{case.mistake}: canon: {found}, wanted {answer_of(case)}'


def first_error(rustc, text):
    """The place and the words of rustc's first error, the column from 0; None if it has none."""
    for line in run([rustc, *RUSTC, '--error-format', 'json', '-'], text).stderr.splitlines():
        said = json.loads(line)
        if said['level'] == 'error' and said['spans']:
            span = next(it for it in said['spans'] if it['is_primary'])
            return f'{span["line_start"]}:{span["column_start"] - 1}: {said["message"]}'
    return None


def rustc_amiss(rustc, case):
    found = first_error(rustc, case.text)
    if found != case.rustc:
        yield f'{case.mistake}: rustc: {found}, wanted {case.rustc}'


# The page.

def cell(words):
    return words.replace('|', '\\|')


def rows(number, case):
    text = case.text.replace('\n', '↵')
    yield f'| {number} | {case.mistake}: `{cell(text)}` | {case.place} | {case.clear} | {case.rustc_clear} |'
    yield f'| canon | {cell(case.canon or "nothing, and writes the program")} ||||'
    yield f'| rustc | {cell(case.rustc)} ||||'


def counted(words, field):
    """How often each of the words is what the refused texts have in a field."""
    found = collections.Counter(getattr(case, field) for case in CASES if case.canon)
    return ', '.join(f'{word} {found[word]}' for word in words)


def table():
    lines = ['| | Text, and what is said | Place | canon | rustc |', '|---|---|---|---|---|']
    for number, case in enumerate(CASES, 1):
        lines += rows(number, case)
    clear = 'yes', 'partly', 'no'
    refused = sum(case.canon is not None for case in CASES)
    lines += ['', f'The counts of the {refused} that `canon` refuses:', '',
              f'- Place: {counted(("same", "next", "marked", "other"), "place")}.',
              f'- Clear, `canon`: {counted(clear, "clear")}.',
              f'- Clear, rustc: {counted(clear, "rustc_clear")}.', '']
    return '\n'.join(lines)


def has_function(path, name):
    with open(os.path.join(TOP, path), encoding='utf8') as file:
        return bool(re.search(rf'\bfn {name}\b', file.read()))


def page_of(old):
    """The page with the table as it is."""
    return TABLE.sub(lambda found: found[1] + table() + found[2], old)


def page_amiss():
    with open(PAGE, encoding='utf8') as file:
        old = file.read()
    if len(TABLE.findall(old)) != 1:
        yield 'docs/MESSAGES.md: no place for the table, or several'
    if page_of(old) != old:
        yield 'docs/MESSAGES.md: not as it would be written: tests/messages.py --page'
    for name, path in FUNCTION.findall(old):
        if not has_function(path, name):
            yield f'docs/MESSAGES.md: no function {name} in {path}'


def write_page():
    with open(PAGE, encoding='utf8') as file:
        old = file.read()
    with open(PAGE, 'w', encoding='utf8') as file:
        file.write(page_of(old))


def write_cases(folder):
    os.makedirs(folder, exist_ok=True)
    for number, case in enumerate(CASES, 1):
        with open(os.path.join(folder, f'{number:02}'), 'w', encoding='utf8') as file:
            file.write(case.text)


def main():
    parser = argparse.ArgumentParser(description=__doc__, formatter_class=argparse.RawDescriptionHelpFormatter)
    parser.add_argument('program', nargs='?', help='a built canon')
    parser.add_argument('--rustc', help='a rustc 1.95')
    parser.add_argument('--cases', metavar='FOLDER', help='where each text becomes a file')
    parser.add_argument('--page', action='store_true', help='writes the page')
    options = parser.parse_args()
    if options.page:
        write_page()
    if options.cases:
        write_cases(options.cases)
    amiss = [*page_amiss()]
    for case in CASES:
        amiss += canon_amiss(options.program, case) if options.program else []
        amiss += rustc_amiss(options.rustc, case) if options.rustc else []
    asked = [it for it in (options.program, options.rustc) if it]
    said = [f'{it} says what is told of {len(CASES)} texts' for it in asked]
    print('\n'.join(amiss or [*said, 'docs/MESSAGES.md is as it would be written']))
    return bool(amiss)


if __name__ == '__main__':
    sys.exit(main())
