#!/usr/bin/env python3
"""Writes the text that the gate gives to crates/canon_cli, and the output that is wanted of it: parentheses, blocks,
closures and type arguments that stand 200 deep in one another, and 10,000 statements, arms, `else if`, operators and
method calls behind one another. Both are put together by the same shapes, the text without the spaces that it needs
not, and the output by the rule of printing: one space between tokens, none behind an opening parenthesis or bracket
and before a closing one.

Usage: tests/deep.py"""

import os

DEEP, LONG = 200, 10_000
HERE = os.path.join(os.path.dirname(os.path.abspath(__file__)), "..", "crates", "canon_cli")

# The text, and what is written of it.
SHAPES = [
    ("const A:u8=" + "(" * DEEP + "1" + ")" * DEEP + ";", "const A : u8 = " + "(" * DEEP + "1" + ")" * DEEP + " ;"),
    ("fn b()" + "{" * DEEP + "a" + "}" * DEEP, "fn b () " + "{ " * DEEP + "a" + " }" * DEEP),
    ("fn c(){" + "|a|" * DEEP + "a}", "fn c () { " + "| a | " * DEEP + "a }"),
    ("type D=" + "A<" * DEEP + "u8" + ">" * DEEP + ";", "type D = " + "A < " * DEEP + "u8" + " >" * DEEP + " ;"),
    ("fn e(){" + "a;" * LONG + "}", "fn e () { " + "a ; " * LONG + "}"),
    ("fn f(){match a{" + "1=>b," * LONG + "}}", "fn f () { match a { " + "1 => b , " * LONG + "} }"),
    ("fn g(){if a{}" + "else if a{}" * LONG + "else{}}",
     "fn g () { if a { } " + "else if a { } " * LONG + "else { } }"),
    ("fn h(){a" + "+a" * LONG + "}", "fn h () { a" + " + a" * LONG + " }"),
    ("fn i(){a" + ".b()" * LONG + "}", "fn i () { a" + " . b ()" * LONG + " }"),
]


def main():
    for name, which, between in (("stdin", 0, "\n"), ("stdout", 1, " ")):
        with open(os.path.join(HERE, name), "w", encoding="utf-8") as file:
            file.write(between.join(shape[which] for shape in SHAPES) + "\n")


main()
