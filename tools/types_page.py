#!/usr/bin/env python3
"""Writes docs/TYPES.md: the types of the syntax tree with their fields, of the sources of the crates that have them,
with the words above each. Lifetimes are left out.

Usage: tools/types_page.py"""
import glob
import os
import re

TOP = os.path.dirname(os.path.dirname(os.path.abspath(__file__)))
CRATES = {'syn_part': 'what several types have', 'syn_ast': 'types, paths, bounds, generics, attributes',
          'syn_pat': 'patterns', 'syn_expr': 'expressions, statements, blocks, files', 'syn_data': 'data',
          'syn_item': 'items', 'syn_members': 'members of traits, impls and extern blocks',
          'syn_typed': 'items and members that are read alone'}
WIDTH = 116
HEAD = """# Types of the syntax tree

<!-- Written by tools/types_page.py from the sources. -->

Each type with its public fields, by crate and module, as they stand in the sources; lifetimes are left out. `syn`
names most of them at its root. [docs/TREES.md](TREES.md#types) says how they are asked. A field `&Tree` holds another
form, of which the type that its comment names is asked. What syn has otherwise is in
[docs/DIFFERENCES.md](DIFFERENCES.md#types-of-the-syntax-tree).
"""


def without_lifetimes(text):
    """A type without its lifetimes."""
    text = re.sub(r"&'\w+ (mut )?", r'&\1', text)
    text = re.sub(r"<(?:'\w+(?:, )?)+>", '', text)
    return re.sub(r"<(?:'\w+, )+", '<', text)


def wrapped(words, indent):
    """A comment of some words."""
    lines, text = [], words
    while len(text) > WIDTH - indent - 4:
        at = text.rfind(' ', 0, WIDTH - indent - 4)
        lines.append(f'{" " * indent}/// {text[:at]}')
        text = text[at + 1:]
    return [*lines, f'{" " * indent}/// {text}'] if words else lines


def types_of(path):
    """The public structs and enums of a file, each as the lines that the page has of it."""
    found, words, body = [], [], None
    with open(path, encoding='utf8') as file:
        lines = file.read().split('\n')
    for line in lines:
        text = line.strip()
        if text.startswith('///'):
            words.append(text[3:].strip())
            continue
        begun = re.match(r'pub (struct|enum) (\w+)(?:<[^{(;]*>)?( \{|;|\()', line)
        if begun:
            is_struct = begun[1] == 'struct'
            body = [*wrapped(' '.join(words), 0), begun[2] + (' {' if begun[3] == ' {' else line[begun.end(3) - 1:])]
            if begun[3] != ' {':
                found.append(body)
                body = None
        elif body is not None and line == '}':
            found.append([*body, '}'] if len(body) > 1 and body[-1][-1] != '{' else [*body[:-1], body[-1] + ' .. }'])
            body = None
        elif body is not None and text and not text.startswith(('#', '//', 'ghost')) and not (
                is_struct and not text.startswith('pub ')):
            body += field(text.removeprefix('pub ').rstrip(','), ' '.join(words))
        if not text.startswith('#'):
            words = []
    return found


def field(text, words):
    """A field or a variant, with its words behind it where there is room."""
    text = without_lifetimes(text)
    line = f'    {text:44} // {words}' if words else f'    {text}'
    return [line] if len(line) <= WIDTH else [*wrapped(words, 4), f'    {text}']


def main():
    out = [HEAD]
    for crate, of in CRATES.items():
        out.append(f'## `{crate}`: {of}\n')
        for path in sorted(glob.glob(f'{TOP}/crates/{crate}/src/**/*.rt', recursive=True)):
            types = types_of(path)
            module = os.path.relpath(path, f'{TOP}/crates/{crate}/src')[:-len('.rt')].replace('/', '::')
            if types:
                out += [f'### `{crate}::{module}`\n', '```rust', '\n\n'.join('\n'.join(it) for it in types), '```\n']
    with open(f'{TOP}/docs/TYPES.md', 'w', encoding='utf8') as file:
        file.write('\n'.join(out).rstrip('\n') + '\n')


if __name__ == '__main__':
    main()
