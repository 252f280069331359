#!/usr/bin/env python3
"""Sees that each edit of crates/NAME/must-fail/ and crates/NAME/planted/ can still be applied, as `rt` does it: each
`file:` is one of the crate that is there, pairs of `old:` and `new:` follow it, and each `old:` text stands in the file
exactly once, behind the pairs before it. Whether the prover refuses what comes of it, this doesn't ask.

Usage: tests/edits.py. It prints what is amiss and how many edits there are, and ends with status 1 if something is."""
import glob
import os
import sys

TOP = os.path.dirname(os.path.dirname(os.path.abspath(__file__)))
FOLDERS = ('src/', 'specs/', 'proofs/')


def changes(edit):
    """The changes of an edit: a file, what stands in it, and what is put there. None where they are malformed."""
    found, name, old = [], None, None
    with open(edit, encoding='utf8') as file:
        for line in file.read().split('\n'):
            if line.startswith('file: '):
                name = line[len('file: '):].strip()
            elif line.startswith('old: '):
                old = line[len('old: '):]
            elif line.startswith('new:'):
                found.append((name, old, line[len('new:'):].removeprefix(' ')))
                old = None
    return found if found and all(name and old for name, old, _ in found) else None


def faults(edit):
    """What is amiss with an edit."""
    crate = os.path.dirname(os.path.dirname(edit))
    texts = {}
    for name, old, new in changes(edit) or [('', '', '')]:
        if not name:
            yield 'a `new:` without a `file:` and an `old:`'
            return
        if name not in texts:
            if not name.startswith(FOLDERS) or not os.path.isfile(os.path.join(crate, name)):
                yield f'no such file: {name}'
                return
            with open(os.path.join(crate, name), encoding='utf8') as file:
                texts[name] = file.read()
        count = texts[name].count(old)
        if count != 1:
            yield f'stands {count} times in {name}: {old}'
        if old == new:
            yield f'changes nothing: {old}'
        texts[name] = texts[name].replace(old, new)


def main():
    edits = [it for kind in ('must-fail', 'planted')
             for it in sorted(glob.glob(os.path.join(TOP, 'crates', '*', kind, '*.edit')))]
    found = [f'{os.path.relpath(edit, TOP)}: {fault}' for edit in edits for fault in faults(edit)]
    for line in found:
        print(line)
    print(f'{len(edits)} edits, {len(found)} faults')
    sys.exit(1 if found or not edits else 0)


if __name__ == '__main__':
    main()
