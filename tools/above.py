#!/usr/bin/env python3
"""What is proved again where some crates change: they and all crates above them, with the seconds of a processor that
their checks and edits take by the table of docs/GATE.md.

Usage: tools/above.py [--list] NAME.., of crates.txt. After a change of words in a `//!` comment that crate alone is
proved again."""
import os
import sys

sys.dont_write_bytecode = True
TOP = os.path.dirname(os.path.dirname(os.path.abspath(__file__)))
sys.path.insert(0, os.path.join(TOP, 'tests'))
from forecast import all_below, crates, seconds  # noqa: E402


def proved_again(changed):
    """The crates that are proved again where some change, with the seconds of their checks and of their edits."""
    named, took = crates(), seconds()
    below = all_below(named)
    again = [name for name in named if name in changed or below[name] & changed]
    return again, *(sum(took[name][part] for name in again if name in took) for part in (0, 2))


def main(arguments):
    is_listed = arguments[:1] == ['--list']
    changed = set(arguments[is_listed:])
    unknown = changed - crates().keys()
    if unknown or not changed:
        sys.exit(f'no such crate: {", ".join(sorted(unknown))}' if unknown else __doc__)
    again, checks, edits = proved_again(changed)
    if is_listed:
        print('\n'.join(again))
    print(f'{len(again)} of {len(crates())} crates, {checks:,} s of checks, {edits:,} s of edits')


if __name__ == '__main__':
    main(sys.argv[1:])
