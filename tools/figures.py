#!/usr/bin/env python3
"""Writes the figures that follow from others: in docs/GATE.md the sums of its tables and of all of them, and
how many edits there are; in docs/maintainers/MAINTAINING.md what is proved again where some crates change, by those
tables; and where it is said how many texts of the grammar have answers by hand, their number. It says which crates have
other edits than the tables have the time of, as these are to be measured.

Usage: tools/figures.py. tools/generate runs it."""
import collections
import glob
import os
import re
import sys

from above import TOP, proved_again

sys.path.insert(0, os.path.join(TOP, 'tests', 'grammar'))
from run import stored  # noqa: E402

TEXTS = os.path.join(TOP, 'tests', 'grammar', 'README.md')
ALL_TEXTS = [os.path.join(TOP, 'README.md'), os.path.join(TOP, 'docs', 'PROVED.md')]
GATE = os.path.join(TOP, 'docs', 'GATE.md')
MAINTAINING = os.path.join(TOP, 'docs', 'maintainers', 'MAINTAINING.md')
# A crate's functions, its check, its edits and their checks.
CRATE = re.compile(r'^\| `(\w+)` \|([^|\n]*)\|([^|\n]*)\|([^|\n]*)\|([^|\n]*)\|$', re.M)
SUM = re.compile(r'^\| all of them \|.*$', re.M)
WHOLE = re.compile(r'the checks take [\d,]+ s, and the \d+ edits [\d,]+ s')
FOLDER = re.compile(r'(`crates/NAME/([\w-]+)/\*\.edit`, )\d+')
TEXTS_ROW = re.compile(r'^(\| `(\w+\.txt)` \| )\d+', re.M)
ALL_OF_THEM = re.compile(r'[\d,]+(?= texts\s+with answers by hand)')
AGAIN = re.compile(r'^\| ((?:`\w+`(?: and )?)+) \| \d+ \| [\d,]+ s \| [\d,]+ s \|$', re.M)


def read(page):
    with open(page, encoding='utf-8') as file:
        return file.read()


def write(page, text):
    with open(page, 'w', encoding='utf-8') as file:
        file.write(text)


def edits(folder):
    """How many edits each crate has in its folder of that name."""
    found = glob.glob(os.path.join(TOP, 'crates', '*', folder, '*.edit'))
    return collections.Counter(path.split(os.sep)[-3] for path in found)


def seconds(cell):
    return sum(int(it) for it in re.findall(r'(\d+) s', cell))


def summed(rows):
    """The sums of a table: seconds of checks, edits, seconds of edits."""
    return [sum(seconds(check) for _, _, check, _, _ in rows), sum(int(count.strip() or 0) for *_, count, _ in rows),
            sum(seconds(took) for *_, took in rows)]


def sum_row(checks, count, took):
    return f'| all of them | | {checks} s | {count or ""} | {took or ""}{" s" if took else ""} |'


def gate(text):
    """The page of the gate with its sums and counts."""
    tried, parts, sums = edits('must-fail'), [], [0, 0, 0]
    for part in text.split('\n\n'):
        rows = CRATE.findall(part) if SUM.search(part) else []
        if rows:
            part = SUM.sub(sum_row(*summed(rows)), part)
            sums = [a + b for a, b in zip(sums, summed(rows))]
        for name, _, _, count, _ in rows:
            if tried[name] != int(count.strip() or 0):
                print(f'{name}: has {tried[name]} edits, and the table the time of {count.strip() or 0}')
        parts.append(part)
    checks, count, took = sums
    text = WHOLE.sub(f'the checks take {checks:,} s, and the {count} edits {took:,} s', '\n\n'.join(parts))
    return FOLDER.sub(lambda it: f'{it[1]}{sum(edits(it[2]).values())}', text)


def again(found):
    """A row of what is proved again, by the crates that it names."""
    crates, checks, took = proved_again(set(re.findall(r'`(\w+)`', found[1])))
    return f'| {found[1]} | {len(crates)} | {checks:,} s | {took:,} s |'


def count_texts():
    """How many texts have answers by hand: of each file by its name, and in all, the grammar's page included."""
    paths = glob.glob(os.path.join(TOP, 'tests', 'grammar', 'texts', '*.txt'))
    counts = {os.path.basename(path): len([*stored(path)]) for path in paths}
    return counts, sum(counts.values()) + len([*stored(os.path.join(TOP, 'docs', 'GRAMMAR.md'))])


def main():
    write(GATE, gate(read(GATE)))
    write(MAINTAINING, AGAIN.sub(again, read(MAINTAINING)))
    counts, total = count_texts()
    write(TEXTS, TEXTS_ROW.sub(lambda it: f'{it[1]}{counts[it[2]]}', read(TEXTS)))
    for page in ALL_TEXTS:
        write(page, ALL_OF_THEM.sub(f'{total:,}', read(page)))


if __name__ == '__main__':
    main()
