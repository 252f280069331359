#!/usr/bin/env python3
"""Looks for what is not read back, at random.

  search.py [--specs DIR] [--texts] [SECONDS [SEED]]

Expressions that are built by hand, in whatever place they stand: the normal form is read whole, is its own normal form,
and is up to parentheses the expression that was built. With --texts, the stored texts with a few tokens changed: where
one is accepted, the tokens of its normal form are read whole as the same kind, and what is read is that normal form.
"""
import glob
import os
import random
import re
import sys
import time

sys.dont_write_bytecode = True
from lexer import Lexical, lex, text
from reading import Refused, Table, chain, deeply
from antt import items_of, same
from run import kind_of, stored

HERE = os.path.dirname(os.path.abspath(__file__))
ATOMS = ['a', '1', 'S {}', 'm!{}', 'm!()', '{}', 'if a {}', '(b)', '[b]', '..', 'return', 'break', "break 'l", 'yield',
         "'l: {}", 'async {}', 'loop {}', '|x| -> T {}', 'unsafe {}', 'const {}', 'self', 'match a {b => c}', '(c,)',
         '<T>::d', 'continue']
FRONTS = ['-', '*', '!', '&', '&mut ', '&raw const ', '..', '..=', 'return ', 'break ', "break 'l ", 'yield ', '|x| ',
          'move || ', 'let p = ', '#[q] ', '#[q] #[r] ']
BACKS = ['.f', '.0', '.g()', '.await', '?', '(e)', '[e]', '..', ' as T', ' as T<U>', ' as [T]', ' as self', ' as Fn()']
INFIXES = ' + , - , * , / , << , & , | , ^ , == , < , <= , && , || , = , += , <<= ,..,..='.split(',')
PLACES = ['%s', 'f(%s)', 'if %s {}', 'match %s {x => y}', 'match x {y => %s, z => w}', '{%s}', '{%s; x}', '{fn h();%s}',
          'while %s {}', 'S {k: %s}', '[%s; 2]', 'for x in %s {}']


def made(depth):
    if depth == 0 or random.random() < 0.2:
        return random.choice(ATOMS)
    operand = lambda: (lambda x: f'‹{x}›' if random.random() < 0.7 else x)(made(depth - 1))
    shape = random.random()
    if shape < 0.3:
        return random.choice(FRONTS) + operand()
    if shape < 0.55:
        return operand() + random.choice(BACKS)
    return operand() + random.choice(INFIXES) + operand()


def bare(x):
    """Without parentheses, and without spacing of marks that no tree keeps."""
    if not isinstance(x, tuple):
        return x
    if x[:2] == ('Alone', ('ExprParen',)) and x[2][0] == 'Group' and x[2][2][0] == 'Final':
        return bare(x[2][2][1][2][1])
    return tuple(bare(y) for y in x)


def attributed_twice(x):
    """No form has two lists of attributes."""
    if not isinstance(x, tuple):
        return False
    if x[:2] == ('Front', ('ExprAttributed',)) and x[3][:2] == x[:2]:
        return True
    return any(attributed_twice(y) for y in x)


def fault(table, source):
    """What is wrong with an expression, if it can be built at all."""
    try:
        tree, rest = table.built(chain(lex(source)))
    except (Refused, Lexical):
        return None, False
    if rest.n or attributed_twice(tree):
        return None, False
    table.world.trees.clear()
    normal = table.normal(tree)
    printed = text(items_of(table.flat(normal)))
    try:
        again, rest = table.kind(('Expression', ('Plain',)), chain(lex(printed)))
    except Refused as e:
        return f'printed as {printed}, which is refused: {e}', True
    if rest.n:
        return f'printed as {printed}, of which {text(items_of(rest))} is left', True
    table.world.trees.clear()
    kept = table.kept(again)
    if not same(table.normal(kept), kept):
        return f'printed as {printed}, which isn\'t in normal form', True
    if not same(placeless(bare(kept)), placeless(bare(normal))):
        return f'printed as {printed}, which is another expression', True
    return None, True


def placeless(x):
    """Without the places of raw tokens."""
    if not isinstance(x, tuple):
        return x
    if x[0] == 'Raw':
        return 'Raw', text(items_of(x[1]))
    return tuple(placeless(y) for y in x)


LEXEME = re.compile(r'"[^"]*"|\'[a-z]\'|\'?\w+|\S')
SPACES = ['', '', ' ']


def changed(lexemes, pool):
    """A few lexemes left out, doubled, exchanged, or taken from elsewhere."""
    out = list(lexemes)
    for _ in range(random.choice([0, 1, 1, 1, 2, 2, 3])):
        i = random.randrange(len(out) + 1)
        j = min(len(out), i + random.choice([0, 1, 1, 2, 4]))
        out[i:j] = random.choice([[], out[i:j] * 2, [random.choice(pool)], [random.choice(pool), random.choice(pool)]])
    return ''.join(x + (' ' if x[-1].isalnum() or x[-1] == '_' else random.choice(SPACES)) for x in out)


def text_fault(table, kind, source):
    """What is wrong with a text as a kind, if it is accepted."""
    try:
        tree, rest = table.kind(kind, chain(lex(source)))
    except (Refused, Lexical):
        return None, False
    if rest.n:
        return None, False
    table.world.trees.clear()
    normal = table.normal(table.kept(tree))
    printed = text(items_of(table.flat(normal)))
    try:
        again, rest = table.kind(kind, chain(lex(printed)))
    except (Refused, Lexical) as e:
        return f'printed as {printed}, which is refused: {e}', True
    if rest.n:
        return f'printed as {printed}, of which {text(items_of(rest))} is left', True
    table.world.trees.clear()
    kept = table.kept(again)
    if not same(placeless(kept), placeless(normal)):
        return f'printed as {printed}, which is read as another', True
    if text(items_of(table.flat(table.normal(kept)))) != printed:
        return f'printed as {printed}, which isn\'t its own output', True
    return None, True


def texts_made():
    """Kinds with texts, for ever."""
    rows = [(kind, LEXEME.findall(source)) for path in glob.glob(os.path.join(HERE, 'texts', '*.txt'))
            for _, kind, source, _ in stored(path) if kind not in ('built', 'outline') and source]
    pool = [x for _, lexemes in rows for x in lexemes]
    lists = {name: [lexemes for kind, lexemes in rows if kind == name] for name in ('Statements', 'file')}
    while True:
        kind, lexemes = random.choice(rows)
        if kind in lists and random.random() < 0.5:
            lexemes = lexemes + random.choice(lists[kind])
        yield kind, changed(lexemes, pool)


def expressions_made():
    """Expressions in whatever place, for ever."""
    while True:
        place, expression = random.choice(PLACES), made(random.choice([1, 2, 2, 3, 3, 4]))
        if place[0] != '{' or expression.lstrip('‹')[0] != '#':  # attributes before a statement are the statement's
            yield 'built', place % expression


def main(args):
    specs, texts = None, False
    if args[:1] == ['--specs']:
        specs, args = args[1], args[2:]
    if args[:1] == ['--texts']:
        texts, args = True, args[1:]
    table = Table(os.path.join(HERE, '..', '..', 'crates'), specs)
    seconds = float(args[0]) if args else 20
    random.seed(int(args[1]) if len(args) > 1 else 1)
    end, tried, sound, faults = time.time() + seconds, 0, 0, {}
    for kind, source in texts_made() if texts else expressions_made():
        if time.time() > end:
            break
        tried += 1
        wrong, could = text_fault(table, kind_of(kind), source) if texts else fault(table, source)
        sound += could
        if wrong and len(faults) < 400:
            faults[kind, source] = wrong
    for kind, source in sorted(faults, key=lambda row: len(row[1]))[:15]:
        print(f'{kind}: {source}\n   {faults[kind, source]}')
    print(f'{tried} made, {sound} of them could be read, {len(faults)} are at fault')
    return len(faults)


if __name__ == '__main__':
    sys.exit(deeply(main, sys.argv[1:]))
