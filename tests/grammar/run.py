#!/usr/bin/env python3
"""Runs the written grammar on texts.

  run.py [--specs DIR] [NAME..]          each stored text against its answer: those of texts/ and of docs/GRAMMAR.md,
                                         or of the files named
  run.py [--specs DIR] --show KIND TEXT  what the grammar says of one text
  run.py [--specs DIR] --files PATH..    all .rs files below the paths: how many are accepted, and where the others stop

DIR is the folder of the definitions, if it isn't that of the crate syn_grammar.
"""
import glob
import os
import re
import sys
import time

sys.dont_write_bytecode = True
from antt import Fault, items_of
from lexer import Lexical, lex, shebang_end, string, text
from reading import Refused, Table, chain, deeply, verbatims

HERE = os.path.dirname(os.path.abspath(__file__))

# The kinds that a stored text may name, and what the table calls them.
KINDS = {
    'file': 'AFile', 'outline': 'AFile', 'built': 'Expression Plain',
    'Item': 'AnItem', 'ForeignItem': 'AForeignItem', 'TraitItem': 'ATraitItem', 'ImplItem': 'AnImplItem',
    'Type': 'AType WithPlus', 'Type-no-plus': 'AType WithoutPlus', 'Bound': 'Bound', 'Abi': 'Abi',
    'Pat': 'Pattern', 'Pat-several': 'SeveralPatterns', 'Pat-single': 'OnePattern',
    'Expr': 'Expression Plain', 'Expr-condition': 'Expression InCondition', 'Expr-arm': 'Expression InArm',
    'Expr-statement': 'Expression InStatement',
    'FieldValue': 'FieldValue', 'Arm': 'Arm', 'Block': 'Block', 'Label': 'Label',
    'PathSegment': 'Segment InType',
    'Path-mod': 'Path InModule', 'Path-expr': 'Path InExpression', 'Path-type': 'Path InType', 'Macro': 'AMacro',
    'Member': 'Member', 'Index': 'Index', 'Attributes': 'OuterAttributes', 'Inner': 'InnerAttributes', 'Meta': 'Meta',
    'Generics': 'Generics', 'Param': 'GenericParam', 'Where': 'Where', 'WhereClause': 'WhereClause',
    'Visibility': 'Visibility', 'Variant': 'Variant', 'Field': 'NamedField', 'Field-unnamed': 'UnnamedField',
    'Signature': 'Signature InFile', 'FnArg': 'FnArg', 'Receiver': 'Receiver', 'UseTree': 'UseTree',
    'Use': 'ItemUse', 'Struct': 'ItemStruct', 'Enum': 'ItemEnum', 'Union': 'ItemUnion', 'Fn': 'ItemFn',
    'Static': 'ItemStatic', 'Const': 'ItemConst', 'Mod': 'ItemMod', 'TypeItem': 'ItemType', 'Trait': 'ItemTrait',
    'TraitAlias': 'ItemTraitAlias', 'Impl': 'ItemImpl', 'ExternCrate': 'ItemExternCrate',
    'ForeignMod': 'ItemForeignMod', 'DeriveInput': 'DeriveInput',
    'ItemMacro': 'OneMacro InFile', 'ForeignItemMacro': 'OneMacro InForeign',
    'TraitItemMacro': 'OneMacro InTrait', 'ImplItemMacro': 'OneMacro InImpl',
    'ForeignItemFn': 'OneFunction InForeign', 'TraitItemFn': 'OneFunction InTrait', 'ImplItemFn': 'OneFunction InImpl',
    'ForeignItemType': 'OneTypeAlias InForeign', 'TraitItemType': 'OneTypeAlias InTrait',
    'ImplItemType': 'OneTypeAlias InImpl', 'TraitItemConst': 'OneConst InTrait', 'ImplItemConst': 'OneConst InImpl',
    'ForeignItemStatic': 'ForeignItemStatic', 'Stmt': 'OneStatement', 'Statements': 'Statements',
}


def kind_of(name):
    """A kind of the table, by the name that a stored text has for it."""
    kind, *places = KINDS[name].split()
    return (kind,) + tuple((place,) for place in places)


def place_of(source, tokens):
    """Line and column of the first of some tokens."""
    if not tokens.n:
        return 'the end'
    i = tokens.h[-1]
    return f'{source.count(chr(10), 0, i) + 1}:{i - (source.rfind(chr(10), 0, i) + 1)}'


def stands_at(tokens):
    return text([t for _, t in zip(range(6), items_of(tokens))]) if tokens.n else 'the end'


WORDS = {'ExternCrate': 'extern-crate', 'TraitAlias': 'trait-alias', 'Alias': 'type'}


def outline(table, source, tokens):
    """The names that the grammar lists of a file, each with its place."""
    tree, rest = table.kind(('AFile',), tokens)
    if rest.n:
        raise Refused(rest, 'the end')
    rows, spread = [], list(items_of(tokens))
    for name in items_of(table.names(tree)):
        word = WORDS.get(name['kind'][0], name['kind'][0].lower())
        rows.append(f'{word} {string(name["text"])} {place_of(source, chain([spread[name["index"]]]))}')
    return ', '.join(rows), 0, ''


def output(table, name, source, asked=False):
    """What the grammar says of a text: (the printed normal form, how many raw items, what is left), or (None, why).

    Where asked, the definition of which trees there are is run on the tree that was found, too.
    """
    try:
        tokens = chain(lex(source))
        if name == 'outline':
            return outline(table, source, tokens)
        if name == 'built':
            tree, rest = table.built(tokens)
            return text(items_of(table.flat(table.normal(tree)))), 0, text(items_of(rest))
        tree, rest = table.kind(kind_of(name), tokens)
        if asked and not table.is_derived(kind_of(name), tree, rest):
            return None, 'a tree was found that the definition doesn\'t derive'
    except Lexical as e:
        return None, f'lexical fault at character {e.place}'
    except Refused as e:
        return None, f'{place_of(source, e.tokens)}: wanted {e.wanted}, there stands {stands_at(e.tokens)}'
    printed = text(items_of(table.output(tree)))
    return printed, verbatims(tree), text(items_of(rest))


def wanted_of(answer):
    """An answer as it is stored: whether accepted, the tokens, raw or not, what is left."""
    if answer == 'refused':
        return None
    raw = answer.startswith('raw:')
    printed, _, rest = (' ' + (answer[4:] if raw else answer)).partition(' // ')
    return printed.strip(), raw, rest.strip()


TABLE_ROW = re.compile(r'\| `([\w-]+)` \| `((?:[^`])*)` \| (?:`([^`]*)`|(refused)) \|')


def shown(path):
    """The rows of the tables of a page that have a kind, a text and an answer."""
    for number, line in enumerate(open(path, encoding='utf8'), 1):
        row = TABLE_ROW.match(line.replace('\\|', '\0'))
        if row and row[1] in KINDS:
            yield number, row[1], row[2].replace('\0', '|'), (row[3] or row[4]).replace('\0', '|')


def stored(path):
    """The rows of a file of texts: line number, kind, text, answer."""
    if path.endswith('.md'):
        yield from shown(path)
        return
    for number, line in enumerate(open(path, encoding='utf8'), 1):
        line = line.rstrip('\n')
        if not line.strip() or line.startswith('# '):
            continue
        if ' ==>' not in line or ': ' not in line:
            raise SystemExit(f'{path}:{number}: no row: {line}')
        left, _, answer = line.partition(' ==>')
        kind, _, source = left.partition(': ')
        if kind not in KINDS:
            raise SystemExit(f'{path}:{number}: unknown kind {kind}')
        yield number, kind, source.replace('\\n', '\n'), answer.strip()


def agrees(found, answer, kind):
    wanted = wanted_of(answer)
    if wanted is None:
        return found[0] is None or (kind == 'file' and found[2] != '')
    if found[0] is None:
        return False
    return (found[0], found[1] > 0, found[2]) == wanted


def said(found):
    """What was found, as answers are stored."""
    if found[0] is None:
        return 'refused: ' + found[1]
    return ('raw: ' if found[1] else '') + found[0] + (f' // {found[2]}' if found[2] else '')


def check(table, paths):
    total, off = 0, 0
    for path in paths:
        for number, kind, source, answer in stored(path):
            total += 1
            try:
                found = output(table, kind, source, asked=True)
            except (Fault, LookupError, FileNotFoundError) as e:
                found = (None, f'FAULT {type(e).__name__}: {e}')
                off += 1
                print(f'{os.path.basename(path)}:{number}: {kind}: {source}\n   {found[1]}')
                continue
            if not agrees(found, answer, kind):
                off += 1
                print(f'{os.path.basename(path)}:{number}: {kind}: {source}')
                print(f'   wanted {answer}\n   is     {said(found)}')
    print(f'{total} texts, {off} answered otherwise')
    return off


def files(table, paths):
    sources = []
    for path in paths:
        sources += sorted(glob.glob(path + '/**/*.rs', recursive=True)) if os.path.isdir(path) else [path]
    accepted, raw, again, start = 0, 0, 0, time.time()
    for path in sources:
        source = open(path, encoding='utf8', newline='').read()
        front = shebang_end(source)
        source = ' ' * front + source[front:]
        found = output(table, 'file', source)
        if found[0] is None or found[2]:
            print(f'refused: {path}: {found[1] if found[0] is None else found[2]}')
            continue
        accepted += 1
        raw += found[1]
        second = output(table, 'file', found[0])
        if second[0] == found[0]:
            again += 1
        else:
            print(f'its output is not its own output: {path}: {second[1] if second[0] is None else "another"}')
    print(f'{len(sources)} files, {accepted} accepted ({again} of whose outputs are their own), {raw} raw items, '
          f'{time.time() - start:.0f} s')


def main(args):
    specs = None
    if args[:1] == ['--specs']:
        specs, args = args[1], args[2:]
    table = Table(os.path.join(HERE, '..', '..', 'crates'), specs)
    if args[:1] == ['--show']:
        found = output(table, args[1], args[2])
        print(said(found))
    elif args[:1] == ['--files']:
        files(table, args[1:])
    else:
        page = os.path.join(HERE, '..', '..', 'docs', 'GRAMMAR.md')
        return check(table, args or sorted(glob.glob(os.path.join(HERE, 'texts', '*.txt'))) + [page])


if __name__ == '__main__':
    sys.exit(deeply(main, sys.argv[1:]))
