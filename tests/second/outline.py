"""The names that a file lists, by the second implementation: those of items that aren't raw, modules' insides too."""
from lexer import lex
from second import Parser
from tokens import WORD, Raw


def place_of(text, place):
    """Line from 1 and column from 0, in characters."""
    return f'{text.count(chr(10), 0, place) + 1}:{place - (text.rfind(chr(10), 0, place) + 1)}'


def names(parser):
    """The names that a list of items has, in order: of each its kind and its token."""
    parser.inner_attributes()
    while not parser.at_end():
        start = parser.place
        found = parser.item()
        end = parser.place
        if not isinstance(found, Raw):
            parser.place = start
            yield from names_of(parser)
            parser.place = end


def names_of(parser):
    """The names of the item that stands there. Extern blocks, impls and `use` have none."""
    parser.outer_attributes()
    parser.visibility()
    if parser.at_signature():
        while not parser.at_word('fn'):
            parser.place += 1
        yield 'fn', parser.token(1)
    elif parser.at_word('extern') and parser.at_word('crate', ahead=1):
        yield 'extern-crate', parser.token(2)
    elif parser.at_word('static'):
        yield 'static', parser.token(2 if parser.at_word('mut', ahead=1) else 1)
    else:
        yield from names_behind_modifiers(parser)


def names_behind_modifiers(parser):
    parser.optional('unsafe')
    if parser.at_word('auto') and parser.at_word('trait', ahead=1):
        parser.any_word()
    if parser.at_word('impl', 'extern', 'use') or (parser.at_word('default') and not parser.at_marks('!', 1)):
        return
    if parser.at_word('trait'):
        yield trait_name(parser)
    elif parser.at_word('const', 'mod', 'type', 'struct', 'enum') or (parser.at_word('union') and parser.at_ident(1)):
        yield parser.token().text, parser.token(1)
        if parser.at_word('mod') and parser.at_group('{', 2):
            yield from names(Parser(parser.token(2).inside))
    else:
        yield from macro_name(parser)


def trait_name(parser):
    """`=` behind a trait's generics says that it is an alias."""
    name = parser.token(1)
    parser.place += 2
    parser.generics()
    return 'trait-alias' if parser.at_marks('=') else 'trait', name


def macro_name(parser):
    """A macro's item has the name behind its `!`, if one stands there."""
    parser.module_path()
    parser.marks('!')
    if parser.at_kind(WORD):
        yield 'macro', parser.token()


def outline(text):
    """The lines of the outline of an accepted text."""
    return ''.join(f'{kind} {name.text} {place_of(text, name.place)}\n' for kind, name in names(Parser(lex(text))))
