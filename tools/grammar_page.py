#!/usr/bin/env python3
"""Writes docs/GRAMMAR.md: the grammar as one page. The entries, with the rules in words above them, are those of
crates/syn_grammar/specs, as they are written; the text between them is that of grammar_page.md beside this script, in
which a line {{entries FILE}}, {{forms}}, {{levels}} or {{keywords}} stands for what is taken from there.

Usage: tools/grammar_page.py"""
import os
import re
import sys

sys.dont_write_bytecode = True
from entries import definitions, reserved, term as term_of  # noqa: E402

HERE = os.path.dirname(os.path.abspath(__file__))
TOP = os.path.dirname(HERE)
WIDTH = 112
DELIMITERS = {'Parenthesis': '()', 'Bracket': '[]', 'Brace': '{}'}
# Words that pass a test, and what stands for them on the page.
WORDS = {'is_ident': 'Ident', 'is_plain_name': 'Name', 'is_path_keyword': "('self' | 'super' | 'crate')",
         'is_bool': "('true' | 'false')", 'is_name': 'AnyName', 'any_text': 'AnyWord'}
LITERALS = {'any_text': 'Literal', 'is_string': 'String', 'is_number': 'Number', 'is_index': 'IndexNumber',
            'are_indices': 'Indices', 'ends_in_dot': 'NumberWithDot'}

FILES = 'Paths Types Patterns Attributes Generics Items Lists Expressions Statements Forms'.split()
DEFINED = {file: definitions(file) for file in FILES}
LOOKS = {it.name for file in FILES for it in DEFINED[file] if it.type.endswith('Look')}
ENTRIES = {it.name: it.clauses[0][1] for file in FILES for it in DEFINED[file] if it.type == 'Gram'}
LISTS = {it.name: it.clauses[0][1] for file in FILES for it in DEFINED[file] if it.type == 'List (List ℕ)'}


def table():
    """The kinds of each entry: its definition, with the arguments that it has there, to the kind."""
    found, inline = {}, []
    for pattern, text in next(it for it in definitions('Table') if it.name == 'table').clauses:
        kind = shown_kind(pattern[0].strip('()').split())
        head = text.split()
        if re.fullmatch(r"[\w']+( [a-z])?", text.strip()):
            found.setdefault(head[0], kind)
        else:
            inline.append((kind, text))
    return found, inline


def shown_kind(words):
    return words[0] if len(words) == 1 else f'{words[0]}<{words[1]}>'


def codes(term):
    """The texts of a list of texts."""
    if isinstance(term, tuple) and term[0] in LISTS:
        term = term_of(LISTS[term[0]])
    found = []
    while term[0] == '∷':
        found.append(term[1][0][1][0])
        term = term[1][1]
    return found


def quoted(text):
    return f"'{text}'"


def either(texts):
    return quoted(texts[0]) if len(texts) == 1 else '(' + ' | '.join(map(quoted, texts)) + ')'


def outside(text):
    """What of a text stands in no quotes and no parentheses; the rest is x."""
    found, depth = '', 0
    for c in re.sub(r"'[^']*'", lambda it: 'x' * len(it[0]), text):
        depth -= c == ')'
        found += c if depth == 0 else 'x'
        depth += c == '('
    return found


def grouped(text):
    """In parentheses, unless it is one thing."""
    return f'({text})' if ' ' in outside(text) else text


def bare(text):
    """Without the parentheses round all of it."""
    return text[1:-1] if re.fullmatch(r'\(x*\)', outside(text)) else text


def called(name, arguments):
    return name if not arguments else f'{name}<{", ".join(show(it) for it in arguments)}>'


def look(term):
    """A look, as the page has it."""
    word, arguments = term
    if word == 'λ':
        return 'never'
    if word in ('at', 'marks'):
        return quoted(arguments[0])
    if word == 'then':
        return ' '.join(grouped(it) if '|' in outside(it) else it for it in map(look, arguments))
    if word == 'or':
        return ' | '.join(look(it) for it in arguments)
    if word == 'no' and arguments[0][0] == 'no':
        return '&' + grouped(look(arguments[0][1][0]))
    if word == 'no':
        return '!' + grouped(look(arguments[0]))
    if word == 'maybe':
        return grouped(look(arguments[0])) + '?'
    if word in ('one_of', 'any_mark'):
        return either(codes(arguments[0]))
    if word == 'a_word':
        return WORDS[arguments[0][0]]
    if word == 'a_quoted':
        return LITERALS[arguments[0][0]]
    if word == 'a_group':
        return '{} .. {}'.format(*map(quoted, DELIMITERS[arguments[0][0]]))
    if word == 'opens':
        return 'an invisible group'
    if word == 'past_first':
        return f"past the next '{chr(int(arguments[0][0]))}'"
    if word == 'past_literals':
        return 'NumberWithDot*'
    fixed = {'an_ident': 'Ident', 'a_name': 'AnyName', 'a_literal': 'Lit', 'a_lifetime': 'Lifetime', 'the_end': 'end',
             'parenthesis': "'('", 'bracket': "'['", 'brace': "'{'", 'closes': 'closing', 'opening': 'opening',
             'all_attributes': 'attributes', 'a_path': 'path'}
    return fixed.get(word) or called(word, arguments)


def show(term):
    """An argument of a kind or of a definition."""
    return term if isinstance(term, str) else shown_kind([term[0], *(show(it) for it in term[1])])


def first(term):
    """What an entry begins with, as a look has it, if that is one thing; a kind is asked for its name alone."""
    word, arguments = term
    if word in ('keyword', 'sign'):
        return quoted(arguments[0])
    if word in ('▸', ):
        return first(arguments[0])
    if word == '∶':
        return first(arguments[1])
    if word == 'ident_or':
        return f"Ident | '{arguments[0]}'"
    if word == 'when' and arguments[2][0] != 'when':
        return ' | '.join(str(first(it)) for it in arguments[1:])
    if word == 'ref':
        return 'a kind'
    if word in ENTRIES and not arguments:
        return first(term_of(ENTRIES[word]))
    if word in ('in_parentheses', 'in_brackets', 'in_braces'):
        return quoted({'in_parentheses': '(', 'in_brackets': '[', 'in_braces': '{'}[word])
    if word in ('one_word', 'one_sign'):
        return either(codes(arguments[0]))
    if word == 'word':
        return WORDS.get(arguments[0][0])
    if word == 'literal':
        return LITERALS.get(arguments[0][0])
    return {'ident': 'Ident', 'lit': 'Lit', 'lifetime': 'Lifetime', 'name': 'Name'}.get(word)


class Page:
    """The entries as they are written on the page. What is told by a test beside an entry is noted."""

    def __init__(self, kinds):
        self.kinds, self.notes = kinds, []

    def many(self, element, separator, end):
        each = grouped(self.entry(element))
        if end not in ('end', "'>'", "'|'"):
            self.notes.append(f'as far as {end}' if not end.startswith('while') else end)
        return f"({each} ('{separator}' {each})* '{separator}'?)?"

    def tested(self, test, inner):
        """What stands where a look is seen: the look is said unless it is what the inside begins with, or one token of
        a kind that begins with that."""
        seen, text, begins = look(test), self.entry(inner), first(inner)
        alternatives = sorted(bare(seen).split(' | '))
        if begins and sorted(bare(begins).split(' | ')) == alternatives:
            return text
        if begins == 'a kind' and re.fullmatch(r"'[^']*'|Lifetime|Ident|Lit", seen):
            return text
        return f'&{grouped(seen)} {text}'

    def choice(self, term):
        """The alternatives of a choice, each with its look: the last has none. A look before what is refused is said of
        what follows: it isn't seen there."""
        found = []
        while term[0] == 'when':
            found.append((term[1][0], term[1][1]))
            term = term[1][2]
        return [*found, (None, term)]

    def inline(self, term):
        """A choice in one line."""
        alternatives = self.choice(term)
        if len(alternatives) == 2:
            (test, one), (_, other) = alternatives
            if one[0] == 'refused':
                text = self.entry(other)
                return f'!{grouped(look(test))} {grouped(text) if "|" in outside(text) else text}'.rstrip()
            if other[0] == 'refused':
                return f'&{grouped(look(test))} {self.entry(one)}'.rstrip()
            if one[0] == 'nothing':
                return f'(&{grouped(look(test))} | {self.entry(other)})'
        found = [self.entry(inner) if test is None else self.tested(test, inner) for test, inner in alternatives]
        return '(' + ' | '.join(found) + ')'

    def entry(self, term):
        """An entry, in one line."""
        word, arguments = term
        if word == '▸':
            return ' '.join(it for it in map(self.entry, arguments) if it)
        if word == '∶':
            return f'{arguments[0][0].removeprefix("the_")}:{grouped(self.entry(arguments[1]))}'
        if word == 'when':
            return self.inline(term)
        if word == 'optional':
            return grouped(self.tested(*arguments)) + '?'
        if word in ('repeated', 'star'):
            test, inner = arguments
            if word == 'star':
                return grouped(self.entry(inner)) + '*'
            return grouped(self.tested(test, inner)) + '*'
        if word == 'many_to_end':
            return self.many(arguments[0], ',', 'end')
        if word == 'many':
            (sees, of), separator, element = arguments
            end = look(of[0])
            sign = {'comma': ',', 'plus': '+'}[separator[0]]
            return self.many(element, sign, end if sees == 'sees' else f'while {end}')
        if word in ('in_parentheses', 'in_brackets', 'in_braces'):
            opening, closing = {'in_parentheses': '()', 'in_brackets': '[]', 'in_braces': '{}'}[word]
            return f"'{opening}' {self.entry(arguments[0])} '{closing}'"
        if word == 'group':
            return self.entry(arguments[1])
        if word == 'judged':
            self.notes.append('judged')
            return self.entry(arguments[1])
        if word == 'dropped':
            self.notes.append('the visibility is forgotten')
            return self.entry(arguments[0])
        if word == 'ref':
            return show(arguments[0])
        if word == 'operand':
            return 'Expr'
        if word in ('keyword', 'sign'):
            return quoted(arguments[0])
        if word in ('one_word', 'one_sign'):
            return either(codes(arguments[0]))
        if word == 'word':
            return WORDS[arguments[0][0]]
        if word == 'literal':
            return LITERALS[arguments[0][0]]
        if word == 'ident_or':
            return f'(Ident | {quoted(arguments[0])})'
        fixed = {'ident': 'Ident', 'name': 'Name', 'lit': 'Lit', 'lifetime': 'Lifetime', 'raw': 'Tokens', 'nothing': '',
                 'refused': 'refused'}
        if word in fixed:
            return fixed[word]
        return self.kinds.get(word) if word in self.kinds and not arguments else called(word, arguments)


def broken(text, indent, width=WIDTH):
    """Lines that are no longer than the width, broken at spaces outside quotes."""
    if len(text) <= width:
        return [text]
    places = [at for at, c in enumerate(text[:width]) if c == ' ' and text[:at].count("'") % 2 == 0 and at > indent]
    return [text[:places[-1]], *broken(' ' * indent + text[places[-1] + 1:], indent, width)] if places else [text]


def parts(term):
    """What stands one behind the other."""
    return [term[1][0], *parts(term[1][1])] if term[0] == '▸' else [term]


def rows(page, choice):
    """The alternatives of a choice, a line each, with their looks in front."""
    tested = [('' if test is None else '&' + grouped(look(test)), page.entry(inner) or 'nothing')
              for test, inner in choice]
    width = min(max(len(test) for test, _ in tested), 40)
    return [line for number, (test, text) in enumerate(tested)
            for line in broken(f'  {"|" if number else " "} {test:{width}} {text}'.rstrip(), 6)]


def production(page, name, term):
    """The lines of a production, and what is noted of it."""
    page.notes = []
    judged = term[0] == 'judged'
    front, last = parts(term[1][1] if judged else term), None
    if front[-1][0] == '∶' and front[-1][1][1][0] == 'when':
        label, last = front[-1][1][0][0].removeprefix('the_') + ':', front.pop()[1][1]
    elif front[-1][0] == 'when':
        label, last = '', front.pop()
    lone = bare(page.entry(last)) if last and not front and not label else ''
    if last and (len(page.choice(last)) > 2 or len(f'{name} = {lone}') > WIDTH):
        before = ' '.join(map(page.entry, front))
        lines = [f'{name} = {before} {label}('.replace('  ', ' ') if front or label else f'{name} =']
        lines = broken(lines[0], 4) + rows(page, page.choice(last)) + ([')'] if front or label else [])
        page.notes += ['judged'] if judged else []
    else:
        page.notes = []
        lines = broken(f'{name} = {bare(page.entry(term)) or "nothing"}', 4)
    return lines, [f'({it})' for it in dict.fromkeys(page.notes)]


def comment(words):
    lines, text = [], words
    while len(text) > WIDTH - 3:
        at = text.rfind(' ', 0, WIDTH - 3)
        lines.append('// ' + text[:at])
        text = text[at + 1:]
    return [*lines, '// ' + text]


def operands(own, kind, forms):
    """A form of expressions with its operands."""
    fronts, backs, levels, may_lack = forms
    level = levels.get(kind, 16)
    if kind in ('ExprRange', 'ExprRangeClosed'):
        return f'Expr? {own} ' + ('Expr?' if kind == 'ExprRange' else 'Expr')
    if kind in backs:
        return f'Expr {own}' if level in (14, 16) else f'Expr {grouped(own)} Expr'
    if kind in fronts and level != 16:
        return f'{own} ' + ('Expr?' if kind in may_lack else 'Expr')
    return own


def forms():
    """The forms of expressions that begin with tokens of their own, with their looks; those behind an operand; the
    levels; those that may lack the operand behind them."""
    by = {it.name: it for it in DEFINED['Forms']}

    def cases(name):
        term, found = term_of(by[name].clauses[0][1]), []
        while term[0] == '∷':
            found.append((term[1][0][1][0][0], look(term[1][0][1][1])))
            term = term[1][1]
        return found
    levels = {pattern[0]: int(text) for pattern, text in by['level'].clauses if pattern[0] != 'k'}
    return cases('fronts'), cases('backs'), levels, {'ExprBreak', 'ExprReturn', 'ExprYield'}


def entries(file, kinds, inline):
    """The block of a file's entries, with the words above them."""
    page, out, pending, all_forms = Page(kinds), [], [], forms()
    names = [dict(it) if number < 2 else it for number, it in enumerate(all_forms)]
    for it in DEFINED[file]:
        lines = comment(it.words) if it.words else []
        if it.name is None:
            out += ['', *lines]
            continue
        if not re.search(r'Gram$|Look$', it.type):
            pending += lines if re.match(r'(An?|No|One) .*\.$', it.words) else []
            continue
        lines, pending = pending + lines, []
        for pattern, text in it.clauses:
            if it.type.endswith('Look'):
                arguments = [re.sub(r"[()]", '', each) for each in pattern]
                name = it.name if not arguments else f'{it.name}<{", ".join(arguments)}>'
                lines += broken(f'{name} := {look(term_of(text))}', 4)
                continue
            kind = kinds.get(it.name)
            name = kind if kind and not pattern else shown_kind([(kind or it.name).split('<')[0], *pattern])
            term = term_of(text)
            if file == 'Expressions' and kind and kind.startswith('Expr') and kind != 'Expression<p>':
                lines += broken(f'{name} = {operands(page.entry(term), kind, names)}', 4)
            else:
                made, notes = production(page, name, term)
                lines += [f'// {it}' for it in notes] + made
        if lines:
            out += ['', *lines]
    if file == 'Lists':
        out += ['', '// Items to the end, and one kind of item by itself.']
        for kind, text in inline:
            out += production(page, kind, term_of(text))[0]
    if file == 'Expressions':
        out += ['', 'ExprLit = Lit']
    while out[-1] == '' or out[-1].startswith('//'):
        out.pop()
    where = f'Defined in `crates/syn_grammar/specs/{file}.antt`:'
    return '\n'.join([where, '', '```', *out[1:], '```'])


def shown_forms():
    """The forms in the order in which they are tried."""
    fronts, backs, levels, _ = forms()
    out = ['| Begins a form | With |', '|---|---|']
    out += [f'| `{kind}` | {cell(test)} |' for kind, test in fronts]
    out += ['', '| Goes on from an operand | With | Level |', '|---|---|---:|']
    out += [f'| `{kind}` | {cell(test)} | {levels.get(kind, 16)} |' for kind, test in backs]
    return '\n'.join(out)


def shown_levels():
    """The levels, loosest first, with the forms of each."""
    levels, own = forms()[2], {it.name: it.clauses[0][1] for it in DEFINED['Expressions'] if it.name}
    kinds = table()[0]
    signs = {kinds[name]: ' '.join(re.findall(r'"([^"]+)"', text)) for name, text in own.items() if name in kinds}
    out = ['| Level | Forms | Tokens |', '|---:|---|---|']
    for level in sorted(set(levels.values())):
        of = [kind for kind, it in levels.items() if it == level]
        tokens = {'ExprCast': 'as', 'ExprClosure': '|', 'ExprAttributed': '#', 'ExprBreak': 'break', 'ExprLet': 'let',
              'ExprRawAddr': '&raw', 'ExprReference': '&'}
        shown = ' '.join(dict.fromkeys(' '.join(tokens.get(kind) or signs[kind] for kind in of).split(' ')))
        out.append(f'| {level} | {", ".join(of)} | {cell(shown)} |')
    return '\n'.join([*out, '| 16 | all others | |'])


def shown_keywords():
    """The keywords, as many a line as it has room for."""
    words = ' '.join(it for it in reserved() if it != '_')
    return '\n'.join(['```', *(line.strip() for line in broken(words, 0)), '```'])


def cell(text):
    """Code in a cell of a table, whose bars are escaped."""
    return '`' + text.replace('|', '\\|') + '`'


def main():
    kinds, inline = table()
    with open(f'{HERE}/grammar_page.md', encoding='utf8') as file:
        text = file.read()
    text = re.sub(r'^\{\{entries (\w+)\}\}$', lambda it: entries(it[1], kinds, inline), text, flags=re.M)
    text = re.sub(r'^\{\{forms\}\}$', lambda it: shown_forms(), text, flags=re.M)
    text = re.sub(r'^\{\{levels\}\}$', lambda it: shown_levels(), text, flags=re.M)
    text = re.sub(r'^\{\{keywords\}\}$', lambda it: shown_keywords(), text, flags=re.M)
    with open(f'{TOP}/docs/GRAMMAR.md', 'w', encoding='utf8') as file:
        file.write(text)


if __name__ == '__main__':
    main()
