"""What the looks of the grammar see where tokens of a class stand first.

A class is a tuple: ('sign', text), ('word', text), ('ident',), ('lit', test), ('tick',) of lifetimes, ('open',
delimiter), ('end',), ('raw',) of the tokens of a raw item, and ('then', text, class), a sign and what follows it. A
term is as entries.term reads it."""
import os
import sys

sys.path.insert(0, os.path.join(os.path.dirname(os.path.abspath(__file__)), '..', '..', '..', 'tools'))
import entries  # noqa: E402

FILES = 'Look Say Paths Types Patterns Attributes Generics Items Lists Forms Expressions Statements Table'.split()
# Each definition; of two of one name the later one, which is an entry's.
DEFINITIONS = {it.name: it for file in FILES for it in entries.definitions(file) if it.name}
HOMES = {it.name: file for file in FILES for it in entries.definitions(file) if it.name}
RESERVED = set(entries.reserved())
PATH_KEYWORDS = ('self', 'super', 'crate')
BOOLS = ('true', 'false')
DELIMITERS = {'parenthesis': 'Parenthesis', 'brace': 'Brace', 'bracket': 'Bracket'}
# Looks of which first tokens don't say what they see.
DEEP = ('a_path', 'all_attributes', 'a_group', 'any_group', 'repeatedly', 'past_first', 'past_literals', 'any_mark',
        'closes', 'opening')
# What isn't seen where a raw item begins.
NOT_RAW = ['the_end', 'marks ";"', 'marks "#" then marks "!"']


# Terms.

def replaced(term, values):
    """A term with values in the place of variables."""
    if isinstance(term, str) or term[0] == 'λ':
        return term
    word, arguments = term
    return values[word] if not arguments and word in values else (word, [replaced(it, values) for it in arguments])


def matched(patterns, arguments):
    """The variables of a clause with what stands for them, or none if the clause doesn't take these arguments."""
    found = {}
    if len(patterns) > len(arguments):
        return None
    for pattern, argument in zip(patterns, arguments):
        if pattern[0] == '(' or pattern[0].isupper():
            word, *variables = pattern.strip('()').split()
            if isinstance(argument, str) or argument[0] != word:
                return None
            found.update(zip(variables, argument[1]))
        elif pattern != '_':
            found[pattern] = argument
    return found


def body(name, arguments):
    """What a definition is for some arguments, or none if no clause takes them."""
    for patterns, text in DEFINITIONS[name].clauses:
        values = matched(patterns, arguments)
        if values is not None:
            word, inner = replaced(entries.term(text), values)
            return (word, inner + arguments[len(patterns):])
    return None


def show(term, is_whole=True):
    """A term as it is written; in parentheses where it isn't whole and is no word."""
    if isinstance(term, str):
        return f'"{term}"'
    word, arguments = term
    if word == 'λ':
        return f'({arguments[0]})'
    if word in ('then', 'or', '∷'):
        text = f'{show_beside(arguments[0], word, False)} {word} {show_beside(arguments[1], word, True)}'
    elif arguments:
        text = ' '.join([word, *(show(it, False) for it in arguments)])
    else:
        return word
    return text if is_whole else f'({text})'


def show_beside(term, word, is_right):
    """A term beside an infix word."""
    if not isinstance(term, str) and term[0] in ('then', 'or', '∷'):
        return show(term, is_right and term[0] == word)
    return show(term)


def listed(texts):
    return ' ∷ '.join([*texts, '[]'])


def texts_of(term):
    """The texts of a list of texts, which may have a name."""
    while term[0] not in ('∷', '[]'):
        term = body(*term)
    found = []
    while term[0] == '∷':
        (_, (text,)), term = term[1]
        found.append(text)
    return found


# Tokens that are known to stand first, and then what isn't: ('mark', character, joint), ('word', text), ('ident',),
# ('any word',), ('literal', test), ('open', delimiter), ('end',).

def tokens_of(it):
    """The tokens that stand first in a class."""
    kind, *rest = it
    if kind == 'sign':
        text = rest[0]
        return tuple(('mark', c, at < len(text) - 1) for at, c in enumerate(text))
    if kind == 'then':
        return tokens_of(('sign', rest[0])) + tokens_of(rest[1])
    if kind == 'tick':
        return (('mark', "'", True), ('any word',))
    return ({'lit': ('literal', *rest)}.get(kind, it),)


def passes(test, token):
    """Whether a token is a word that passes a test: true, false, or none where that isn't known."""
    if token[0] == 'any word':
        return None
    if token[0] == 'ident':
        return {'is_ident': True, 'is_name': True, 'is_bool': False, 'is_path_keyword': False,
                'any_text': True}.get(test)
    text = token[1]
    is_ident = text not in RESERVED
    return {'is_ident': is_ident, 'is_name': is_ident or text in (*PATH_KEYWORDS, 'Self'), 'is_bool': text in BOOLS,
            'is_path_keyword': text in PATH_KEYWORDS, 'any_text': True}.get(test)


class Sight:
    """What looks see, and which words were asked of on the way: their proofs compute with these. 'itself' is asked
    where a test of words is put to the word that stands there."""

    def __init__(self):
        self.asked = []

    def sees(self, look, it):
        """Whether a look is seen at a class: true, false, or none where first tokens don't say."""
        if look[0] == 'sees':
            look = look[1][0]
        if it[0] == 'raw':
            return False if show(look).strip('()') in NOT_RAW else None
        word, arguments = look
        if word == 'or':
            return self.sees_either(arguments, it)
        past = self.past(look, tokens_of(it))
        if past is None and word in DEFINITIONS and word not in ('at', 'marks'):
            inner = body(word, arguments)
            if inner is not None:
                return self.sees(inner, it)
        return None if past is None else past is not False

    def sees_either(self, looks, it):
        one, other = (self.sees(look, it) for look in looks)
        if one or other:
            return True if one or self.past(looks[0], tokens_of(it)) is not None else None
        return False if one is False and other is False else None

    def word(self, tokens, test, asked):
        """What stands behind a word that passes."""
        if not tokens:
            return None
        token = tokens[0]
        if token[0] not in ('word', 'ident', 'any word'):
            return False
        if token[0] == 'ident':
            self.asked += asked
        if token[0] == 'word' and 'itself' in asked:
            self.asked.append('=' + token[1])
        passed = test(token)
        return tokens[1:] if passed else passed

    def one_word(self, tokens, texts):
        def test(token):
            if token[0] == 'word':
                return token[1] in texts
            return False if token[0] == 'ident' and all(text in RESERVED for text in texts) else None
        return self.word(tokens, test, list(texts))

    def tested_word(self, tokens, test):
        asked = {'is_bool': list(BOOLS), 'is_path_keyword': list(PATH_KEYWORDS), 'is_ident': ['itself'],
                 'is_name': ['itself']}.get(test, [])
        return self.word(tokens, lambda token: passes(test, token), asked)

    def past(self, look, tokens):
        """What a look makes of tokens: false, what stands behind it, or none where that isn't known."""
        word, arguments = look
        if word == 'λ':
            return False if arguments[0].endswith('None') else None
        if word in ('then', 'or', 'no', 'maybe'):
            return self.past_composed(word, arguments, tokens)
        if word == 'at':
            return self.one_word(tokens, [arguments[0]])
        if word == 'one_of':
            return self.one_word(tokens, texts_of(arguments[0]))
        if word in ('a_word', 'an_ident', 'a_name'):
            test = {'an_ident': 'is_ident', 'a_name': 'is_name'}.get(word) or arguments[0][0]
            return self.tested_word(tokens, test)
        if word == 'a_literal':
            return self.past(('or', [('a_quoted', [('any_text', [])]), ('a_word', [('is_bool', [])])]), tokens)
        if word == 'marks':
            return past_marks(arguments[0], tokens)
        if word in ('a_quoted', 'a_lifetime', 'opens', 'the_end', *DELIMITERS):
            return past_token(word, arguments, tokens)
        inner = body(word, arguments) if word in DEFINITIONS and word not in DEEP else None
        return None if inner is None else self.past(inner, tokens)

    def past_composed(self, word, arguments, tokens):
        first = self.past(arguments[0], tokens)
        if first is None:
            return None
        if word == 'then':
            return first if first is False else self.past(arguments[1], first)
        if word == 'or':
            return self.past(arguments[1], tokens) if first is False else first
        if word == 'no':
            return tokens if first is False else False
        return tokens if first is False else first


def past_marks(text, tokens):
    """What stands behind a punctuation."""
    for at, c in enumerate(text):
        if at >= len(tokens):
            return None
        if tokens[at][:2] != ('mark', c) or at < len(text) - 1 and not tokens[at][2]:
            return False
    return tokens[len(text):]


def past_token(word, arguments, tokens):
    """What stands behind a literal, a lifetime, an opening token; the end itself."""
    if not tokens:
        return None
    token = tokens[0]
    if word == 'a_quoted':
        if token[0] != 'literal':
            return False
        test = arguments[0][0]
        return tokens[1:] if test in ('any_text', token[1]) else None
    if word == 'a_lifetime':
        return tokens[2:] if token[:2] == ('mark', "'") else False
    if word == 'the_end':
        return tokens if token[0] == 'end' else False
    delimiter = DELIMITERS.get(word) or arguments[0][0]
    return tokens[1:] if token == ('open', delimiter) else False


def is_never_seen(look):
    """Whether a look sees nothing, whatever stands there."""
    word, arguments = look
    if word == 'λ':
        return arguments[0].endswith('None')
    inner = body(word, arguments) if word in DEFINITIONS and word not in ('at', 'marks') else None
    return inner is not None and is_never_seen(inner)
