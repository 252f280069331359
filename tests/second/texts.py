"""Random texts: stored ones with a few tokens changed, expressions in whatever place, characters, and lists of items.

What is made depends on the seed, and on which texts were accepted before.
"""
import random

from lexer import Lexical, lex
from pieces import ATOMS, CASTS, CHARACTERS, ITEMS, OPERATORS, PIECES, PLACES, POSTFIXES, PREFIXES
from tokens import CLOSING, GROUP, MARK, Token

KEPT = 3000  # how many accepted texts are kept to be changed further


def copied(tokens):
    return [Token(token.kind, token.text, token.joint, inside=None if token.inside is None else copied(token.inside))
            for token in tokens]


def lists_in(tokens):
    """A list of tokens and those of its groups."""
    out = [tokens]
    for token in tokens:
        if token.kind == GROUP:
            out += lists_in(token.inside)
    return out


def tokens_or_none(text):
    try:
        return lex(text)
    except Lexical:
        return None


class Maker:
    """Makes texts at random from a seed and the stored texts."""

    def __init__(self, seed, stored):
        self.random = random.Random(seed)
        lists = [tokens_or_none(text) for text in stored if len(text) < 200]
        self.pool = [tokens for tokens in lists if tokens is not None]
        self.pieces = [lex(piece) for piece in PIECES]
        self.accepted = []

    def keep(self, text):
        """A text that was accepted, to be changed further."""
        if len(text) < 150:
            self.accepted.append(lex(text))
        if len(self.accepted) > KEPT:
            self.accepted[self.random.randrange(KEPT)] = self.accepted.pop()

    def text(self):
        """A text, and whether it is one for outlines."""
        share = self.random.random()
        if share < 0.1:
            return self.items(), True
        if share < 0.25:
            return self.characters(), False
        return (self.expression() if share < 0.6 else self.changed()), False

    # Stored texts with a few tokens changed.

    def spelled(self, tokens):
        """A text of tokens, where a space is now and then put between joint marks or left out."""
        out = ''
        for i, token in enumerate(tokens):
            out += token.text
            if token.kind == GROUP:
                out += self.spelled(token.inside) + CLOSING[token.text]
            is_joint = token.kind == MARK and token.joint
            if self.random.random() < 0.03:
                is_joint = not is_joint
            is_quote = token.kind == MARK and token.text == "'"
            if i < len(tokens) - 1 and not is_joint and not is_quote:
                out += ' '
        return out

    def changed(self):
        use_accepted = self.accepted and self.random.random() < 0.3
        tokens = copied(self.random.choice(self.accepted if use_accepted else self.pool))
        for _ in range(self.random.choice([1, 1, 1, 2, 2, 3])):
            self.change(tokens)
        return self.spelled(tokens)

    def change(self, tokens):
        """Leaves out, puts in, exchanges, doubles or takes from elsewhere a few tokens of some list."""
        lists = lists_in(tokens)
        place = self.random.choice(lists)
        if self.random.random() < 0.5:
            place = max(self.random.sample(lists, min(2, len(lists))), key=len)
        i = self.random.randrange(len(place) + 1)
        kind = self.random.random()
        if kind < 0.2:
            del place[i:i + self.random.choice([1, 1, 1, 2, 3])]
        elif kind < 0.5:
            place[i:i] = copied(self.random.choice(self.pieces))
        elif kind < 0.7:
            place[i:i + 1] = copied(self.random.choice(self.pieces))
        elif kind < 0.78:
            place[i:i + 2] = place[i:i + 2][::-1]
        elif kind < 0.84:
            place[i:i] = copied(place[i:i + self.random.choice([1, 2, 3])])
        elif kind < 0.88:
            self.exchange_delimiter(place)
        else:
            self.put_other(place, i)

    def exchange_delimiter(self, tokens):
        groups = [token for token in tokens if token.kind == GROUP]
        if groups:
            self.random.choice(groups).text = self.random.choice('([{')

    def put_other(self, tokens, i):
        other = self.random.choice(lists_in(self.random.choice(self.pool)))
        start = self.random.randrange(len(other) + 1)
        part = copied(other[start:start + self.random.choice([1, 2, 3, 5, 8])])
        tokens[i:i + self.random.choice([0, 0, 1, 2])] = part

    # Expressions.

    def expression(self):
        words = self.any_words() if self.random.random() < 0.4 else self.likely_words()
        glue = '' if self.random.random() < 0.15 else ' '
        return self.random.choice(PLACES).replace('%s', glue.join(words))

    def any_words(self):
        kinds = (PREFIXES, POSTFIXES, CASTS, OPERATORS, ATOMS, ATOMS)
        count = self.random.choice([1, 2, 3, 3, 4, 4, 5, 5, 6, 7, 8, 10])
        return [self.random.choice(self.random.choice(kinds)) for _ in range(count)]

    def likely_words(self):
        """Operands with operators between them, few of which are at fault; attributed ranges are frequent."""
        out = []
        for _ in range(self.random.choice([1, 2, 2, 3, 3, 4])):
            while self.random.random() < 0.35:
                out.append(self.random.choice(PREFIXES))
            out.append(self.random.choice(self.random.choice([ATOMS, ['a', 'b', '1', '..', '#[x] ..']])))
            while self.random.random() < 0.2:
                out.append(self.random.choice(POSTFIXES))
            out.append(self.random.choice(self.random.choice([OPERATORS, OPERATORS, OPERATORS, CASTS])))
        return out[:-1] if self.random.random() < 0.85 else out

    # Characters and items.

    def characters(self):
        count = self.random.choice([1, 2, 2, 3, 3, 4, 4, 5, 6, 8])
        text = ''.join(self.random.choice(CHARACTERS) for _ in range(count))
        places = ['m!{%s}', 'm!{%s\n}', 'm!{%s\n}', 'm!{%s}', 'm!{%s %s}', '%s', '\ufeff%s', 'struct S;%s',
                  '#!%s\nstruct S;']
        return self.random.choice(places).replace('%s', text)

    def items(self):
        """Items of a file, the modules among them closed at the end."""
        count = self.random.randrange(1, 9)
        text = ''.join(self.random.choice(ITEMS) + self.random.choice(['', ' ', '\n']) for _ in range(count))
        front = '\ufeff' if self.random.random() < 0.2 else ''
        return front + text + '}' * (text.count('{') - text.count('}'))
