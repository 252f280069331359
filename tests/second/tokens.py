"""Tokens, how they are made, and the text of a list of them."""

WORD, MARK, LITERAL, GROUP = 'word', 'mark', 'literal', 'group'
# Where the attributes of a statement go, before it is known whether its expression is a range.
HOLE = 'hole'
CLOSING = {'(': ')', '[': ']', '{': '}'}


class Token:
    """A token; a group's text is its opening delimiter, and its tokens are `inside`.

    `joint` says of a mark that another one stands directly behind it. `place` and `end` are where the token begins and
    where a group's closing delimiter stands, in characters. `added` are parentheses that normal form put there.
    """

    __slots__ = ('kind', 'text', 'joint', 'place', 'inside', 'end', 'added')

    def __init__(self, kind, text, joint=False, place=None, inside=None, end=None, added=False):
        self.kind = kind
        self.text = text
        self.joint = joint
        self.place = place
        self.inside = inside
        self.end = end
        self.added = added


class Raw(list):
    """The tokens of an item that is kept as they were read."""


def word(text):
    return Token(WORD, text)


def marks(text):
    """The marks of a punctuation: all but the last are joint."""
    return [Token(MARK, mark, i < len(text) - 1) for i, mark in enumerate(text)]


def group(delimiter, inside, added=False):
    return Token(GROUP, delimiter, inside=inside, added=added)


def written_group(token):
    inside = written(token.inside)
    if token.text != '{':
        return token.text + inside + CLOSING[token.text]
    return '{ ' + inside + ' }' if token.inside else '{ }'


def written(tokens):
    """The text of tokens: one space between two, but none behind a joint mark, and spaces within braces."""
    out, space = [], False
    for token in tokens:
        if space:
            out.append(' ')
        out.append(written_group(token) if token.kind == GROUP else token.text)
        space = not (token.kind == MARK and token.joint)
    return ''.join(out)
