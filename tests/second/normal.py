"""What normal form adds to the tokens that were read: the order of lifetimes, and parentheses of attributed ranges.

A range with attributes is written `#[x] (a..b)`. By these parentheses it no longer ends where a range does: what stands
behind it would now belong to it. So a form that ends with such a range gets parentheses itself before what would go on
with the range.
"""
from tokens import GROUP, HOLE, Token, group, marks


class Entry:
    """A parameter or an argument, whether it is a lifetime, and whether a comma follows."""

    def __init__(self, is_lifetime, tokens):
        self.is_lifetime = is_lifetime
        self.tokens = tokens
        self.comma = False


def lifetimes_first(entries):
    """Lifetimes stand first, each with its comma where more follows; all others keep their commas."""
    lifetimes = [entry for entry in entries if entry.is_lifetime]
    others = [entry for entry in entries if not entry.is_lifetime]
    out = []
    for i, entry in enumerate(lifetimes):
        out += entry.tokens
        if entry.comma or others or i < len(lifetimes) - 1:
            out += marks(',')
    for entry in others:
        out += entry.tokens
        if entry.comma:
            out += marks(',')
    return out


class Form:
    """An expression as it was read: its tokens in normal form, and what decides what may stand beside it.

    `shape` is atom, prefix, postfix, infix, range, jump, closure or let. `level` is the level of an infix form.
    `ends_in_range`: its last operand is a range. `complete`: nothing of it is open at its end, as of a closure with a
    type or a jump without operand. `own_block`: it ends in a block of its own, so it needs no `;` or comma behind it.
    `attributed`: it is a range with attributes. `postfix_joins`: it ends with an attributed range, which a postfix
    behind it would join. `joins_above`: it ends with an attributed range, which operators above this level would join.
    """

    __slots__ = ('shape', 'tokens', 'level', 'ends_in_range', 'complete', 'own_block', 'attributed', 'postfix_joins',
                 'joins_above')

    def __init__(self, shape, tokens, level=0, ends_in_range=False, own_block=False):
        self.shape = shape
        self.tokens = tokens
        self.level = level
        self.ends_in_range = ends_in_range
        self.complete = False
        self.own_block = own_block
        self.attributed = False
        self.postfix_joins = False
        self.joins_above = None

    def ending_with(self, operand, level=None):
        """This form, which ends with an operand of some level; at none no operator joins what the operand is."""
        self.postfix_joins = operand.postfix_joins
        self.joins_above = level if operand.attributed else operand.joins_above
        return self

    def joined_by(self, level):
        """Whether an operator behind it would join the attributed range at its end: `=` joins `=` from the right."""
        above = self.joins_above
        return above is not None and (level > above or level == above == 2)

    def with_attributes(self, attributes):
        """This form behind its attributes: a range gets parentheses there."""
        if attributes and self.shape == 'range':
            self.tokens = [group('(', self.tokens)]
            self.attributed = True
            self.postfix_joins = True
            self.joins_above = None
        self.tokens = attributes + self.tokens
        return self


def in_parentheses(form):
    return Form('atom', [group('(', form.tokens, added=True)])


def hole():
    """Where a statement's attributes go: before its first token, within the parentheses that were added there."""
    return [Token(HOLE, '')]


def filled(tokens, attributes):
    """Tokens with attributes in their hole."""
    out = []
    for token in tokens:
        if token.kind == HOLE:
            out += attributes
        elif token.kind == GROUP and token.added:
            out.append(group(token.text, filled(token.inside, attributes), added=True))
        else:
            out.append(token)
    return out


def statement_tokens(form, attributes):
    """A statement's expression: its attributes are those of what begins it, but of a range they are as a whole."""
    if attributes and form.shape == 'range':
        return attributes + [group('(', filled(form.tokens, []))]
    return filled(form.tokens, attributes)
