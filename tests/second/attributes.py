"""Attributes, and the names and indices of members."""
from literals import index_value
from reader import Reader
from tokens import GROUP, LITERAL, Token


class Attributes(Reader):
    """Outer attributes are read while `#` stands there, inner ones while `#` and `!` do."""

    def outer_attributes(self):
        out = []
        while self.at_marks('#'):
            out += self.marks('#') + self.group('[', lambda inside: inside.meta())
        return out

    def inner_attributes(self):
        out = []
        while self.at_marks('#') and self.at_marks('!', 1):
            out += self.marks('#') + self.marks('!') + self.group('[', lambda inside: inside.meta())
        return out

    def meta(self):
        """A path or `unsafe`, and then a group of raw tokens, or `=` and an expression that doesn't begin with `#`."""
        out = self.any_word() if self.at_word('unsafe') else self.module_path()
        if self.at_kind(GROUP):
            return out + self.raw_group()
        if not self.at_marks('='):
            return out
        out += self.marks('=')
        if self.at_marks('#'):
            self.refuse('an expression without attributes')
        return out + self.expression().tokens

    def index(self):
        """The value of the index that stands there, or None."""
        return index_value(self.token().text) if self.at_kind(LITERAL) else None

    def at_member(self):
        return self.at_ident() or self.index() is not None

    def member(self):
        """A name, or an index, which is written by its value."""
        if self.at_ident():
            return self.ident()
        value = self.index()
        if value is None:
            self.refuse('a member')
        self.place += 1
        return [Token(LITERAL, str(value))]
