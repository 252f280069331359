"""Patterns: one alternative by its first tokens, and alternatives with `|` between them."""
from literals import DIGITS
from paths import Seen
from reader import Reader
from tokens import LITERAL


class Patterns(Reader):
    """`pattern` is one with alternatives, `alternative` a single one."""

    def at_bar(self):
        return self.at_marks('|') and not self.at_marks('||') and not self.at_marks('|=')

    def pattern(self):
        out = self.marks('|') if self.at_bar() else []
        out += self.alternative()
        while self.at_bar():
            out += self.marks('|') + self.alternative()
        return out

    def patterns(self):
        return self.listed(self.pattern)

    def at_pattern_name(self):
        """An identifier names what it matches where no `::`, `(`, `{` or `..` follows; else it begins a path."""
        if self.at_word('ref', 'mut'):
            return True
        path = self.at_marks('::', 1) or self.at_group('(', 1) or self.at_group('{', 1) or self.at_marks('..', 1)
        return self.at_ident() and not path

    def alternative(self):
        if self.at_pattern_name():
            return self.named_pattern()
        if self.at_word('_'):
            return self.any_word()
        if self.at_range():
            return self.range_to()
        if self.at_group('('):
            return self.group('(', lambda inside: inside.patterns())
        if self.at_group('['):
            return self.group('[', lambda inside: inside.patterns())
        if self.at_marks('&'):
            return self.marks('&') + self.optional('mut') + self.alternative()
        return self.bound_pattern()

    def named_pattern(self):
        out = self.optional('ref') + self.optional('mut') + self.ident()
        if self.at_marks('!'):
            self.refuse('no macro')
        return out + self.marks('@') + self.alternative() if self.at_marks('@') else out

    def range_to(self):
        """`..=b`, `..b` or `..`, which is the rest."""
        if self.at_marks('..='):
            return self.marks('..=') + self.range_bound(Seen())
        return self.marks('..') + self.optional_range_bound()

    def at_range_bound(self):
        return self.at_literal() or self.at_marks('-') or self.at_path()

    def range_bound(self, seen):
        """A literal, `-` and a number, or a path."""
        if self.at_marks('-'):
            out = self.marks('-')
            if not self.at_kind(LITERAL) or self.token().text[0] not in DIGITS:
                self.refuse('a number')
            return out + self.literal()
        if self.at_literal():
            return self.literal()
        if self.at_path():
            return self.any_path('expression', seen)
        return self.refuse('a pattern')

    def optional_range_bound(self):
        return self.range_bound(Seen()) if self.at_range_bound() else []

    def bound_pattern(self):
        """A literal or a path, the range that it begins, or the tuple struct or struct of a path."""
        seen = Seen()
        out = self.range_bound(seen)
        if self.at_marks('..='):
            return out + self.marks('..=') + self.range_bound(Seen())
        if self.at_range():
            return out + self.marks('..') + self.optional_range_bound()
        if seen.is_path and self.at_group('('):
            return out + self.group('(', lambda inside: inside.patterns())
        if seen.is_path and self.at_group('{'):
            return out + self.group('{', lambda inside: inside.field_patterns())
        return out

    def field_pattern(self):
        if self.at_member() and self.at_marks(':', 1):
            return self.member() + self.marks(':') + self.pattern()
        return self.optional('ref') + self.optional('mut') + self.ident()

    def field_patterns(self):
        """`..` is the last one, and no comma stands behind it."""
        out = []
        while not self.at_end():
            out += self.outer_attributes()
            if self.at_marks('..'):
                return out + self.marks('..')
            out += self.field_pattern()
            if self.at_end():
                break
            out += self.marks(',')
        return out
