"""Types and bounds. `plus` says whether bounds behind `dyn` and `impl` may have `+` between them."""
from paths import Seen
from reader import Reader


class Types(Reader):
    """A type is what its first token says; what begins with none of these is a path."""

    def type_(self, plus=True, seen=None):
        if self.at_group('('):
            return self.group('(', lambda inside: inside.listed(inside.type_))
        if self.at_group('['):
            return self.group('[', lambda inside: inside.slice_or_array())
        if self.at_marks('!'):
            return self.marks('!')
        if self.at_marks('&'):
            return self.marks('&') + self.optional_lifetime() + self.optional('mut') + self.type_(False)
        if self.at_marks('*'):
            return self.marks('*') + self.word('const', 'mut') + self.type_(False)
        if self.at_word('_'):
            return self.any_word()
        if self.at_word('dyn', 'impl'):
            return self.bounded_type(plus)
        if self.at_word('for', 'unsafe', 'extern', 'fn'):
            return self.function_pointer()
        if self.at_path():
            return self.type_path(Seen() if seen is None else seen)
        return self.refuse('a type')

    def slice_or_array(self):
        out = self.type_()
        if self.at_marks(';'):
            out += self.marks(';') + self.expression().tokens
        return out

    def bounded_type(self, plus):
        """`dyn` or `impl` and bounds, of which one at least is a path."""
        out = self.any_word()
        bounds, paths = self.bounds(plus)
        if paths == 0:
            self.refuse('a path among the bounds')
        return out + bounds

    def function_pointer(self):
        out = self.lifetimes_list() if self.at_word('for') else []
        out += self.optional('unsafe') + self.abi() + self.word('fn')
        out += self.group('(', lambda inside: inside.listed(inside.pointer_argument))
        return out + self.result(False)

    def pointer_argument(self):
        """An argument has a name where a `:` follows it that begins no `::`."""
        out = self.outer_attributes()
        if (self.at_ident() or self.at_word('_')) and self.at_colon(1):
            out += self.any_word() + self.marks(':')
        return out + self.type_()

    def result(self, plus=True):
        return self.marks('->') + self.type_(plus) if self.at_marks('->') else []

    def abi(self):
        if not self.at_word('extern'):
            return []
        out = self.any_word()
        return out + self.literal() if self.at_string() else out

    def lifetimes_list(self):
        """`for<'a: 'b, 'c>`: lifetimes alone."""
        return self.word('for') + self.parameters('lifetimes')

    def at_bound(self):
        return (self.at_lifetime() or self.at_marks('?') or self.at_word('for') or self.at_marks('::')
                or self.at_name())

    def bound(self):
        """A bound, and whether it is a path: a lifetime, or a path behind `?` or `for<..>` or neither."""
        if self.at_lifetime():
            return self.lifetime(), 0
        if self.at_marks('?'):
            return self.marks('?') + self.bound_path(), 1
        front = self.lifetimes_list() if self.at_word('for') else []
        return front + self.bound_path(), 1

    def bounds(self, plus=True):
        """Bounds with `+` between them and perhaps one behind, and how many are paths."""
        out, paths = self.bound()
        while plus and self.at_marks('+'):
            out += self.marks('+')
            if not self.at_bound():
                break
            bound, path = self.bound()
            out += bound
            paths += path
        return out, paths

    def optional_bounds(self):
        return self.bounds()[0] if self.at_bound() else []

    def colon_bounds(self):
        """`:` and bounds; without bounds normal form has no `:`."""
        if not self.at_marks(':'):
            return []
        colon = self.marks(':')
        found = self.optional_bounds()
        return colon + found if found else []
