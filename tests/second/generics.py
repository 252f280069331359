"""Generic parameters, those behind `impl`, and where clauses."""
from normal import Entry, lifetimes_first
from reader import Reader
from tokens import marks


class Generics(Reader):
    """Parameters are lifetimes, types and constants, told apart by what stands behind their attributes."""

    def lifetime_bounds(self):
        out = []
        while self.at_lifetime():
            out += self.lifetime()
            if not self.at_marks('+'):
                break
            out += self.marks('+')
        return out

    def lifetime_parameter(self):
        out = self.lifetime()
        if self.at_marks(':'):
            colon = self.marks(':')
            bounds = self.lifetime_bounds()
            out += colon + bounds if bounds else []
        return out

    def const_parameter(self):
        """A constant's default is a literal, an identifier or a block."""
        out = self.word('const') + self.ident() + self.marks(':') + self.type_()
        if not self.at_marks('='):
            return out
        out += self.marks('=')
        if self.at_literal():
            return out + self.literal()
        return out + (self.ident() if self.at_ident() else self.inner_block())

    def type_parameter(self):
        out = self.ident() + self.colon_bounds()
        return out + self.marks('=') + self.type_() if self.at_marks('=') else out

    def parameter(self, kind):
        attributes = self.outer_attributes()
        if self.at_lifetime():
            return Entry(True, attributes + self.lifetime_parameter())
        if kind == 'lifetimes':
            self.refuse('a lifetime')
        if self.at_word('const'):
            return Entry(False, attributes + self.const_parameter())
        return Entry(False, attributes + self.type_parameter())

    def parameters(self, kind='any'):
        """A list of parameters; where none is in it nothing is written, but behind `for` the empty list is."""
        self.marks('<')
        entries = self.entries(lambda: self.parameter(kind))
        self.marks('>')
        if not entries and kind == 'any':
            return []
        return marks('<') + lifetimes_first(entries) + marks('>')

    def generics(self):
        return self.parameters() if self.at_marks('<') else []

    def at_impl_parameters(self):
        """Behind `impl`, `<` begins parameters exactly if next comes `>`, `#`, `const`, or a lifetime or an identifier
        before `>`, a comma, `=` or a `:` that begins no `::`; else it begins a qualified path."""
        if not self.at_marks('<'):
            return False
        if self.at_marks('>', 1) or self.at_marks('#', 1) or self.at_word('const', ahead=1):
            return True
        if not self.at_lifetime(1) and not self.at_ident(1):
            return False
        behind = 3 if self.at_lifetime(1) else 2
        return any(self.at_marks(mark, behind) for mark in '>,=') or self.at_colon(behind)

    def ends_where(self):
        if self.at_end() or self.at_group('{') or self.at_colon():
            return True
        return any(self.at_marks(mark) for mark in ',;=')

    def predicate(self):
        """`'a: 'b + 'c`, or `for<'a> T: A + B`; either may have no bounds."""
        if self.at_lifetime():
            return self.lifetime() + self.marks(':') + self.lifetime_bounds()
        front = self.lifetimes_list() if self.at_word('for') else []
        return front + self.type_() + self.marks(':') + self.optional_bounds()

    def where(self):
        """It ends at the end, `{`, a comma, `;`, `=` or a `:` that begins no `::`; an empty one isn't written."""
        if not self.at_word('where'):
            return []
        front = self.any_word()
        out = []
        while not self.ends_where():
            out += self.predicate()
            if not self.at_marks(','):
                break
            out += self.marks(',')
        return front + out if out else []
