"""Paths, their arguments, and qualified paths."""
from normal import Entry, lifetimes_first
from reader import Reader

# Their last segments decide what may follow: these take no arguments.
WITHOUT_ARGUMENTS = ('self', 'super', 'crate')


class Seen:
    """What is known of a path behind its last segment."""

    def __init__(self):
        self.is_path = False
        self.qualified = False
        self.has_arguments = False
        self.takes_parentheses = False


class Paths(Reader):
    """A path is in an expression's style (arguments behind `::` alone) or in a type's (directly behind a name, too)."""

    def path_name(self):
        if not self.at_name():
            self.refuse('a name')
        return self.any_word()

    def module_path(self):
        """A path without arguments."""
        out = self.marks('::') if self.at_marks('::') else []
        out += self.path_name()
        while self.at_marks('::'):
            out += self.marks('::') + self.path_name()
        return out

    def at_arguments(self, style):
        """In a type `<` begins arguments unless it begins `<=`."""
        if self.at_marks('::') and self.at_marks('<', 2):
            return True
        return style == 'type' and self.at_marks('<') and not self.at_marks('<=')

    def segment(self, style, seen):
        out = self.path_name()
        takes = not self.at_word(*WITHOUT_ARGUMENTS, ahead=-1)
        seen.takes_parentheses = takes
        if takes and self.at_arguments(style):
            out += self.arguments()
            seen.has_arguments = True
            seen.takes_parentheses = False
        return out

    def segments(self, style, seen):
        out = self.segment(style, seen)
        while self.at_marks('::'):
            out += self.marks('::') + self.segment(style, seen)
        return out

    def path(self, style, seen):
        out = self.marks('::') if self.at_marks('::') else []
        return out + self.segments(style, seen)

    def qualified_path(self, style, seen):
        """`<T>::B`, `<T as A>::B`."""
        seen.qualified = True
        out = self.marks('<') + self.type_()
        if self.at_word('as'):
            out += self.word('as') + self.path('type', Seen())
        return out + self.marks('>') + self.marks('::') + self.segments(style, seen)

    def any_path(self, style, seen):
        """Where a path begins with `<` it is qualified."""
        seen.is_path = True
        return self.qualified_path(style, seen) if self.at_marks('<') else self.path(style, seen)

    def parenthesised(self, seen):
        """`(A, B) -> C` behind a last segment without other arguments; the result is without plus."""
        if not seen.takes_parentheses or not self.at_group('('):
            return []
        return self.group('(', lambda inside: inside.listed(inside.type_)) + self.result(False)

    def bound_path(self):
        seen = Seen()
        return self.path('type', seen) + self.parenthesised(seen)

    def type_path(self, seen):
        return self.any_path('type', seen) + self.parenthesised(seen)

    def argument(self):
        """A lifetime, a literal, a block, `Ident = Type`, or a type."""
        if self.at_lifetime():
            return Entry(True, self.lifetime())
        if self.at_literal():
            return Entry(False, self.literal())
        if self.at_group('{'):
            return Entry(False, self.inner_block())
        if self.at_ident() and self.at_marks('=', 1):
            return Entry(False, self.ident() + self.marks('=') + self.type_())
        return Entry(False, self.type_())

    def entries(self, read):
        """Arguments or parameters with commas between them, to their `>`."""
        out = []
        while not self.at_marks('>'):
            out.append(read())
            if self.at_marks('>'):
                break
            self.marks(',')
            out[-1].comma = True
        return out

    def arguments(self):
        out = self.marks('::') if self.at_marks('::') else []
        out += self.marks('<')
        out += lifetimes_first(self.entries(self.argument))
        return out + self.marks('>')
