"""Visibilities, signatures of functions and their parameters."""
from reader import Reader
from tokens import WORD, group, marks, word

RESTRICTIONS = ('crate', 'self', 'super')


class Functions(Reader):
    """`in_extern` says of a signature that it stands in an extern block, where `safe` may stand for `unsafe`."""

    def at_restriction(self):
        """A group of `crate`, `self` or `super` alone."""
        inside = self.token().inside
        return len(inside) == 1 and inside[0].kind == WORD and inside[0].text in RESTRICTIONS

    def visibility(self):
        """`pub`; a group behind it that is no restriction is a type's."""
        if not self.at_word('pub'):
            return []
        out = self.any_word()
        if not self.at_group('('):
            return out
        inside = self.token().inside
        if self.at_restriction():
            self.place += 1
            return out + [group('(', [word(inside[0].text)])]
        if inside and inside[0].kind == WORD and inside[0].text == 'in':
            return out + self.restricted_path()
        return out

    def restricted_path(self):
        return self.group('(', lambda inside: inside.word('in') + inside.module_path())

    def at_signature(self, in_extern=False):
        ahead = 1 if self.at_word('const') else 0
        ahead += self.at_word('async', ahead=ahead)
        ahead += self.at_word('unsafe', ahead=ahead) or (in_extern and self.at_word('safe', ahead=ahead))
        if self.at_word('extern', ahead=ahead):
            ahead += 1
            ahead += self.at_string(ahead)
        return self.at_word('fn', ahead=ahead)

    def signature(self, in_extern=False):
        out = self.optional('const') + self.optional('async')
        out += self.optional('unsafe', 'safe') if in_extern else self.optional('unsafe')
        out += self.abi() + self.word('fn') + self.ident() + self.generics()
        out += self.group('(', lambda inside: inside.function_parameters())
        return out + self.result() + self.where()

    def at_receiver(self):
        ahead = 0
        if self.at_marks('&'):
            ahead = 3 if self.at_lifetime(1) else 1
        ahead += self.at_word('mut', ahead=ahead)
        return self.at_word('self', ahead=ahead) and not self.at_marks('::', ahead + 1)

    def receiver(self):
        """`&self`, or `self` with a type perhaps."""
        if self.at_marks('&'):
            return self.marks('&') + self.optional_lifetime() + self.optional('mut') + self.word('self')
        out = self.optional('mut') + self.word('self')
        return out + self.marks(':') + self.type_() if self.at_marks(':') else out

    def variadic(self):
        """`...` is the last parameter, with a comma perhaps."""
        out = self.marks('...')
        return out + self.marks(',') if self.at_marks(',') else out

    def function_parameters(self):
        """A receiver is the first parameter; a name before `<` begins a type, which gets the pattern `_`."""
        out, is_first = [], True
        while not self.at_end():
            out += self.outer_attributes()
            if self.at_receiver():
                if not is_first:
                    self.refuse('no receiver')
                out += self.receiver()
            elif self.at_ident() and self.at_marks('<', 1):
                out += [word('_')] + marks(':') + self.type_()
            elif self.at_marks('...'):
                return out + self.variadic()
            else:
                out += self.alternative() + self.marks(':')
                if self.at_marks('...'):
                    return out + self.variadic()
                out += self.type_()
            is_first = False
            if self.at_end():
                break
            out += self.marks(',')
        return out
