"""Atoms and postfix forms of expressions, and what stands in their groups: blocks, arms, fields."""
from literals import index_value, is_float
from normal import Form, in_parentheses
from paths import Seen
from reader import Reader
from tokens import LITERAL, Token, marks


class Atoms(Reader):
    """`atom` gives a Form, and so does `postfix`; the methods of one kind give tokens."""

    def at_postfix(self):
        return self.at_dot() or self.at_marks('?') or self.at_group('(') or self.at_group('[')

    def postfix(self, form):
        """A form with all postfixes that stand behind it."""
        while self.at_postfix():
            if form.postfix_joins:
                form = in_parentheses(form)
            form = Form('postfix', form.tokens + self.one_postfix())
        return form

    def one_postfix(self):
        if self.at_marks('.'):
            return self.behind_dot(self.marks('.'))
        if self.at_marks('?'):
            return self.marks('?')
        if self.at_group('('):
            return self.group('(', lambda inside: inside.expressions())
        return self.group('[', lambda inside: inside.expression().tokens)

    def behind_dot(self, dot):
        """`await`, indices, a field, or a method with its call; only a method has arguments."""
        if self.at_word('await'):
            return dot + self.any_word()
        if self.at_kind(LITERAL) and is_float(self.token().text):
            return self.split_float()
        is_named = self.at_ident()
        out = dot + self.member()
        if is_named and self.at_marks('::'):
            out += self.arguments()
            if not self.at_group('('):
                self.refuse('the arguments of a call')
        if is_named and self.at_group('('):
            out += self.group('(', lambda inside: inside.expressions())
        return out

    def split_float(self):
        """A number with a dot behind a dot is two indices; a dot at its end is that of what follows."""
        first, dot, second = self.token().text.partition('.')
        out = []
        for text in [first, second] if second else [first]:
            value = index_value(text)
            if value is None:
                self.refuse('an index')
            out += marks('.') + [Token(LITERAL, str(value))]
        self.place += 1
        return out + self.behind_dot(marks('.')) if dot and not second else out

    # Atoms.

    def atom(self, condition):
        if self.at_literal():
            return Form('atom', self.literal())
        if self.at_group('('):
            return Form('atom', self.group('(', lambda inside: inside.expressions()))
        if self.at_group('['):
            return Form('atom', self.group('[', lambda inside: inside.array()))
        if self.at_word('_'):
            return Form('atom', self.any_word())
        if self.at_block_form():
            return Form('atom', self.block_form(), own_block=True)
        if self.at_word('async'):
            return Form('atom', self.any_word() + self.optional('move') + self.block())
        if self.at_word('continue'):
            return Form('atom', self.any_word() + self.optional_lifetime())
        if self.at_path():
            return Form('atom', self.path_atom(condition))
        return self.refuse('an expression')

    def array(self):
        """Elements, or an element, `;` and a length."""
        if self.at_end():
            return []
        out = self.expression().tokens
        if self.at_marks(';'):
            return out + self.marks(';') + self.expression().tokens
        return out if self.at_end() else out + self.marks(',') + self.expressions()

    def path_atom(self, condition):
        """A macro, whose path has no arguments; a struct, but in no condition; or a path."""
        seen = Seen()
        out = self.any_path('expression', seen)
        is_plain = not seen.qualified and not seen.has_arguments
        if is_plain and self.at_marks('!') and not self.at_marks('!='):
            return out + self.marks('!') + self.raw_group()
        if self.at_group('{') and not condition:
            return out + self.group('{', lambda inside: inside.field_values())
        return out

    def field_value(self):
        if self.at_ident() and not self.at_marks(':', 1):
            return self.ident()
        return self.member() + self.marks(':') + self.expression().tokens

    def field_values(self):
        """`..` with an expression perhaps is the last, without attributes and with nothing behind it."""
        out = []
        while not self.at_end():
            if self.at_marks('..'):
                out += self.marks('..')
                return out if self.at_end() else out + self.expression().tokens
            out += self.outer_attributes() + self.field_value()
            if self.at_end():
                break
            out += self.marks(',')
        return out

    # Forms that end in their own block.

    def at_block_form(self):
        if self.at_word('if', 'while', 'for', 'loop', 'match', 'try', 'unsafe', 'const'):
            return True
        return self.at_group('{') or self.at_lifetime()

    def block_form(self):
        if self.at_lifetime():
            return self.labelled()
        if self.at_group('{'):
            return self.inner_block()
        if self.at_word('unsafe', 'const'):
            return self.any_word() + self.inner_block()
        if self.at_word('try'):
            return self.any_word() + self.block()
        if self.at_word('if'):
            return self.if_form()
        return self.match_form() if self.at_word('match') else self.loop_form()

    def labelled(self):
        """A label stands before a block or a loop."""
        out = self.lifetime() + self.marks(':')
        if self.at_group('{'):
            return out + self.inner_block()
        if not self.at_word('loop', 'while', 'for'):
            self.refuse('a block or a loop')
        return out + self.loop_form()

    def loop_form(self):
        out = self.word('loop', 'while', 'for')
        if out[0].text == 'while':
            out += self.condition()
        if out[0].text == 'for':
            out += self.pattern() + self.word('in') + self.condition()
        return out + self.inner_block()

    def condition(self):
        return self.expression(0, True).tokens

    def if_form(self):
        out = self.word('if') + self.condition() + self.block()
        if not self.at_word('else'):
            return out
        out += self.any_word()
        return out + (self.if_form() if self.at_word('if') else self.block())

    def match_form(self):
        out = self.word('match') + self.condition()
        return out + self.group('{', lambda inside: inside.inner_attributes() + inside.arms())

    def arms(self):
        """An arm that doesn't end in its own block needs its comma, but for the last one."""
        out = []
        while not self.at_end():
            out += self.outer_attributes() + self.pattern()
            if self.at_word('if'):
                out += self.any_word() + self.expression().tokens
            out += self.marks('=>')
            body = self.arm_body()
            out += body.tokens
            if self.at_marks(','):
                out += self.marks(',')
            elif not body.own_block and not self.at_end():
                self.refuse('a comma')
        return out

    # Blocks.

    def block(self):
        """A block without attributes in it."""
        return self.group('{', lambda inside: inside.statements())

    def inner_block(self):
        return self.group('{', lambda inside: inside.inner_attributes() + inside.statements())
