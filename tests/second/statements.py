"""Statements, and expressions where a form that ends in its own block is all of them."""
from normal import hole, statement_tokens
from reader import Reader
from tokens import MARK, Raw, Token

# Words that begin an item, whatever follows.
ITEM_WORDS = ('pub', 'extern', 'use', 'fn', 'mod', 'type', 'struct', 'enum', 'trait', 'impl', 'macro')


class Statements(Reader):
    """A statement is read behind its attributes."""

    def statements(self):
        """Lone semicolons, and statements; one that needs a `;` and has none is the last."""
        out, behind_raw = [], False
        while True:
            while self.at_marks(';'):
                out += self.marks(';')
                behind_raw = False
            if self.at_end():
                return out
            found, is_last = self.statement()
            if behind_raw and found[0].added:
                unjoin(out)
            behind_raw = isinstance(found, Raw)
            out += found
            if self.at_end():
                return out
            if is_last:
                self.refuse(';')

    def statement(self):
        """The tokens of a statement, and whether none may stand behind it.

        A macro with a name is an item, a macro with braces a statement by itself, then `let`, then an item by its first
        words, then an expression.
        """
        start = self.place
        attributes = self.outer_attributes()
        bang = self.macro_bang()
        is_item = bang is not None and (self.at_ident(bang + 1) or self.at_word('try', ahead=bang + 1))
        if bang is not None and not is_item and self.at_brace_macro(bang):
            return attributes + self.brace_macro(), False
        if self.at_word('let'):
            return attributes + self.local(), False
        if is_item or self.at_item():
            self.place = start
            return self.item(), False
        return self.expression_statement(attributes)

    def macro_bang(self):
        """How many tokens ahead the `!` behind a path of a module stands, or None."""
        ahead = 2 if self.at_marks('::') else 0
        if not self.at_name(ahead):
            return None
        ahead += 1
        while self.at_marks('::', ahead):
            if not self.at_name(ahead + 2):
                return None
            ahead += 3
        return ahead if self.at_marks('!', ahead) else None

    def at_brace_macro(self, bang):
        """Behind the braces a dot (not `..`) or `?` goes on with an expression."""
        goes_on = self.at_dot(bang + 2) or self.at_marks('?', bang + 2)
        return self.at_group('{', bang + 1) and not goes_on

    def brace_macro(self):
        out = self.module_path() + self.marks('!') + self.raw_group()
        return out + self.marks(';') if self.at_marks(';') else out

    def local(self):
        """`let`; behind a group in braces no `else` is read."""
        out = self.word('let') + self.alternative()
        if self.at_marks(':'):
            out += self.marks(':') + self.type_()
        if self.at_marks('='):
            out += self.marks('=') + self.expression().tokens
            if self.at_word('else') and not self.at_group('{', -1):
                out += self.any_word() + self.block()
        return out + self.marks(';')

    def at_item(self):
        """Whether an item begins here, by its first words."""
        if self.at_word(*ITEM_WORDS) or (self.at_word('crate') and not self.at_marks('::', 1)):
            return True
        if self.at_word('static'):
            return self.at_word('mut', ahead=1) or self.at_ident(1)
        if self.at_word('const'):
            return self.at_const_item()
        if self.at_word('unsafe'):
            return not self.at_group('{', 1)
        if self.at_word('async'):
            return self.at_word('unsafe', 'extern', 'fn', ahead=1)
        if self.at_word('union'):
            return self.at_ident(1)
        if self.at_word('auto'):
            return self.at_word('trait', ahead=1)
        return self.at_word('default') and self.at_word('unsafe', 'impl', ahead=1)

    def at_const_item(self):
        """Whether `const` begins no block and no closure."""
        if self.at_group('{', 1) or self.at_word('static', 'move', ahead=1) or self.at_marks('|', 1):
            return False
        return not self.at_word('async', ahead=1) or self.at_word('unsafe', 'extern', 'fn', ahead=2)

    def expression_statement(self, attributes):
        form = self.ended_expression(hole())
        out = statement_tokens(form, attributes)
        if self.at_marks(';'):
            return out + self.marks(';'), False
        return out, not form.own_block

    def arm_body(self):
        return self.ended_expression(self.outer_attributes(), is_arm=True)

    def ended_expression(self, attributes, is_arm=False):
        """An expression behind its attributes, of which a form that ends in its own block is all, unless `.` or `?`
        follows; `let` begins no statement."""
        if self.at_block_form() and not self.at_closure():
            form = self.atom(False).with_attributes(attributes)
            if not self.at_dot() and not self.at_marks('?'):
                return form
            return self.infix(self.postfix(form), 0, False)
        form = self.unit(False)
        if is_arm:
            form.with_attributes(attributes)
        elif form.shape == 'let':
            self.refuse('no `let`')
        else:
            form.tokens = attributes + form.tokens
        return self.infix(form, 0, False)


def unjoin(tokens):
    """The last mark of a raw item isn't joint where parentheses were put behind it."""
    if tokens[-1].kind == MARK:
        tokens[-1] = Token(MARK, tokens[-1].text)
