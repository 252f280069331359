"""How expressions bind: prefix forms, jumps, closures, and infix operators with their levels.

`condition` says that the expression stands before the brace of `if`, `while`, `match` or `for`: no brace belongs to it.
"""
from normal import Form, in_parentheses
from reader import Reader
from tokens import MARK

LEVELS = {'as': 14, '*': 13, '/': 13, '%': 13, '+': 12, '-': 12, '<<': 11, '>>': 11, '&': 10, '^': 9, '|': 8, '==': 7,
          '!=': 7, '<': 7, '<=': 7, '>': 7, '>=': 7, '&&': 5, '||': 4, '..': 3, '..=': 3, '=': 2, '+=': 2, '-=': 2,
          '*=': 2, '/=': 2, '%=': 2, '^=': 2, '&=': 2, '|=': 2, '<<=': 2, '>>=': 2}
ASSIGNMENT, RANGE, COMPARISON = 2, 3, 7
# The level of the operand of a jump or a closure, and of `let`, which takes no `&&`.
JUMP, LET = 1, 6
# Before these a range has no end.
END_RANGE = (',', ';', '?', '=', '+', '/', '%', '^', '>', '<=', '!=', '-=', '*=', '&=', '|=', '<<=')
# Marks that begin an expression, each with those that begin like it and begin none.
OPERAND_MARKS = (('!', ('!=',)), ('-', ('-=', '->')), ('*', ('*=',)), ('|', ('|=',)), ('&', ('&=',)), ('..', ()),
                 ('<', ('<=', '<<=')), ('::', ()), ('#', ()))


class Binding(Reader):
    """Each method that reads an expression gives a Form."""

    def expression(self, level=0, condition=False):
        """An expression that is the right operand of an operator of some level, or a whole one."""
        return self.infix(self.unit(condition), level, condition)

    def expressions(self):
        return self.listed(lambda: self.expression().tokens)

    def operator(self):
        """The longest operator that stands there, or None: its marks are joint; `=>` and `...` are none."""
        if self.at_word('as'):
            return 'as'
        for length in (3, 2, 1):
            found = [self.token(i) for i in range(length)]
            if any(token is None or token.kind != MARK for token in found):
                continue
            text = ''.join(token.text for token in found)
            if not all(token.joint for token in found[:-1]):
                continue
            if text in ('=>', '...'):
                return None
            if text in LEVELS:
                return text
        return None

    def infix(self, left, level, condition):
        """What begins with a form and goes on with operators above a level; assignments also with their own level."""
        while True:
            operator = self.operator()
            if operator is None or left.shape == 'range':
                return left
            next_level = LEVELS[operator]
            if not (next_level > level or next_level == level == ASSIGNMENT):
                return left
            self.check_left(left, next_level)
            if left.joined_by(next_level):
                left = in_parentheses(left)
            left = self.infix_form(left, operator, condition)

    def check_left(self, left, level):
        """What stands left of an operator binds as tightly, and of a comparison is no comparison; a form that a range
        ended may stand there whatever its level."""
        if left.shape == 'infix' and level == left.level == COMPARISON:
            self.refuse('no comparison behind a comparison')
        if left.ends_in_range or left.complete:
            return
        if left.shape == 'infix' and (left.level < level or level == left.level == ASSIGNMENT):
            self.refuse('no operator that binds tighter than what stands left of it')
        if left.shape == 'let' and level >= COMPARISON:
            self.refuse('no operator behind `let`')
        if left.shape in ('jump', 'closure'):
            self.refuse('no operator behind a jump or a closure')

    def infix_form(self, left, operator, condition):
        level = LEVELS[operator]
        if operator == 'as':
            return self.cast(left)
        out = left.tokens + self.marks(operator)
        if operator == '..' and self.ends_range(condition):
            return Form('range', out, level)
        right = self.expression(level, condition)
        if level == RANGE:
            return Form('range', out + right.tokens, level).ending_with(right, level)
        return Form('infix', out + right.tokens, level, right.shape == 'range').ending_with(right, level)

    def cast(self, left):
        """`as` and a type without plus, behind which no postfix stands."""
        out = left.tokens + self.word('as') + self.type_(False)
        if self.at_postfix():
            self.refuse('no postfix behind a cast')
        return Form('infix', out, LEVELS['as'])

    def ends_range(self, condition):
        """Whether a range has no end here."""
        if self.at_end() or self.at_word('as') or self.at_dot():
            return True
        return any(self.at_marks(text) for text in END_RANGE) or (condition and self.at_group('{'))

    def at_operand(self, condition, is_break):
        """Whether an expression begins here, as the operand of a jump; in a condition no brace is one of `break`."""
        if self.at_end() or self.at_word('as'):
            return False
        if self.token().kind != MARK:
            return not (condition and is_break and self.at_group('{'))
        if self.at_lifetime():
            return True
        for text, others in OPERAND_MARKS:
            if self.at_marks(text):
                return not any(self.at_marks(other) for other in others)
        return False

    def unit(self, condition):
        """An operand with its attributes, prefixes and postfixes."""
        attributes = self.outer_attributes()
        return self.plain_unit(condition).with_attributes(attributes)

    def plain_unit(self, condition):
        for prefix in '*!-':
            if self.at_marks(prefix):
                return self.prefixed(self.marks(prefix), condition)
        if self.at_marks('&'):
            return self.prefixed(self.marks('&') + self.reference(), condition)
        if self.at_range():
            return self.range_to_form(condition)
        if self.at_word('let'):
            return self.let_form(condition)
        if self.at_word('return', 'break', 'yield'):
            return self.postfix(self.jump(condition))
        if self.at_closure():
            return self.postfix(self.closure(condition))
        return self.postfix(self.atom(condition))

    def prefixed(self, front, condition):
        operand = self.unit(condition)
        return Form('prefix', front + operand.tokens).ending_with(operand)

    def reference(self):
        """`raw const`, `raw mut` or `mut` behind `&`; before anything else `raw` is a name."""
        if self.at_word('raw') and self.at_word('const', 'mut', ahead=1):
            return self.any_word() + self.any_word()
        return self.optional('mut')

    def range_to_form(self, condition):
        """`..=b`, `..b` or `..`."""
        if self.at_marks('..='):
            out = self.marks('..=')
        else:
            out = self.marks('..')
            if self.ends_range(condition):
                return Form('range', out)
        end = self.expression(RANGE, condition)
        return Form('range', out + end.tokens).ending_with(end, RANGE)

    def let_form(self, condition):
        out = self.word('let') + self.pattern() + self.marks('=')
        right = self.expression(LET, condition)
        return Form('let', out + right.tokens, LET, right.shape == 'range').ending_with(right, LET)

    def jump(self, condition):
        """`return`, `break` with a label perhaps, or `yield`; its operand stands in no condition."""
        is_break = self.at_word('break')
        out = self.any_word()
        if is_break and self.at_lifetime():
            out += self.lifetime()
            if self.at_marks(':'):
                self.refuse('no block with a label behind `break`')
        if not self.at_operand(condition, is_break):
            form = Form('jump', out, JUMP)
            form.complete = True
            return form
        operand = self.expression(JUMP, False)
        ends_in_range = operand.shape == 'range'
        return Form('jump', out + operand.tokens, JUMP, ends_in_range).ending_with(operand, JUMP)

    def at_closure(self):
        if self.at_marks('|') or self.at_word('static', 'move') or self.at_lifetimes_list():
            return True
        if self.at_word('const'):
            return not self.at_group('{', 1)
        if not self.at_word('async') or self.at_group('{', 1):
            return False
        return not (self.at_word('move', ahead=1) and self.at_group('{', 2))

    def closure_parameter(self):
        out = self.outer_attributes() + self.alternative()
        return out + self.marks(':') + self.type_() if self.at_marks(':') else out

    def closure(self, condition):
        """With a type behind `->` a closure's body is a block, and nothing of it is open."""
        out = self.lifetimes_list() if self.at_word('for') else []
        for modifier in ('const', 'static', 'async', 'move'):
            out += self.optional(modifier)
        out += self.marks('|')
        out += self.listed(self.closure_parameter, lambda: self.at_marks('|'))
        out += self.marks('|')
        if self.at_marks('->'):
            form = Form('closure', out + self.marks('->') + self.type_() + self.block(), JUMP)
            form.complete = True
            return form
        body = self.expression(JUMP, condition)
        return Form('closure', out + body.tokens, JUMP, body.shape == 'range').ending_with(body, JUMP)
