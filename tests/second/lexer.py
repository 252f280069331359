"""The tokens of a text, by the lexical rules of the language in words."""
import unicodedata

from literals import character, literal_end, quoted_end, word_end
from tokens import CLOSING, GROUP, LITERAL, MARK, WORD, Token

MARKS = frozenset("~!@#$%^&*-=+|;:,<.>/?'")
# A word before these is the opening of a quoted literal that is at fault, so no word.
NO_WORDS = ('r"', 'b"', "b'", 'br"', 'br#', 'c"', 'cr"', 'cr#')
# `r#` makes no raw word of these.
NEVER_RAW = ('_', 'super', 'self', 'Self', 'crate')
ESCAPED = {'\t': r'\t', '\r': r'\r', '\n': r'\n', '"': r'\"', '\\': r'\\'}
# Categories of characters behind ASCII that a doc comment's literal has as escapes.
ESCAPED_CATEGORIES = ('Cc', 'Cf', 'Cn', 'Co', 'Mn', 'Me', 'Zl', 'Zp', 'Zs')


class Lexical(Exception):
    """No piece of a text begins at a place, or a group's delimiter there has no other."""

    def __init__(self, place):
        super().__init__(place)
        self.place = place


def is_white(c):
    """White characters of Unicode (Python counts four separators more), and the marks of direction."""
    return c in {'\u200e', '\u200f'} or (c.isspace() and c not in {'\x1c', '\x1d', '\x1e', '\x1f'})


def shebang_end(text):
    """Behind the shebang of a text: its first line, from `#!` on, if behind it and white characters stands one of that
    line that is no `[` and begins no comment. Where there is none, behind the byte order mark alone."""
    start = 1 if text.startswith('\ufeff') else 0
    line = text[start:].split('\n', 1)[0]
    command = line[2:]
    while command and is_white(command[0]):
        command = command[1:]
    is_one = line.startswith('#!') and command and not command.startswith(('[', '//', '/*'))
    return start + len(line) if is_one else start


def raw_word_end(text, i):
    """Behind the word whose `r#` ends at i, or None."""
    end = word_end(text, i)
    return None if end == i or text[i:end] in NEVER_RAW else end


def ident_end(text, i):
    """Behind an identifier, keyword or `_`, or None."""
    if text.startswith(NO_WORDS, i):
        return None
    if text.startswith('r#', i):
        return raw_word_end(text, i + 2)
    end = word_end(text, i)
    return end if end > i else None


def quote_mark(text, i):
    """Whether the quote at i is a lifetime's: a word behind it, and no quote behind that; behind a plain one no `#`."""
    end = raw_word_end(text, i + 3) if text.startswith("'r#", i) else None
    raw = end is not None
    if not raw:
        end = word_end(text, i + 1)
    if end == i + 1 or character(text, end) == "'":
        return False
    return raw or character(text, end) != '#'


def is_mark(text, i):
    """Whether a mark stands at i: a comment's front is none."""
    c = character(text, i)
    if c not in MARKS or text.startswith(('//', '/*'), i):
        return False
    return c != "'" or quote_mark(text, i)


def is_joint(text, i):
    """Whether the mark at i stands directly before another mark or a literal's `'`; a lifetime's quote is joint."""
    if text[i] == "'" or is_mark(text, i + 1):
        return True
    return character(text, i + 1) == "'" and quoted_end(text, i + 1) is not None


def block_end(text, i):
    """Behind a block comment, in which others may stand, or None."""
    depth = 0
    while i < len(text):
        if text.startswith('/*', i):
            depth, i = depth + 1, i + 2
        elif text.startswith('*/', i):
            depth, i = depth - 1, i + 2
            if depth == 0:
                return i
        else:
            i += 1
    return None


def escaped(text, i):
    """The character at i of a doc comment as its string literal has it: a NUL before an octal digit is `\\x00`."""
    c = text[i]
    if c == '\0':
        return r'\x00' if text[i + 1:i + 2] in list('01234567') else r'\0'
    if c in ESCAPED:
        return ESCAPED[c]
    if ord(c) < 0x20 or c == '\x7f' or (ord(c) > 0x7f and unicodedata.category(c) in ESCAPED_CATEGORIES):
        return '\\u{%x}' % ord(c)
    return c


def doc(text, inner, place):
    """The tokens of a doc comment: the attribute of its text. No carriage return stands alone in it."""
    if '\r' in text.replace('\r\n', ''):
        raise Lexical(place)
    literal = '"' + ''.join(escaped(text, i) for i in range(len(text))) + '"'
    inside = [Token(WORD, 'doc', place=place), Token(MARK, '=', place=place), Token(LITERAL, literal, place=place)]
    front = '#!' if inner else '#'
    return [Token(MARK, mark, place=place) for mark in front] + [
        Token(GROUP, '[', place=place, inside=inside, end=place)]


class Lexer:
    """A walk through a text: the groups that are open, and the tokens of the innermost one."""

    def __init__(self, text):
        self.text = text
        self.place = shebang_end(text)
        self.open = []
        self.tokens = []

    def here(self, *fronts):
        return self.text.startswith(fronts, self.place)

    def line_comment(self):
        """To the line's end: `///` without a fourth `/` and `//!` are docs, without the carriage return at the end."""
        text, start = self.text, self.place
        outer = self.here('///') and not self.here('////')
        inner = self.here('//!')
        end = text.find('\n', start)
        if end < 0:
            end = len(text)
        self.place = end
        if outer or inner:
            stop = end - 1 if end < len(text) and end - 1 >= start + 3 and text[end - 1] == '\r' else end
            self.tokens += doc(text[start + 3:stop], inner, start)

    def block_comment(self):
        """`/**` without a third `*` or a `/` behind it and `/*!` are docs."""
        text, start = self.text, self.place
        outer = self.here('/**') and not self.here('/***', '/**/')
        inner = self.here('/*!')
        end = block_end(text, start)
        if end is None:
            raise Lexical(start)
        if outer or inner:
            self.tokens += doc(text[start + 3:end - 2], inner, start)
        self.place = end

    def opening(self):
        self.open.append((self.tokens, self.text[self.place], self.place))
        self.tokens = []
        self.place += 1

    def closing(self):
        if not self.open or CLOSING[self.open[-1][1]] != self.text[self.place]:
            raise Lexical(self.place)
        outside, delimiter, start = self.open.pop()
        outside.append(Token(GROUP, delimiter, place=start, inside=self.tokens, end=self.place))
        self.tokens = outside
        self.place += 1

    def leaf(self):
        """A literal, else a mark, else a word."""
        text, start = self.text, self.place
        end, kind, joint = literal_end(text, start), LITERAL, False
        if end is None and is_mark(text, start):
            end, kind, joint = start + 1, MARK, is_joint(text, start)
        if end is None:
            end, kind = ident_end(text, start), WORD
        if end is None:
            raise Lexical(start)
        self.tokens.append(Token(kind, text[start:end], joint, start))
        self.place = end

    def piece(self):
        c = self.text[self.place]
        if is_white(c):
            self.place += 1
        elif self.here('//'):
            self.line_comment()
        elif self.here('/*'):
            self.block_comment()
        elif c in CLOSING:
            self.opening()
        elif c in CLOSING.values():
            self.closing()
        else:
            self.leaf()

    def all(self):
        while self.place < len(self.text):
            self.piece()
        if self.open:
            raise Lexical(self.open[-1][2])
        return self.tokens


def lex(text):
    """The tokens of a text, or Lexical."""
    return Lexer(text).all()
