"""What stands at the next tokens, and how tokens are taken.

Each `at_..` looks, as many tokens ahead as it is told, and passes nothing. Each other method reads what it is named for
and gives its tokens as normal form has them, or refuses.
"""
from literals import is_string
from tokens import GROUP, LITERAL, MARK, WORD, Token, group, marks, word

KEYWORDS = frozenset('''abstract as async await become box break const continue crate do dyn else enum extern false
    final fn for if impl in let loop macro match mod move mut override priv pub ref return Self self static struct super
    trait true try type typeof unsafe unsized use virtual where while yield _'''.split())


class Refused(Exception):
    """A text has no program: what was wanted, and the place of the token that stands there, or None at the end."""

    def __init__(self, wanted, place):
        super().__init__(wanted, place)
        self.wanted = wanted
        self.place = place


class Reader:
    """Tokens of one list, and how many of them are read."""

    def __init__(self, tokens):
        self.tokens = tokens
        self.place = 0

    def refuse(self, wanted):
        token = self.token()
        raise Refused(wanted, None if token is None else token.place)

    # What stands there.

    def token(self, ahead=0):
        i = self.place + ahead
        return self.tokens[i] if 0 <= i < len(self.tokens) else None

    def at_end(self):
        return self.place >= len(self.tokens)

    def at_kind(self, kind, ahead=0):
        token = self.token(ahead)
        return token is not None and token.kind == kind

    def at_marks(self, text, ahead=0):
        """A punctuation: all its marks but the last are joint; what follows the last isn't looked at."""
        for i, mark in enumerate(text):
            token = self.token(ahead + i)
            if token is None or token.kind != MARK or token.text != mark:
                return False
            if i < len(text) - 1 and not token.joint:
                return False
        return True

    def at_dot(self, ahead=0):
        return self.at_marks('.', ahead) and not self.at_marks('..', ahead)

    def at_colon(self, ahead=0):
        return self.at_marks(':', ahead) and not self.at_marks('::', ahead)

    def at_range(self):
        return self.at_marks('..') and not self.at_marks('...')

    def at_word(self, *words, ahead=0):
        return self.at_kind(WORD, ahead) and self.token(ahead).text in words

    def at_ident(self, ahead=0):
        """An identifier that is no keyword."""
        return self.at_kind(WORD, ahead) and self.token(ahead).text not in KEYWORDS

    def at_name(self, ahead=0):
        """A path's name."""
        return self.at_ident(ahead) or self.at_word('self', 'super', 'crate', 'Self', ahead=ahead)

    def at_path(self):
        return self.at_marks('<') or self.at_marks('::') or self.at_name()

    def at_lifetime(self, ahead=0):
        return self.at_marks("'", ahead) and self.at_kind(WORD, ahead + 1)

    def at_literal(self, ahead=0):
        return self.at_kind(LITERAL, ahead) or self.at_word('true', 'false', ahead=ahead)

    def at_string(self, ahead=0):
        return self.at_kind(LITERAL, ahead) and is_string(self.token(ahead).text)

    def at_group(self, delimiter, ahead=0):
        return self.at_kind(GROUP, ahead) and self.token(ahead).text == delimiter

    def at_lifetimes_list(self, ahead=0):
        """`for` before a list of lifetimes, so no loop."""
        behind = self.at_lifetime(ahead + 2) or self.at_marks('>', ahead + 2)
        return self.at_word('for', ahead=ahead) and self.at_marks('<', ahead + 1) and behind

    # What is read.

    def marks(self, text):
        if not self.at_marks(text):
            self.refuse(text)
        self.place += len(text)
        return marks(text)

    def word(self, *words):
        """One of some words."""
        if not self.at_word(*words):
            self.refuse(' or '.join(words))
        return self.any_word()

    def any_word(self):
        self.place += 1
        return [word(self.tokens[self.place - 1].text)]

    def optional(self, *words):
        """One of some words, if one stands there."""
        return self.any_word() if self.at_word(*words) else []

    def ident(self):
        if not self.at_ident():
            self.refuse('an identifier')
        return self.any_word()

    def ident_or(self, *words):
        return self.any_word() if self.at_word(*words) else self.ident()

    def lifetime(self):
        if not self.at_lifetime():
            self.refuse('a lifetime')
        self.place += 1
        return [Token(MARK, "'", joint=True)] + self.any_word()

    def optional_lifetime(self):
        return self.lifetime() if self.at_lifetime() else []

    def literal(self):
        if not self.at_literal():
            self.refuse('a literal')
        token = self.token()
        self.place += 1
        return [Token(token.kind, token.text)]

    def group(self, delimiter, read):
        """A group, whose inside is read to its end by a function of a reader."""
        if not self.at_group(delimiter):
            self.refuse(delimiter)
        inside = type(self)(self.token().inside)
        found = read(inside)
        if not inside.at_end():
            inside.refuse('the end of the group')
        self.place += 1
        return [group(delimiter, found)]

    def raw_group(self):
        """A group of any tokens, which are kept as they are."""
        if not self.at_kind(GROUP):
            self.refuse('a group')
        self.place += 1
        return [self.tokens[self.place - 1]]

    def listed(self, read, ends=None):
        """Many, with commas between them and perhaps one behind, to the end or where `ends` says."""
        out = []
        while not self.at_end() and not (ends and ends()):
            out += read()
            if self.at_end() or (ends and ends()):
                break
            out += self.marks(',')
        return out

    def all_of(self, read):
        """Many, one behind the other, to the end."""
        out = []
        while not self.at_end():
            out += read()
        return out
