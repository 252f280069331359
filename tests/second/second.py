"""The second implementation: what it answers of a text."""
from atoms import Atoms
from attributes import Attributes
from binding import Binding
from functions import Functions
from generics import Generics
from items import Items
from lexer import Lexical, lex, shebang_end
from members import Members
from paths import Paths
from patterns import Patterns
from reader import Refused
from statements import Statements
from tokens import written
from type_forms import Types


class Parser(Items, Members, Functions, Statements, Binding, Atoms, Patterns, Generics, Types, Paths, Attributes):
    """A reader of all forms."""


class Answer:
    """Accepted with an output, or a lexical fault at a place, or a syntax fault near one (None at the end) that wanted
    something."""

    def __init__(self, kind, output=None, place=None, wanted=None):
        self.kind = kind
        self.output = output
        self.place = place
        self.wanted = wanted

    def __str__(self):
        if self.kind == 'accepted':
            return self.output
        if self.kind == 'lexical':
            return f'lexical fault at character {self.place}'
        return f'{self.kind}: {self.wanted}, at character {self.place}'


def answer(text):
    """What a text is answered: its output, or its fault."""
    try:
        tokens = lex(text)
        shebang = text[:shebang_end(text)].lstrip('\ufeff')
        return Answer('accepted', (shebang and shebang + '\n') + written(Parser(tokens).file()))
    except Lexical as fault:
        return Answer('lexical', place=fault.place)
    except Refused as fault:
        return Answer('syntax', place=fault.place, wanted=fault.wanted)
