"""The definitions of crates/syn_grammar/specs, as they are written: entries, looks, lists of words. A script that
writes something of each entry reads it by this."""
import os
import re

CRATES = os.path.join(os.path.dirname(os.path.dirname(os.path.abspath(__file__))), 'crates')
SPECS = os.path.join(CRATES, 'syn_grammar', 'specs')
TOKEN = re.compile(r'"[^"]*"|[()▸∷∶\[\]]|[^\s()▸∷∶"\[\]]+')
INFIX = {'▸': 20, '∶': 21, 'then': 30, 'or': 25, '∷': 15}


class Reader:
    """Reads a term: a string, or a word with its arguments, ('word', [..]). A function is ('λ', [its text])."""

    def __init__(self, text):
        self.tokens, self.at = TOKEN.findall(text), 0

    def peek(self):
        return self.tokens[self.at] if self.at < len(self.tokens) else None

    def next(self):
        self.at += 1
        return self.tokens[self.at - 1]

    def expect(self, token):
        found = self.next()
        assert found == token, f'{token} in place of {found} in {" ".join(self.tokens)}'

    def term(self, level=0):
        if self.peek() == 'when':
            return self.choice()
        if self.peek() == 'λ':
            return self.function()
        left = self.application()
        while INFIX.get(self.peek(), -1) >= level:
            word = self.next()
            left = (word, [left, self.term(INFIX[word])])
        return left

    def choice(self):
        self.expect('when')
        look = self.term()
        self.expect('read')
        first = self.term()
        self.expect('else')
        return ('when', [look, first, self.term()])

    def function(self):
        depth, start = 0, self.at
        while self.peek() is not None and not (self.peek() in (')', ']') and depth == 0):
            depth += (self.peek() in '([') - (self.peek() in ')]')
            self.next()
        return ('λ', [' '.join(self.tokens[start:self.at])])

    def application(self):
        head, arguments = self.atom(), []
        while self.peek() not in (None, ')', ']', 'read', 'else', 'when') and self.peek() not in INFIX:
            arguments.append(self.atom())
        return (head[0], head[1] + arguments) if arguments else head

    def atom(self):
        token = self.next()
        if token == '(':
            inner = self.term()
            self.expect(')')
            return inner
        if token == '[':
            self.expect(']')
            return ('[]', [])
        return token[1:-1] if token.startswith('"') else (token, [])


def term(text):
    """The term that a text is."""
    reader = Reader(text)
    found = reader.term()
    assert reader.peek() is None, f'{reader.tokens[reader.at:]} is left over in {text}'
    return found


class Definition:
    """A definition: its name, its type, the words above it, and its clauses, each with what it takes and its text.
    Words that stand above none are one without a name."""

    def __init__(self, name, type_, words):
        self.name, self.type, self.words, self.clauses = name, type_, words, []


def definitions(file, specs=SPECS):
    """The definitions of a file, in their order."""
    found, words, current = [], [], None
    with open(f'{specs}/{file}.antt', encoding='utf8') as lines:
        text = lines.read()
    for line in [*text[text.index('\nuse '):].split('\n'), '']:
        signature = re.match(r"(?:abbrev|unfoldable) pub ([\w']+) : (.*)", line)
        clause = re.match(r"([a-z_]\w*'?)((?: [\w']+| \([^)]*\))*) =(?: (.*))?$", line)
        if line.startswith('--'):
            words.append(line[2:].strip())
        elif line.startswith('pub data'):
            words = []
        elif signature:
            current = Definition(signature[1], signature[2], ' '.join(words))
            found.append(current)
            words = []
        elif clause and current and clause[1] == current.name:
            current.clauses.append([re.findall(r'\([^)]*\)|\S+', clause[2]), clause[3] or ''])
        elif current and current.clauses and line.startswith(' '):
            current.clauses[-1][1] += ' ' + line.strip()
        elif not line and words:
            found.append(Definition(None, '', ' '.join(words)))
            words = []
    return found


def parameters():
    """What kinds have besides their name: of each such type its values; and of each kind the type, if it has one."""
    with open(f'{SPECS}/Kind.antt', encoding='utf8') as file:
        text = file.read()
    values = {it[1]: it[2].split() for it in re.finditer(r'pub data (\w+) : Type 0 where\n  ([\w ]+) : \1\n', text)}
    types = {name: it[2] for it in re.finditer(r'^  ([\w ]+) : (\w+) → Kind$', text, re.M) for name in it[1].split()}
    return values, types


def reserved():
    """The reserved words: the underscore, and the keywords."""
    keywords = definitions('Keywords', os.path.join(CRATES, 'rust_leaf', 'specs'))
    text = next(it for it in keywords if it.name == 'keywords').clauses[0][1]
    return ['_', *re.findall(r'codes "([^"]*)"', text)]
