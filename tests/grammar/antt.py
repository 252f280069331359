"""Translates the definitions of a crate's specs/, as they are written, into Python functions, each when it is first
asked for.

A constructor's value is a tuple of its name and its arguments. Numbers are ints, booleans are bools, lists are chains
of `Cons` that end in NIL, a record is a dict. A definition with n patterns becomes a function of n arguments; where it
is passed on, it takes them one at a time. A fact (`x ≡ y`, `A × B`, `⊥`) becomes the boolean that says whether it
holds, which is right for facts of values alone.
"""
import os
import re
from functools import partial


class Cons:
    __slots__ = ('h', 't', 'n')

    def __init__(self, head, tail):
        self.h, self.t, self.n = head, tail, tail.n + 1


class Nil:
    __slots__ = ('n',)

    def __init__(self):
        self.n = 0


NIL = Nil()


def chain(items, tail=NIL):
    for item in reversed(items):
        tail = Cons(item, tail)
    return tail


def items_of(cell):
    while cell.n:
        yield cell.h
        cell = cell.t


INTERNED = {}


def text_of(string):
    """The characters of a text; the same object for the same text."""
    if string not in INTERNED:
        INTERNED[string] = chain([ord(c) for c in string])
    return INTERNED[string]


def same(a, b):
    """Whether two values are one."""
    while True:
        if a is b:
            return True
        if isinstance(a, (Cons, Nil)) and isinstance(b, (Cons, Nil)):
            if a.n != b.n:
                return False
            while a.n:
                if not same(a.h, b.h):
                    return False
                a, b = a.t, b.t
                if a is b:
                    return True
            return True
        if isinstance(a, tuple) and isinstance(b, tuple):
            return len(a) == len(b) and all(same(x, y) for x, y in zip(a, b))
        if isinstance(a, dict) and isinstance(b, dict):
            return a.keys() == b.keys() and all(same(a[k], b[k]) for k in a)
        return type(a) is type(b) and a == b


def append(a, b):
    return b if not a.n else a if not b.n else chain(list(items_of(a)), b)


def mapped(f, xs):
    return chain([f(x) for x in items_of(xs)])


def flat_mapped(f, xs):
    return chain([y for x in items_of(xs) for y in items_of(f(x))])


def option_and_then(f, o):
    return f(o[1]) if o[0] == 'Some' else o


# The words of the standard library, by their names there: how many arguments they take, and what they do.
LIBRARY = {
    'not': (1, lambda a: not a), 'cond': (3, None), 'if◌then◌else◌': (3, None), '◌&&◌': (2, None), '◌||◌': (2, None),
    '◌==◌': (2, lambda a, b: a == b), 'nat_eq': (2, lambda a, b: a == b), 'nat_lt': (2, lambda a, b: a < b),
    'nat_le': (2, lambda a, b: a <= b), '◌+◌': (2, lambda a, b: a + b), '◌*◌': (2, lambda a, b: a * b),
    '◌-◌': (2, lambda a, b: max(a - b, 0)), 'min': (2, min), 'max': (2, max), 'pred': (1, lambda a: max(a - 1, 0)),
    '◌/◌': (2, lambda a, b: a // b if b else 0), '◌%◌': (2, lambda a, b: a % b if b else a),
    '◌^◌': (2, lambda a, b: a ** b),
    'length': (1, lambda a: a.n), '◌++◌': (2, append), 'codes': (1, text_of), 'bytes_eq': (2, same), 'map': (2, mapped),
    'list_any': (2, lambda f, xs: any(f(x) for x in items_of(xs))),
    'list_all': (2, lambda f, xs: all(f(x) for x in items_of(xs))),
    'flat_map': (2, flat_mapped), 'option_and_then': (2, option_and_then),
    'option_map': (2, lambda f, o: ('Some', f(o[1])) if o[0] == 'Some' else o),
    'unwrap_or': (2, lambda o, x: o[1] if o[0] == 'Some' else x),
    'is_some': (1, lambda o: o[0] == 'Some'), 'is_none': (1, lambda o: o[0] == 'None'),
    'reverse': (1, lambda a: chain(list(items_of(a))[::-1])),
    'take': (2, lambda n, a: chain(list(items_of(a))[:n])), 'drop': (2, lambda n, a: chain(list(items_of(a))[n:])),
    'filter': (2, lambda f, xs: chain([x for x in items_of(xs) if f(x)])),
    'fold': (3, lambda f, x, xs: fold(f, x, xs)),
    '◌≡◌': (2, same), '◌≢◌': (2, lambda a, b: not same(a, b)), '◌⊎◌': (2, None), '◌×◌': (2, None), '⊥': (0, False),
    'IsTrue': (1, lambda a: a), 'IsFalse': (1, lambda a: not a),
    'decimal': (1, lambda n: text_of(str(n))),
}
VALUES = {'true': 'True', 'false': 'False', 'zero': '0', '[]': 'NIL', '⊥': 'False', '⊤': 'True'}
BUILT = {'suc': 1, 'Some': 1, 'None': 0, '◌∷◌': 2, 'Ok': 1, 'Err': 1, 'tt': 0}
FIXITIES = {'◌∷◌': (67, 'r'), '◌++◌': (65, 'l'), '◌+◌': (65, 'l'), '◌-◌': (65, 'l'), '◌*◌': (70, 'l'), '◌/◌': (70, 'l'),
            '◌%◌': (70, 'l'), '◌^◌': (75, 'r'), '◌&&◌': (35, 'l'), '◌||◌': (30, 'l'), '◌==◌': (40, ''), '◌≡◌': (4, ''),
            '◌≢◌': (4, ''), '◌×◌': (2, 'r'), '◌⊎◌': (1, 'r'), 'if◌then◌else◌': (5, 'r')}


def fold(f, x, xs):
    for y in items_of(xs):
        x = f(x)(y)
    return x


class Fault(Exception):
    """A definition says something that is not translated."""


LEXEME = re.compile(r'"[^"]*"|[(){}\[\];,]|[^\s(){}\[\];,"]+')


def lexemes(text):
    out = []
    for m in LEXEME.finditer(text):
        t = m[0]
        spaced = m.start() == 0 or text[m.start() - 1] in ' \n'
        if t[0] == 'λ' and len(t) > 1:
            out += ['λ', t[1:]]
        elif t[0] == '.' and len(t) > 1 and not spaced:
            out.append('\x00' + t)  # a field of what stands before
        else:
            out.append(t)
    return out


def without_comment(line):
    quoted = False
    for i, c in enumerate(line):
        if c == '"':
            quoted = not quoted
        if not quoted and line.startswith('--', i) and (i == 0 or line[i - 1] == ' '):
            return line[:i].rstrip()
    return line.rstrip()


MODIFIERS = {'abbrev', 'unfoldable', 'pub'}


class Module:
    """What one file declares and takes from others."""

    def __init__(self, key, path):
        self.key, self.uses, self.aliases, self.local = key, {}, {}, {}
        self.constructors, self.functions, self.types, self.fixities = {}, {}, {}, {}
        lines = [without_comment(line) for line in open(path, encoding='utf8')]
        self.read(lines)

    def read(self, lines):
        items, i = [], 0
        while i < len(lines):
            line = lines[i]
            if not line:
                i += 1
                continue
            words = line.split()
            block = [line]
            i += 1
            while i < len(lines) and (not lines[i] or lines[i].startswith(' ')):
                if lines[i]:
                    block.append(lines[i])
                i += 1
            if words[-1] == 'mutual' and set(words[:-1]) <= MODIFIERS:
                self.read([b[2:] for b in block[1:]])
            else:
                items.append(block)
        for block in items:
            self.item(block)

    def item(self, block):
        line = block[0]
        words = line.split()
        rest = [w for w in words if w not in MODIFIERS]
        if 'use' in words[:2]:
            self.use(' '.join(b.strip() for b in block).split('use ', 1)[1])
        elif words[0] in ('infix', 'infixl', 'infixr'):
            for name in words[2:]:
                self.fixities[name] = (int(words[1]), words[0][5:])
        elif rest[0] == 'data':
            for b in block[1:]:
                m = re.match(r'\s+([^:]+) : (.*)$', b)
                for name in m[1].split():
                    self.constructors[name] = arity(m[2])
        elif rest[0] in ('record', 'unfolding', 'module', 'ruleset'):
            pass
        else:
            tokens = lexemes('\n'.join(block))
            depth, colon, equals = 0, None, None
            for n, t in enumerate(tokens):
                depth += (t in '([{') - (t in ')]}')
                if depth == 0 and t == ':' and colon is None and equals is None:
                    colon = n
                if depth == 0 and t == '=' and equals is None:
                    equals = n
            if colon is not None and (equals is None or colon < equals):
                tokens = [t for t in tokens[:colon] if t not in MODIFIERS]
                self.types[tokens[0]] = ' '.join(' '.join(block).split(' : ', 1)[1].split())
                self.functions.setdefault(tokens[0], [])
            elif equals is not None:
                self.functions.setdefault(None, []).append((tokens[:equals], tokens[equals + 1:]))

    def use(self, text):
        m = re.match(r'([^\s{]+)\.\{(.*)\}$', text)
        if m:
            for part in m[2].split(','):
                names = part.split()
                self.uses[names[-1]] = (m[1], names[0])
        else:
            m = re.match(r'(\S+)(?: as (\S+))?$', text)
            self.aliases[m[2] or m[1].split('.')[-1]] = m[1]


def arity(type_text):
    """How many arguments a constructor of this type takes."""
    count, depth, part = 0, 0, []
    for t in lexemes(type_text):
        depth += (t in '([{') - (t in ')]}')
        if depth == 0 and t == '→':
            count += binders(part)
            part = []
        else:
            part.append(t)
    return count


def binders(part):
    """The arguments of `(a b : T) (c : U)`, or the one of a type without names; what stands in braces is implicit."""
    count, depth, group = 0, 0, []
    for t in part:
        depth += (t in '([{') - (t in ')]}')
        group.append(t)
        if depth == 0 and group[0] in '({' and t in ')}':
            if ':' not in group and group[0] == '(':
                return 1
            count += group.index(':') - 1 if group[0] == '(' else 0
            group = []
    return count + (1 if group else 0)


class Expression:
    """Reads one expression or pattern in a module."""

    def __init__(self, world, module, tokens):
        self.world, self.module, self.t, self.i = world, module, tokens, 0

    def peek(self):
        return self.t[self.i] if self.i < len(self.t) else None

    def next(self):
        self.i += 1
        return self.t[self.i - 1]

    def eat(self, token):
        if self.peek() != token:
            raise Fault(f'{self.module.key}: wanted {token} in {" ".join(self.t)}')
        self.i += 1

    def operators(self):
        return self.world.operators(self.module)

    def whole(self):
        e = self.expression(0)
        if self.i != len(self.t):
            raise Fault(f'{self.module.key}: left over: {self.t[self.i:]} in {" ".join(self.t)}')
        return e

    def expression(self, least):
        infix, prefix = self.operators()
        left = self.application(prefix, infix)
        while True:
            t = self.peek()
            if t not in infix:
                return left
            name, (level, side) = infix[t]
            if level < least:
                return left
            self.next()
            right = self.expression(level if side == 'r' else level + 1)
            left = ('app', ('app', ('name', name), left), right)

    def application(self, prefix, infix):
        f = self.atom(prefix)
        while True:
            t = self.peek()
            if t is None or t in infix or t in self.stops() or (t in prefix and t != 'if'):
                return f
            if t[0] == '\x00':
                self.next()
                for field in t[2:].split('.'):
                    f = ('field', f, field)
                continue
            if t == '{':  # an implicit argument
                depth = 0
                while True:
                    depth += (self.peek() == '{') - (self.peek() == '}')
                    self.next()
                    if not depth:
                        break
                continue
            f = ('app', f, self.atom(prefix))

    def stops(self):
        return self.world.stops(self.module)

    def atom(self, prefix):
        t = self.next()
        if t == '(':
            parts = [self.expression(0)]
            while self.peek() == ',':
                self.next()
                parts.append(self.expression(0))
            self.eat(')')
            e = parts[0] if len(parts) == 1 else ('tuple', parts)
        elif t == '[':
            self.eat(']')
            e = ('name', '[]')
        elif t == 'λ':
            names = []
            while True:
                n = self.next()
                names.append(n.rstrip('.'))
                if n.endswith('.'):
                    break
            e = self.expression(0)
            for n in reversed(names):
                e = ('lambda', n, e)
            return e
        elif t == 'let':
            n = self.next()
            if self.peek() == ':':
                while self.peek() != '=':
                    self.next()
            self.eat('=')
            value = self.expression(0)
            self.eat('in')
            return ('let', n, value, self.expression(0))
        elif t == 'record':
            base = self.atom(prefix) if self.peek() != '{' else None
            self.eat('{')
            fields = []
            while self.peek() != '}':
                n = self.next()
                self.eat('=')
                fields.append((n, self.expression(0)))
                if self.peek() == ';':
                    self.next()
            self.eat('}')
            e = ('record', base, fields)
        elif t in prefix:
            name, keys, level = prefix[t]
            args = []
            for k in keys:
                args.append(self.expression(0))
                self.eat(k)
            args.append(self.expression(level))
            e = ('name', name)
            for a in args:
                e = ('app', e, a)
            return e
        elif t[0] == '"':
            e = ('string', t[1:-1])
        elif t.isdigit():
            e = ('number', int(t))
        elif '.' in t and t not in ('.', '..'):
            head, *fields = t.split('.')
            if head in self.module.aliases:
                e = ('external', self.module.aliases[head], fields[0])
                fields = fields[1:]
            else:
                e = ('name', head)
            for field in fields:
                e = ('field', e, field)
        else:
            e = ('name', t)
        while self.peek() is not None and self.peek()[0] == '\x00':
            for field in self.next()[2:].split('.'):
                e = ('field', e, field)
        return e


MEMO_BY_TEXT = re.compile(r'List ℕ → Bool$')
ENUMERATIONS = {'Position', 'Style', 'Plus', 'Place', 'Kind', 'Bool', 'String'}


class World:
    """All modules of the crates in a folder; `roots` has the specs/ of a crate that stands elsewhere."""

    def __init__(self, crates, roots):
        self.crates, self.roots, self.modules, self.known = crates, roots, {}, {}
        self.names, self.tables = {'NIL': NIL, 'Cons': Cons, 'partial': partial, 'same': same, 'text_of': text_of}, {}
        self.count, self.trees = 0, {}
        for name, (_, f) in LIBRARY.items():
            if f:
                self.names[self.library(name)] = f

    @staticmethod
    def library(name):
        return 'lib_' + ''.join(c if c.isascii() and c.isalnum() else f'_{ord(c):x}' for c in name)

    def path(self, key):
        crate, _, rest = key.partition('.specs.')
        crate = crate.split('.')[-1]
        root = self.roots.get(crate) or os.path.join(self.crates, crate, 'specs')
        return os.path.join(root, rest.replace('.', '/') + '.antt')

    def module(self, key):
        if key not in self.modules:
            self.modules[key] = Module(key, self.path(key))
            self.clauses(self.modules[key])
        return self.modules[key]

    def clauses(self, module):
        for left, right in module.functions.pop(None, []):
            e = Expression(self, module, left)
            e = e.whole()
            patterns = []
            while e[0] == 'app':
                patterns.append(e[2])
                e = e[1]
            name = e[1]
            if name not in module.functions:
                raise Fault(f'{module.key}: a clause of {name}, which is not declared')
            module.functions[name].append((patterns[::-1], right))

    @staticmethod
    def is_own(key):
        return key.startswith('Rattle.') and '.specs.' in key and not key.startswith(('Rattle.std', 'Rattle.core'))

    def resolve(self, module, name):
        """What a name says: a function or constructor of a module, or a word of the library."""
        if name in module.constructors or name in module.functions:
            return module, name
        if name in module.uses:
            key, original = module.uses[name]
            return self.external(key, original)
        return None, name

    def external(self, key, name):
        if '.declared.' in key:
            return 'variant', name
        if self.is_own(key):
            return self.resolve(self.module(key), name)
        return None, name

    def fixity(self, module, name):
        """The fixity of an operator in the module, or of what it takes from others."""
        where, original = self.resolve(module, name)
        if isinstance(where, Module):
            return where.fixities.get(original, (9, 'l')), original
        return FIXITIES.get(original, (9, 'l')), original

    def operators(self, module):
        if module.key not in self.tables:
            infix, prefix, words = {}, {}, set()
            names = {*module.functions, *module.constructors, *module.uses, *FIXITIES, *module.fixities}
            for name in names:
                if name is None or '◌' not in name:
                    continue
                parts = name.split('◌')
                level, _ = self.fixity(module, name) if name not in module.fixities else (module.fixities[name], name)
                if len(parts) == 3 and parts[0] == parts[2] == '':
                    infix[parts[1]] = (name, level)
                elif parts[0] and parts[-1] == '':
                    prefix[parts[0]] = (name, parts[1:-1], level[0])
                    words |= set(parts[1:-1])
            stops = words | {')', ']', '}', ',', ';', 'in', '=', '|', None}
            self.tables[module.key] = (infix, prefix, stops)
        return self.tables[module.key][:2]

    def stops(self, module):
        self.operators(module)
        return self.tables[module.key][2]

    # the functions

    def function(self, module, name):
        """The Python name and the number of arguments of a function."""
        key = (module.key, name)
        if key not in self.known:
            clauses = module.functions[name]
            if not clauses:
                raise Fault(f'{module.key}.{name} has no clauses')
            n = len(clauses[0][0])
            self.count += 1
            python = f'f{self.count}_' + re.sub(r'\W', '_', name)
            self.known[key] = (python, n)
            self.define(module, name, python, n, clauses)
        return self.known[key]

    def define(self, module, name, python, n, clauses):
        out = [f'def {python}({", ".join(f"a{i}" for i in range(n))}):', ' while True:']
        for patterns, right in clauses:
            if len(patterns) != n:
                raise Fault(f'{module.key}.{name}: clauses of {n} and of {len(patterns)} patterns')
            tests, binds = [], []
            for i, p in enumerate(patterns):
                self.pattern(module, p, f'a{i}', tests, binds)
            body = Expression(self, module, right).whole()
            scope = dict.fromkeys([b[0] for b in binds])
            scope = {v: f'v_{i}' for i, v in enumerate(scope)}
            lines = [f'{scope[v]} = {place}' for v, place in binds] + self.body(module, body, scope, (module, name, n))
            if tests:
                out.append(f'  if {" and ".join(tests)}:')
                out += ['   ' + line for line in lines]
            else:
                out += ['  ' + line for line in lines]
                break
        else:
            out.append(f'  raise LookupError({name!r}, {", ".join(f"a{i}" for i in range(n))})')
        exec('\n'.join(out), self.names)
        f = self.names[python]
        f.__doc__ = f'{module.key}.{name}'
        kind = module.types.get(name, '')
        if n == 0:
            self.names[python] = remembered(f)
        elif n == 1 and MEMO_BY_TEXT.search(kind) and kind.count('→') == 1:
            self.names[python] = by_argument(f)
        elif n == 1 and self.enumerated(kind):
            self.names[python] = by_argument(f)
        elif kind in ('Position → Tree → Tree', 'Tree → List Token'):
            self.names[python] = by_tree(f, self.trees)

    @staticmethod
    def enumerated(kind):
        first = kind.split('→')[0].strip()
        if first.startswith('('):
            first = first.strip('()').split(':')[-1].strip()
        return first in ENUMERATIONS

    def pattern(self, module, p, place, tests, binds):
        args = []
        while p[0] == 'app':
            args.append(p[2])
            p = p[1]
        args.reverse()
        if p[0] == 'tuple':
            for i, q in enumerate(p[1]):
                self.pattern(module, q, f'{place}[{i}]', tests, binds)
            return
        if p[0] == 'number':
            tests.append(f'{place} == {p[1]}')
            return
        if p[0] == 'external':
            where, name = self.external(p[1], p[2])
        else:
            where, name = self.resolve(module, p[1])
        if name == '◌∷◌':
            tests.append(f'{place}.n')
            self.pattern(module, args[0], f'{place}.h', tests, binds)
            self.pattern(module, args[1], f'{place}.t', tests, binds)
        elif where is None and name == '[]':
            tests.append(f'not {place}.n')
        elif where is None and name in ('true', 'false'):
            tests.append(place if name == 'true' else f'not {place}')
        elif where is None and name == 'zero':
            tests.append(f'{place} == 0')
        elif where is None and name == 'suc':
            tests.append(f'{place} > 0')
            self.pattern(module, args[0], f'({place} - 1)', tests, binds)
        elif (where == 'variant' or (isinstance(where, Module) and name in where.constructors)
              or (where is None and name in BUILT and (args or BUILT[name] == 0))):
            tests.append(f'{place}[0] == {name!r}')
            for i, q in enumerate(args):
                self.pattern(module, q, f'{place}[{i + 1}]', tests, binds)
        elif args:
            raise Fault(f'{module.key}: a pattern of {name}')
        elif p[1] != '_':
            binds.append((p[1], place))

    # expressions

    def spine(self, e):
        args = []
        while e[0] == 'app':
            args.append(e[2])
            e = e[1]
        return e, args[::-1]

    def target(self, module, head, scope):
        """What stands at the head of an application: a variable, a function, a constructor, a word of the library."""
        if head[0] == 'external':
            where, name = self.external(head[1], head[2])
        elif head[0] == 'name':
            if head[1] in scope:
                return 'variable', scope[head[1]], None
            where, name = self.resolve(module, head[1])
        else:
            return 'term', None, None
        if where == 'variant':
            return 'constructor', name, 0
        if isinstance(where, Module):
            if name in where.constructors:
                return 'constructor', name, where.constructors[name]
            return 'function', (where, name), None
        if name in VALUES:
            return 'value', VALUES[name], None
        if name in BUILT:
            return 'constructor', name, BUILT[name]
        if name in LIBRARY:
            return 'library', name, LIBRARY[name][0]
        raise Fault(f'{module.key}: unknown: {name}')

    def body(self, module, e, scope, this):
        """A function's body: calls of itself at its end go round the loop."""
        head, args = self.spine(e)
        if e[0] == 'let':
            inner = dict(scope)
            inner[e[1]] = f'l_{len(scope)}'
            return [f'{inner[e[1]]} = {self.term(module, e[2], scope)}'] + self.body(module, e[3], inner, this)
        if head[0] == 'name' and head[1] not in scope:
            where, name = self.resolve(module, head[1])
            if where is None and name in ('cond', 'if◌then◌else◌') and len(args) == 3:
                return ([f'if {self.term(module, args[0], scope)}:']
                        + [' ' + x for x in self.body(module, args[1], scope, this)] + ['else:']
                        + [' ' + x for x in self.body(module, args[2], scope, this)])
            if isinstance(where, Module) and (where, name, len(args)) == this and args:
                return [f'{", ".join(f"a{i}" for i in range(len(args)))} = '
                        f'{", ".join(self.term(module, a, scope) for a in args)}', 'continue']
        return [f'return {self.term(module, e, scope)}']

    def term(self, module, e, scope):
        kind = e[0]
        if kind == 'number':
            return str(e[1])
        if kind == 'string':
            return repr(e[1])
        if kind == 'tuple':
            return '(' + ', '.join(self.term(module, x, scope) for x in e[1]) + ',)'
        if kind == 'lambda':
            inner = dict(scope)
            inner[e[1]] = f'x_{len(scope)}' if e[1] != '_' else '_'
            return f'(lambda {inner[e[1]]}: {self.term(module, e[2], inner)})'
        if kind == 'let':
            inner = dict(scope)
            inner[e[1]] = f'l_{len(scope)}'
            return f'(lambda {inner[e[1]]}: {self.term(module, e[3], inner)})({self.term(module, e[2], scope)})'
        if kind == 'field':
            inner = self.term(module, e[1], scope)
            return f'{inner}[{e[2]}]' if e[2].isdigit() else f'{inner}[{e[2]!r}]'
        if kind == 'record':
            fields = ', '.join(f'{n!r}: {self.term(module, x, scope)}' for n, x in e[2])
            return '{' + (f'**{self.term(module, e[1], scope)}, ' if e[1] else '') + fields + '}'
        head, args = self.spine(e)
        if head == ('name', 'Unit'):
            return 'True'
        what, name, n = self.target(module, head, scope)
        terms = [self.term(module, a, scope) for a in args]
        if what == 'term':
            out = self.term(module, head, scope)
        elif what in ('variable', 'value'):
            out = name
        elif what == 'library' and len(terms) >= 2 and name in ('◌&&◌', '◌×◌'):
            return f'({terms[0]} and {terms[1]})'
        elif what == 'library' and len(terms) >= 2 and name in ('◌||◌', '◌⊎◌'):
            return f'({terms[0]} or {terms[1]})'
        elif what == 'library' and len(terms) >= 3 and name in ('cond', 'if◌then◌else◌'):
            out, terms = f'({terms[1]} if {terms[0]} else {terms[2]})', terms[3:]
        elif what == 'library' and len(terms) == 1 and name == 'not':
            return f'(not {terms[0]})'
        elif what == 'constructor' and name == '◌∷◌' and len(terms) == 2:
            return f'Cons({terms[0]}, {terms[1]})'
        elif what == 'constructor' and name == 'suc' and len(terms) == 1:
            return f'({terms[0]} + 1)'
        elif what == 'constructor' and len(terms) == n:
            return '(' + ', '.join([repr(name)] + terms) + ',)'
        else:
            if what == 'function':
                python, n = self.function(*name)
            elif what == 'library':
                python = self.library(name)
            else:
                python = self.maker(name, n)
            if len(terms) >= n:
                out, terms = f'{python}({", ".join(terms[:n])})', terms[n:]
            else:
                missing = n - len(terms)
                out = f'partial({", ".join([python] + terms)})' if terms or missing > 1 else python
                if missing > 1:
                    out = f'curried({missing}, {out})'
                    self.names['curried'] = curried
                return out
        for t in terms:
            out = f'{out}({t})'
        return out

    def maker(self, name, n):
        python = 'make_' + self.library(name)
        if name == '◌∷◌':
            self.names[python] = Cons
        elif name == 'suc':
            self.names[python] = lambda x: x + 1
        else:
            self.names[python] = lambda *args: (name,) + args
        return python

    def get(self, key, name):
        """A definition, as a Python function of all its arguments, or as its value where it has none."""
        where, original = self.resolve(self.module(key), name)
        python, n = self.function(where, original)
        f = self.names[python]
        return f if n else f()


def curried(n, f):
    return f if n == 1 else lambda x: curried(n - 1, partial(f, x))


def remembered(f):
    found = []

    def value():
        if not found:
            found.append(f())
        return found[0]
    return value


def by_tree(f, found):
    """Once for each tree of turns: a definition may name what it makes of the turns that are left more than once."""
    def value(*args):
        tree = args[-1]
        if tree[0] != 'Again':
            return f(*args)
        key = (f, args[:-1], id(tree))
        if key not in found:
            found[key] = (tree, f(*args))
        return found[key][1]
    return value


def by_argument(f):
    found = {}

    def value(x):
        if x not in found:
            found[x] = f(x)
        return found[x]
    return value
