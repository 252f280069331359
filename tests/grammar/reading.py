"""Runs the entries of the table on tokens: which tree a kind has of them, and what is left.

An entry is what the definitions compute for a kind: a value of `Gram`. Its tests, its verdicts and the tables of
expressions are the definitions' own, translated by antt.py. Only the walk along an entry is written here: it takes the
one way that the tests leave open.
"""
import sys
import threading

from antt import Cons, NIL, World, chain, items_of

SPECS = 'Rattle.syn_grammar.specs.'


class Refused(Exception):
    """No tree: with the tokens before which it was seen, and what was asked for."""

    def __init__(self, tokens, wanted):
        super().__init__(wanted)
        self.tokens, self.wanted = tokens, wanted


class Table:
    """The table of a crate's specs/, by the names that the definitions have."""

    def __init__(self, crates, specs=None):
        self.world = World(crates, {'syn_grammar': specs} if specs else {})
        self.entries = {}
        get = self.get
        self.table = get('Table', 'table')
        self.front, self.back = get('Forms', 'front'), get('Forms', 'back')
        self.has_right, self.goes_on = get('Forms', 'has_right'), get('Forms', 'goes_on')
        self.level, self.inside, self.chains = get('Forms', 'level'), get('Forms', 'inside'), get('Forms', 'chains')
        self.flat, self.normal, self.kept = get('Tree', 'flat'), get('Normal', 'normal'), get('Kept', 'kept')
        self.names, self.derives = get('Names', 'names'), get('Derives', 'Derives')

    def get(self, module, name):
        return self.world.get(SPECS + module, name)

    def output(self, tree):
        """The tokens of the normal form of what a syntax tree holds of a tree that was read."""
        self.world.trees.clear()
        return self.flat(self.normal(self.kept(tree)))

    def built(self, tokens):
        """Of an expression whose operands may stand between ‹ and ›: the tree in which they stand as they are."""
        tree, rest = self.kind(('Expression', ('Plain',)), tokens)
        return self.kept(without_groups(tree)), rest

    def is_derived(self, kind, tree, rest):
        """Whether the definition says that this is a tree of the kind where the rest follows."""
        return self.derives(tree, ('ref', kind), rest)

    def entry(self, kind):
        if kind not in self.entries:
            self.entries[kind] = self.table(kind)
        return self.entries[kind]

    def kind(self, kind, tokens):
        """The tree of a kind, and the tokens behind it."""
        x, rest = self.read(self.entry(kind), tokens)
        return ('Node', kind, x), rest

    def read(self, g, ts):
        return getattr(self, g[0])(g, ts)

    # the words of Gram

    def word(self, g, ts):
        if ts.n and ts.h[0] == 'Ident' and g[1](ts.h[1]):
            return ('AWord', ts.h[1]), ts.t
        raise Refused(ts, 'a word')

    def literal(self, g, ts):
        if ts.n and ts.h[0] == 'Literal' and g[1](ts.h[1]):
            return ('ALiteral', ts.h[1]), ts.t
        raise Refused(ts, 'a literal')

    def mark(self, g, ts):
        codes = [g[1]] + list(items_of(g[2]))
        at = ts
        for i, c in enumerate(codes):
            last = i == len(codes) - 1
            if not at.n or at.h[0] != 'Punct' or at.h[1] != c or (not last and at.h[2][0] != 'Joint'):
                raise Refused(ts, ''.join(map(chr, codes)))
            spacing, at = at.h[2], at.t
        return ('AMark', g[1], g[2], spacing), at

    def lifetime(self, g, ts):
        if ts.n > 1 and ts.h[0] == 'Punct' and ts.h[1] == 39 and ts.h[2][0] == 'Joint' and ts.t.h[0] == 'Ident':
            return ('ALifetime', ts.t.h[1]), ts.t.t
        raise Refused(ts, 'a lifetime')

    def raw(self, g, ts):
        return ('Raw', ts), NIL

    def nothing(self, g, ts):
        return ('Nil',), ts

    def never(self, g, ts):
        raise Refused(ts, 'nothing that may stand there')

    def seq(self, g, ts):
        firsts = []
        while g[0] == 'seq':
            x, ts = self.read(g[1], ts)
            firsts.append(x)
            g = g[2]
        y, ts = self.read(g, ts)
        for x in reversed(firsts):
            y = ('Pair', x, y)
        return y, ts

    def alt(self, g, ts):
        if g[1](ts):
            x, us = self.read(g[2], ts)
            return ('First', x), us
        x, us = self.read(g[3], ts)
        return ('Second', x), us

    def star(self, g, ts):
        turns = []
        while g[1](ts):
            x, ts = self.read(g[2], ts)
            turns.append(x)
        tree = ('End',)
        for x in reversed(turns):
            tree = ('Again', x, tree)
        return tree, ts

    def many(self, g, ts):
        elements, tree = [], ('End',)
        while not g[1](ts):
            x, ts = self.read(g[3], ts)
            if not (ts.n and ts.h[0] == 'Punct' and ts.h[1] == g[2]):
                tree = ('Final', x)
                break
            elements.append((x, ts.h[2]))
            ts = ts.t
        for x, spacing in reversed(elements):
            tree = ('More', x, g[2], spacing, tree)
        return tree, ts

    def group(self, g, ts):
        if not ts.n or ts.h[0] != 'Opens' or ts.h[1] != g[1]:
            raise Refused(ts, f'a group in {g[1][0]}')
        inside, depth, at = [], 0, ts.t
        while True:
            t = at.h
            if t[0] == 'Opens':
                depth += 1
            elif t[0] == 'Closes':
                if not depth:
                    break
                depth -= 1
            inside.append(t)
            at = at.t
        x, left = self.read(g[2], chain(inside))
        if left.n:
            raise Refused(left, 'the end of the group')
        return ('Group', g[1], x), at.t

    def judged(self, g, ts):
        x, us = self.read(g[2], ts)
        verdict = g[1](x)[0]
        if verdict == 'Refuse':
            raise Refused(ts, 'what its verdict keeps')
        return ('First' if verdict == 'Keep' else 'Verbatim', x), us

    def dropped(self, g, ts):
        x, us = self.read(g[1], ts)
        return ('Dropped', x), us

    def called(self, g, ts):
        x, us = self.read(g[2], ts)
        return ('Called', g[1], x), us

    def ref(self, g, ts):
        return self.kind(g[1], ts)

    # expressions

    def operand(self, g, ts):
        x, us = self.tower(g[1], g[2], ts)
        return ('Whole', x), us

    def tower(self, place, level, ts):
        k = self.front(place, ts)
        if k[0] == 'None':
            raise Refused(ts, 'an expression')
        k = k[1]
        y, us = self.read(self.entry(k), ts)
        if self.has_right(place, k, us):
            x, us = self.tower(self.inside(place, k), self.level(k), us)
            return self.climb(place, level, ('Front', k, y, x), us)
        return self.climb(place, level, ('Alone', k, y), us)

    def climb(self, place, level, left, ts):
        while self.goes_on(place, level, left, ts):
            k = self.back(place, ts)[1]
            if self.chains(left, k):
                raise Refused(ts, 'no second comparison')
            y, ts = self.read(self.entry(k), ts)
            if self.has_right(place, k, ts):
                r, ts = self.tower(self.inside(place, k), self.level(k), ts)
                left = ('Infix', left, k, y, r)
            else:
                left = ('Back', left, k, y)
        return left, ts


def without_groups(x):
    if not isinstance(x, tuple):
        return x
    if x[:2] == ('Alone', ('ExprGroup',)):
        whole = x[2][2][2]
        return without_groups(whole[1])
    return tuple(without_groups(y) for y in x)


def verbatims(tree):
    """How many items are kept raw in a tree; those in raw items aside."""
    count, todo = 0, [tree]
    while todo:
        x = todo.pop()
        if x[0] == 'Verbatim':
            count += 1
        elif x[0] != 'Raw':
            todo += [y for y in x[1:] if isinstance(y, tuple) and y and isinstance(y[0], str)]
    return count


def deeply(main, args):
    """The exit status of a program whose trees may be deep: `main` answers how much is wrong."""
    sys.setrecursionlimit(1000000)
    threading.stack_size(512 * 1024 * 1024)
    status = []
    worker = threading.Thread(target=lambda: status.append(main(args)))
    worker.start()
    worker.join()
    return 1 if not status or status[0] else 0
