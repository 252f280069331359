"""What is known of an entry by what tokens begin with, and the proof of it: whether it may have no token, what may not
follow it, what it begins with."""
from kinds import ARMS, BEHIND, BESIDES, KINDS, NAME, POSITIONS, SKIPS, STARTS, shown
from looks import BOOLS, DEFINITIONS, NOT_RAW, PATH_KEYWORDS, RESERVED
from looks import Sight, body, is_never_seen, listed, show, texts_of
import entries

# Tests of more than first tokens, and where what they see is proved: the proof that it is seen, that it isn't, and
# what may not follow besides, whose place a proof names behind a @.
BY_HAND = {
    'all_attributes then a_lifetime':
        ('(λ x s d c. lifetime_param_seen x s d)', '(λ x s d c. no_lifetime_seen x s d)', []),
    'an_ident then no (marks ":")':
        ('(λ x s d c. short_seen x s d @marks ":")', '(λ x s d c. no_short_seen x s d)', ['marks ":"']),
    '(an_ident or a_quoted is_index) then marks ":"':
        ('(λ x s d c. member_seen x s d)', '(λ x s d c. no_member_seen x s d @marks ":")', ['marks ":"']),
    'all_attributes then at "const"':
        ('(λ x s d c. (const_param_seen x s d).1)', '(λ x s d c. (type_param_seen x s d).1)', []),
}
BY_HAND_HOMES = {'found_restriction': 'HandSteps', 'short_seen': 'FieldNames', 'no_short_seen': 'FieldNames',
                 'member_seen': 'FieldNames', 'no_member_seen': 'FieldNames', 'lifetime_param_seen': 'Params',
                 'const_param_seen': 'Params', 'type_param_seen': 'Params', 'no_lifetime_seen': 'Params'}
# The words of which proofs say whether they are reserved, with the names of these lemmas.
KEYWORDS = {}
# What has no token, and says so by no look.
NOTHING = 'nothing'


class Undecided(Exception):
    """First tokens don't decide."""


class Entry:
    """What is known of an entry: whether it may have no token, the looks that may not see what follows it, the classes
    that it begins with, and the proof."""

    def __init__(self, may_skip, behind, starts, proof):
        self.may_skip, self.behind, self.starts, self.proof = may_skip, behind, starts, proof

    def front(self):
        """How lemmas of such an entry begin their names."""
        return 'maybe' if self.may_skip else 'found'


def keyword(text):
    """The lemma that a word is reserved, or isn't."""
    name = {'_': 'underscore', 'Self': 'big_self'}.get(text, text)
    KEYWORDS[text] = ('reserved_' if text in RESERVED else 'free_') + name
    return KEYWORDS[text]


def nested(proofs):
    """A proof of several facts: (a, (b, tt))."""
    return '(' + ', ('.join(proofs) + ', tt' + ')' * len(proofs) if proofs else 'tt'


def union(one, other):
    names = [show(it) for it in one]
    return one + [it for it in other if show(it) not in names]


def covers(more, looks):
    """The proof that what lacks the ones lacks the others, which are among them."""
    if not looks:
        return 'λ s a. tt'
    names = [show(it) for it in more]
    return 'λ s a. ' + nested(['a' + '.1' * names.index(show(it)) + '.0' for it in looks])


def weakened(entry, looks):
    """The proof of an entry with more that may not follow."""
    if entry.proof == 'found_never' or [show(it) for it in entry.behind] == [show(it) for it in looks]:
        return entry.proof
    word = 'weaken_maybe' if entry.may_skip else 'weaken'
    return f'({word} ({listed(show(it, False) for it in looks)}) {entry.proof} ({covers(looks, entry.behind)}))'


def told_at(look, is_seen, it):
    """The proof that a look is seen at a class, or isn't."""
    sight = Sight()
    sees = sight.sees(look, it)
    if sees is not is_seen:
        raise Undecided(f'{show(look)} at {it}' if sees is None else f'{show(look)} is {sees} at {it}')
    while it[0] == 'then':
        it = it[2]
    asked = list(dict.fromkeys(sight.asked))
    if it[0] == 'raw':
        return f"λ us h. h.{NOT_RAW.index(show(look).strip('()'))}"
    if it[0] == 'tick':
        return 'λ cs us. refl'
    if it[0] == 'lit':
        return 'λ cs h us. refl' if it[1] == 'any_text' or not is_seen else 'λ cs h us. simp h refl'
    if it[0] == 'ident':
        facts = [f'ident_not (codes "{word}") cs {keyword(word)} h' for word in asked if word in RESERVED]
        facts += ['h'] if 'itself' in asked else []
        return f'λ cs h us. simp ({", ".join(facts)}) refl' if facts else 'λ cs h us. refl'
    facts = [keyword(word[1:]) for word in asked if word[0] == '=']
    return f'λ us. simp ({", ".join(facts)}) refl' if facts else 'λ us. refl'


def all_told(look, is_seen, classes):
    """The proof that a look is seen, or isn't, at each of the classes."""
    proofs = [told_at(look, is_seen, it) for it in classes]
    raw = [number for number, it in enumerate(classes) if it[0] == 'raw']
    if raw:
        return nested(proofs[:raw[-1] + 1]).replace('tt', '(search)')
    is_simple = not any('simp' in it for it in proofs)
    if len(proofs) < 2 and is_simple:
        return nested(proofs)
    return '(search)' if is_simple else '(' + ' & '.join([*(f'({it})' for it in proofs), 'tt']) + ')'


class Founder:
    """What is known of all kinds so far. What first tokens don't decide is noted while it is looked for, and a ? stands
    in the proof."""

    def __init__(self):
        kinds = [*POSITIONS, *KINDS]
        self.behind = {kind: [entries.term(it) for it in BEHIND.get(kind, [])] for kind in kinds}
        self.starts = {kind: STARTS.get(kind, []) for kind in kinds}
        self.skips = {kind: kind[0] in SKIPS for kind in kinds}
        self.notes = []

    def settle(self):
        """Goes through all kinds until nothing changes. What is undecided of each is answered."""
        undecided = {}
        for _ in range(12):
            before = {kind: (len(self.behind[kind]), self.starts[kind]) for kind in KINDS}
            for kind in KINDS:
                if kind in ARMS:
                    self.starts[kind] = self.starts['OuterAttributes',] + self.starts['Pattern',]
                elif kind not in STARTS:
                    undecided[kind] = self.find(kind)
            if before == {kind: (len(self.behind[kind]), self.starts[kind]) for kind in KINDS}:
                return undecided
        raise ValueError('what kinds begin with does not settle')

    def find(self, kind):
        """What first tokens don't decide of a kind; what they do is kept."""
        self.notes = []
        try:
            entry = self.of_kind(kind)
        except Undecided as why:
            return [str(why)]
        if entry is NOTHING:
            return ['nothing']
        self.starts[kind] = entry.starts
        self.behind[kind] = union(self.behind[kind], entry.behind + [entries.term(it) for it in BESIDES.get(kind, [])])
        return [*self.notes, *([f'skips {entry.may_skip}'] if entry.may_skip != self.skips[kind] else [])]

    def of_kind(self, kind):
        return self.of(body('table', [(kind[0], [(it, []) for it in kind[1:]])]))

    # Proofs about looks.

    def told(self, look, is_seen, classes):
        try:
            return all_told(look, is_seen, classes)
        except Undecided as why:
            self.notes.append(str(why))
            return '?'

    def unseen(self, looks, classes):
        return nested([self.told(it, False, classes) for it in looks])

    def lacking(self, looks, it):
        """The proof that none is seen where a mark or the end stands."""
        for look in looks:
            if Sight().sees(look, it) is not False:
                self.notes.append(f'{show(look)} at {it}')
                return '?'
        return nested(['refl'] * len(looks))

    # Entries.

    def of(self, term):
        """What is known of an entry."""
        word, arguments = term
        if word in LEAVES:
            return LEAVES[word](arguments)
        if word in HANDLERS:
            return HANDLERS[word](self, arguments)
        inner = body(word, arguments) if word in DEFINITIONS else None
        if inner is None:
            raise Undecided(show(term)[:80])
        return self.of(inner)

    def sequence(self, arguments):
        first, second = arguments
        if first[0] == 'optional' and show(first[1][0]) == '(an_ident or at "_") then colon':
            return self.by_second_token('found_named_type', first[1][0], [('word', '_'), ('ident',)])
        one, other = (skipped(self.of(it)) for it in arguments)
        if not other.may_skip:
            found = self.behind_signs(first, other)
            if found:
                return found
        between = self.unseen(one.behind, other.starts)
        if not other.may_skip:
            name, starts = ('maybe_seq', one.starts + other.starts) if one.may_skip else ('found_seq', one.starts)
            return Entry(False, other.behind, starts, f'({name} {one.proof} {other.proof} {between})')
        looks = union(other.behind, one.behind)
        name, starts = ('maybe_both', one.starts + other.starts) if one.may_skip else ('found_before', one.starts)
        proof = f'({name} {one.proof} {weakened(other, looks)} {between} ({covers(looks, one.behind)}))'
        return Entry(one.may_skip, looks, starts, proof)

    def behind_signs(self, first, other):
        """What begins with a sign that its second token is looked at too."""
        def behind(sign):
            return [('then', sign, it) for it in other.starts]
        word, arguments = first
        if word == 'sign' and arguments[0] in ('::', '#'):
            return Entry(False, other.behind, behind(arguments[0]), f'(found_then {other.proof})')
        if word == 'when' and arguments[1][0] == arguments[2][0] == 'sign':
            one, two = (behind(it[1][0]) for it in arguments[1:])
            look = arguments[0]
            proof = f'{show(look, False)} {other.proof} {self.told(look, True, one)} {self.told(look, False, two)}'
            return Entry(False, other.behind, one + two, f'(found_signs_then {proof})')
        if first == ('optional', [('marks', ['::']), ('sign', ['::'])]):
            look, one = arguments[0], behind('::')
            seen, unseen = self.told(look, True, one), self.told(look, False, other.starts)
            proof = f'(found_perhaps_then {show(look, False)} {other.proof} {seen} {unseen})'
            return Entry(False, other.behind, one + other.starts, proof)
        return None

    def by_second_token(self, name, look, starts):
        """A type with plus, behind what a second token decides, by a lemma of its own."""
        kind = ('AType', 'WithPlus')
        return Entry(False, union([look[1][1]], self.behind[kind]), starts + self.starts[kind], name)

    def choice(self, arguments):
        look, first, second = arguments
        is_type = second == ('ref', [('AType', [('WithPlus', [])])])
        if show(look) == 'an_ident then marks "="' and is_type:
            return self.by_second_token('found_bound', look, [('ident',)])
        return self.alternatives(look, self.of(first), self.of(second))

    def optional(self, arguments):
        return self.alternatives(arguments[0], self.of(arguments[1]), NOTHING)

    def alternatives(self, look, one, other):
        if look[0] == 'sees':
            look = look[1][0]
        name = show(look, False)
        if is_never_seen(look):
            other = Entry(True, [], [], 'maybe_none') if other is NOTHING else other
            proof = f'({other.front()}_unseen {name} (λ ts. refl) {other.proof})'
            return Entry(other.may_skip, other.behind, other.starts, proof)
        if one is NOTHING and other is not NOTHING and not other.starts and not other.may_skip:
            return Entry(True, [('no', [look])], [], f'(stops {name})')
        if one is NOTHING or one.may_skip:
            raise Undecided('a first alternative that may be nothing')
        if other is NOTHING:
            proof = '(found_never {ls = []})' if one.proof == 'found_never' else one.proof
            seen = self.told(look, True, one.starts)
            return Entry(True, [look] + one.behind, one.starts, f'(found_optional {name} {proof} {seen})')
        return self.either(look, one, other)

    def either(self, look, one, other):
        """Two alternatives that have tokens, or of which the second may have none."""
        looks, starts, name = union(one.behind, other.behind), one.starts + other.starts, show(look, False)
        if show(look) in BY_HAND:
            seen, unseen, more = BY_HAND[show(look)]
            looks = union(looks, [entries.term(it) for it in more])
            for it in more:
                place = 'c' + '.1' * [show(each) for each in looks].index(it) + '.0'
                seen, unseen = (proof.replace('@' + it, place) for proof in (seen, unseen))
            proof = f'(found_alt_by {name} {weakened(one, looks)} {weakened(other, looks)} {seen} {unseen})'
            return Entry(False, looks, starts, proof)
        seen, unseen = self.told(look, True, one.starts), self.told(look, False, other.starts)
        proof = f'{name} {weakened(one, looks)} {weakened(other, looks)} {seen} {unseen}'
        if other.may_skip:
            return Entry(True, [look] + looks, starts, f'(maybe_alt {proof})')
        return Entry(False, looks, starts, f'(found_alt {proof})')

    def kind(self, arguments):
        (name, values), = arguments
        kind = (name, *(it[0] for it in values))
        if kind not in self.starts:
            return Entry(False, [], [], '?')
        front = 'maybe' if self.skips[kind] else 'found'
        return Entry(self.skips[kind], self.behind[kind], self.starts[kind], f'({front}_ref {shown(kind)} refl)')

    def group(self, delimiter, inside):
        return Entry(False, [], [('open', delimiter)], f'(found_group {self.inside(inside)})')

    def inside(self, term):
        """The proof that the inside of a group is read to its end."""
        word, arguments = term
        if word == 'raw':
            return 'fine_raw'
        if word == 'expressions':
            return self.inside(body(word, arguments))
        if word == 'many_to_end':
            each = self.of(arguments[0])
            ended = self.told(('the_end', []), False, each.starts)
            behind = f'(λ ts. {self.lacking(each.behind, ("sign", ","))}) {self.lacking(each.behind, ("end",))}'
            return f'(found_to_end {each.proof} {ended} {behind})'
        entry = self.of(term)
        return f'({entry.front()}_ended {entry.proof} {self.lacking(entry.behind, ("end",))})'

    def many(self, arguments):
        (word, (look,)), (separator, _), element = arguments
        each, sign = self.of(element), {'comma': ',', 'plus': '+'}[separator]
        separated, mark = self.lacking(each.behind, ('sign', sign)), ('marks', [sign])
        if word == 'sees':
            ended = self.told(look, False, each.starts)
            proof = f'(found_many {show(look, False)} {each.proof} {ended} (λ ts. {separated}))'
            return Entry(True, [('no', [look]), mark] + each.behind, each.starts, proof)
        looks = union([look, mark], each.behind)
        seen, covered = self.told(look, True, each.starts), covers(looks, [look, mark] + each.behind)
        shown_looks = listed(show(it, False) for it in looks)
        proof = f'{show(look, False)} ({shown_looks}) {each.proof} {seen} (λ ts. {separated}) ({covered})'
        return Entry(True, looks, each.starts, f'(found_while {proof})')

    def turns(self, arguments):
        look, inner = arguments
        each = self.of(inner)
        seen, unseen = self.told(look, True, each.starts), self.unseen(each.behind, each.starts)
        proof = f'(found_star {show(look, False)} {each.proof} {seen} {unseen})'
        return Entry(True, [look] + each.behind, each.starts, proof)

    def star(self, arguments):
        word, inner = arguments[0]
        if word != 'sees':
            raise Undecided('turns that a test ends')
        return self.turns([inner[0], arguments[1]])

    def wrapped(self, front, inner):
        entry = self.of(inner)
        return Entry(entry.may_skip, entry.behind, entry.starts, f'({entry.front()}_{front} {entry.proof})')

    def dropped(self, arguments):
        entry = self.of(arguments[0])
        return Entry(True, entry.behind, [], f'(found_dropped {entry.proof})')

    def one_sign(self, arguments):
        term = ('refused', [])
        for text in reversed(texts_of(arguments[0])):
            term = ('alt', [('marks', [text]), ('sign', [text]), term])
        return self.of(term)


def skipped(entry):
    return Entry(True, [], [], 'maybe_none') if entry is NOTHING else entry


def words_entry(texts, shown_texts):
    return Entry(False, [], [('word', it) for it in texts], f'(found_words {shown_texts})')


def tested_word(arguments):
    test = arguments[0][0]
    if test == 'is_ident':
        return Entry(False, [], [('ident',)], '(found_word is_ident)')
    texts = {'is_path_keyword': PATH_KEYWORDS, 'is_bool': BOOLS}.get(test)
    if not texts:
        raise Undecided(f'a word that passes {test}')
    return words_entry(texts, '(' + listed(f'codes "{it}"' for it in texts) + ')')


LEAVES = {
    'keyword': lambda a: Entry(False, [], [('word', a[0])], f'(found_text "{a[0]}")'),
    'sign': lambda a: Entry(False, [], [('sign', a[0])], 'found_mark'),
    'ident': lambda a: Entry(False, [], [('ident',)], '(found_word is_ident)'),
    'name': lambda a: Entry(False, [], NAME, 'found_name'),
    'word': tested_word,
    'literal': lambda a: Entry(False, [], [('lit', a[0][0])], f'(found_literal {a[0][0]})'),
    'one_word': lambda a: words_entry(texts_of(a[0]), show(a[0], False)),
    'lifetime': lambda a: Entry(False, [], [('tick',)], 'found_lifetime'),
    'nothing': lambda a: NOTHING,
    'refused': lambda a: Entry(False, [], [], 'found_never'),
    'never': lambda a: Entry(False, [], [], 'found_never'),
    'restriction': lambda a: Entry(False, [], [('open', 'Parenthesis')], 'found_restriction'),
}
HANDLERS = {
    '▸': Founder.sequence, 'when': Founder.choice, 'alt': Founder.choice, 'optional': Founder.optional,
    'ref': Founder.kind, 'many': Founder.many, 'repeated': Founder.turns, 'star': Founder.star,
    'dropped': Founder.dropped, 'one_sign': Founder.one_sign,
    'group': lambda it, a: it.group(a[0][0], a[1]),
    'in_parentheses': lambda it, a: it.group('Parenthesis', a[0]),
    'in_brackets': lambda it, a: it.group('Bracket', a[0]),
    'in_braces': lambda it, a: it.group('Brace', a[0]),
    '∶': lambda it, a: it.wrapped('called', a[1]),
    'judged': lambda it, a: it.wrapped('judged _', a[1]),
}
