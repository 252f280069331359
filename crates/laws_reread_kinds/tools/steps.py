#!/usr/bin/env python3
"""Writes the steps that go by first tokens alone, from the entries as they are written in syn_grammar's specs: for each
kind of a list, a proof that its normal form is read back where its parts are (proofs/StepsOf..), what its tokens begin
with (proofs/Starts), what may not follow them (`behind` in specs/After), which kinds have a step (`has_step` in
specs/Covered), and the steps and laws of all of these (proofs/AllKinds), with the words that they name
(proofs/Keywords). What else stands in After and Covered is written by hand. What says the same as what stands there is
left alone. The proofs are checked, and nothing rests on this script.

  steps.py            writes them
  steps.py --list     writes nothing, and says which kinds first tokens don't decide
  steps.py --missing  says besides which kinds have no step or no law

The kinds, and what is said of them by hand, are in kinds.py. How an entry's proof is made is in found.py, and what
looks see in looks.py."""
import os
import re
import sys

sys.dont_write_bytecode = True
from looks import DEFINITIONS, HOMES, RESERVED, body, listed, show  # noqa: E402
from antt_files import put  # noqa: E402
from found import BY_HAND_HOMES, KEYWORDS, Founder, keyword, weakened  # noqa: E402
from kinds import ABOVE, ARMS, CATEGORIES, ENTRIES, KINDS, POSITIONS, STARTS, VALUES, shown, snake  # noqa: E402

CRATE = os.path.dirname(os.path.dirname(os.path.abspath(__file__)))
GRAMMAR, OWN = 'Rattle.syn_grammar.specs.', 'Rattle.laws_reread_kinds.'
DELIMITERS = 'Rattle.proc_macro2.specs.declared.delimiter.Delimiter.TheVariants'
# Lists of first tokens that have a name.
NAMED_STARTS = {('Expression', 'InStatement'): 'expression_starts',
                ('AStatement',): 'statement_starts ++ expression_starts',
                ('Statements',): 'Sign 59 [] ∷ (statement_starts ++ expression_starts)',
                ('Pattern',): 'pattern_starts',
                **{kind: 'Then 35 [] (Opening Bracket) ∷ pattern_starts' for kind in ARMS}}
# Kinds of which what is kept, or normal form, is something else than that of their parts.
FORGOTTEN = {'Parameter', 'DynType', 'ImplType', 'AStatement', 'Meta', 'Member', 'Index', 'Arm', 'AnArgument',
             'ConstParam'}
TIDIED = {'Where', 'Generics', 'BoundsColon', 'LifetimeColon', 'GenericParams', 'Arguments', 'ATypeAlias', 'AnImpl'}


def wanted(text, leaves_out=()):
    """The names that a text may have, by their modules; but those that its own file defines."""
    kinds = sorted({kind[0] for kind in (*KINDS, *POSITIONS)} | {it for values in VALUES.values() for it in values})
    looks = {}
    for name, file in HOMES.items():
        if file not in ('Look', 'Say') and DEFINITIONS[name].type.endswith('Look'):
            looks.setdefault(GRAMMAR + file, []).append(name)
    lemmas = set(re.findall(r'\b(?:found|maybe|weaken|stops|as_maybe)(?:_[a-z_]+)?\b', text))
    seconds = ['found_bound', 'found_named_type']
    found = {
        **looks, GRAMMAR + 'Kind': ['Kind', *kinds],
        GRAMMAR + 'Look': 'Look sees no maybe one_of a_word an_ident a_name a_literal a_quoted a_lifetime opens '
                          'the_end all_attributes ◌then◌ ◌or◌'.split(),
        GRAMMAR + 'Say': 'at marks parenthesis brace bracket'.split(),
        GRAMMAR + 'Words': 'is_ident is_string is_index any_text is_number is_name is_reserved is_path_keyword '
                           'is_plain_name is_bool'.split(),
        DELIMITERS: ['Parenthesis', 'Brace', 'Bracket'], f'{DELIMITERS} as D': [],
        'Rattle.std.specs.Prelude': 'codes refl ◌≡◌ true false List [] ◌∷◌ ◌++◌'.split(),
        GRAMMAR + 'Table': ['table'], GRAMMAR + 'Ranks': ['skips'],
        OWN + 'specs.After': ['behind'], OWN + 'proofs.Starts': ['starts'],
        OWN + 'proofs.Classes': 'Sign TheWord AnyWord Quoted Tick Opening Then RawFront Class OfEach ◌&◌'.split(),
        OWN + 'proofs.Fine': 'fine_word fine_text fine_words fine_name fine_literal fine_mark fine_lifetime fine_raw '
                             'fine_group'.split(),
        OWN + 'proofs.Parts': ['Found', *sorted(lemmas - {'found_restriction', 'maybe', *seconds})],
        OWN + 'proofs.Seconds': seconds, OWN + 'proofs.Sights': ['ident_not'],
        OWN + 'proofs.Keywords': sorted(KEYWORDS.values()), OWN + 'proofs.Readies': ['Step'],
    }
    for name, file in BY_HAND_HOMES.items():
        found.setdefault(f'{OWN}proofs.{file}', []).append(name)
    return {module: names for module, names in found.items() if module not in leaves_out}


def shown_class(it, is_whole=True):
    """A class as the lemmas have it."""
    def sign(text):
        first, *others = (str(ord(c)) for c in text)
        return f'{first} ({listed(others)})' if others else f'{first} []'
    kind, *rest = it
    text = {'sign': lambda: f'Sign {sign(rest[0])}', 'word': lambda: f'TheWord (codes "{rest[0]}")',
            'ident': lambda: 'AnyWord is_ident', 'lit': lambda: f'Quoted {rest[0]}', 'tick': lambda: 'Tick',
            'raw': lambda: 'RawFront', 'open': lambda: f'Opening {"D.None" if rest[0] == "None" else rest[0]}',
            'then': lambda: f'Then {sign(rest[0])} {shown_class(rest[1], False)}'}[kind]()
    return text if is_whole or ' ' not in text else f'({text})'


def put_behind(founder):
    """specs/After: what may not follow a kind's tree, of what the looks see."""
    lines = []
    for kind in (*POSITIONS, *KINDS):
        looks = [show(it, it[0] not in ('then', 'or')) for it in founder.behind[kind]]
        lines += [f'behind {shown(kind)} = {listed(looks)}'] if looks else []
        lines += ['behind OneStatement = no the_end ∷ []'] if kind == ('Statements',) else []
    block = '\n'.join(['abbrev pub behind : Kind → List Look', *lines, 'behind k = []'])
    put(f'{CRATE}/specs/After.antt', [block], wanted(block, [OWN + 'specs.After']), keeps=lambda name: True)


def put_starts(founder):
    """proofs/Starts: what a kind's tokens begin with, where it has some."""
    def shown_starts(kind):
        return listed(shown_class(it) for it in founder.starts[kind])
    named = [('an expression, where a statement begins', 'expression_starts', ('Expression', 'InStatement')),
             ('a let or an item among statements', 'statement_starts', ('AStatement',)),
             ('a pattern', 'pattern_starts', ('Pattern',))]
    blocks = [f'-- {words}\nabbrev pub {name} : List Class\n{name} = {shown_starts(kind)}'
              for words, name, kind in named]
    lines = [f'starts {shown(kind)} = {NAMED_STARTS.get(kind) or shown_starts(kind)}'
             for kind in (*POSITIONS, *KINDS) if founder.starts[kind]]
    blocks.append('\n'.join(['abbrev pub starts : Kind → List Class', *lines, 'starts k = []']))
    put(f'{CRATE}/proofs/Starts.antt', blocks, wanted('\n'.join(blocks), [OWN + 'proofs.Starts']))


def put_steps(founder, good):
    """proofs/StepsOf..: the steps of each category."""
    unfolded = 'unfolding table skips is_path_keyword is_plain_name is_bool is_name'
    for category in CATEGORIES:
        blocks = []
        for kind in (it for it in good if KINDS[it] == category):
            proof, name = weakened(founder.of_kind(kind), founder.behind[kind]), snake(kind)
            if kind in ENTRIES:
                claim = f'Found (table {shown(kind)}) (behind {shown(kind)}) (starts {shown(kind)})'
                blocks.append(f'pub entry_{name} : {claim}\n{unfolded}\nentry_{name} = {proof}')
            else:
                lemma = f'{"maybe" if founder.skips[kind] else "found"}_step {shown(kind)} refl refl {proof}'
                blocks.append(f'pub step_{name} : Step {shown(kind)}\n{unfolded}\nstep_{name} = {lemma}')
        put(f'{CRATE}/proofs/StepsOf{category}.antt', blocks, wanted('\n'.join(blocks)))


def proofs():
    """The files of lemmas, each with its text."""
    for file in sorted(os.listdir(f'{CRATE}/proofs')):
        if file.endswith('.antt'):
            with open(f'{CRATE}/proofs/{file}', encoding='utf8') as text:
                yield file[:-len('.antt')], text.read()


def lemmas(front, claim, is_read):
    """The lemmas of a claim in the files that are read: of each kind the name, and the file that has it."""
    pattern = rf'^pub ({front}_[a-z_]+) : {claim} (\w+|\(\w+ \w+\))'
    return {tuple(it[2].strip('()').split()): (it[1], file)
            for file, text in proofs() if is_read(file) for it in re.finditer(pattern, text, re.M)}


def has_word(term, words, seen=()):
    """Whether an entry has one of these words."""
    if isinstance(term, str) or term[0] == 'λ':
        return False
    word, arguments = term
    if word in words:
        return True
    if word in ('ref', 'word', 'literal', 'keyword', 'sign', 'marks', 'at'):
        return False
    inner = body(word, arguments) if word in DEFINITIONS and word not in seen else None
    if inner is not None and has_word(inner, words, (*seen, word)):
        return True
    return any(has_word(it, words, seen) for it in arguments)


def is_simple(kind):
    """Whether what is kept of a kind's tree, and its normal form, are those of its parts."""
    entry = body('table', [(kind[0], [(it, []) for it in kind[1:]])])
    return kind[0] not in FORGOTTEN | TIDIED and not has_word(entry, ('star', 'repeated', 'judged', 'dropped'))


def covered_kinds(good):
    """The kinds that have a step and a law, with both: each a name and the file that has it. Of a simple kind the law
    has no name."""
    laws = lemmas('law', 'KindLaw', lambda file: file not in ('AllKinds', 'Printed'))
    steps = lemmas('step', 'Step', lambda file: not re.match('StepsOf|AllKinds|Readies', file))
    steps |= {kind: (f'step_{snake(kind)}', f'StepsOf{KINDS[kind]}') for kind in good if kind not in ENTRIES}
    kinds = [kind for kind in KINDS if kind not in ABOVE]
    known = [kind for kind in kinds if kind in laws or is_simple(kind)]
    if '--missing' in sys.argv:
        print('no step:', [shown(kind) for kind in kinds if kind not in steps])
        print('no law:', [shown(kind) for kind in kinds if kind not in known])
    return {kind: (steps[kind], laws.get(kind)) for kind in known if kind in steps}


def put_covered(covered):
    """`has_step` in specs/Covered, and proofs/AllKinds: the steps of all covered kinds, and what is known of each."""
    lines = [f'has_step {shown(kind)} = true' for kind in covered]
    block = '\n'.join(['unfoldable pub has_step : Kind → Bool', *lines, 'has_step k = false'])
    kinds = {GRAMMAR + 'Kind': ['Kind', *sorted({it for kind in covered for it in kind})]}
    put(f'{CRATE}/specs/Covered.antt', [block], kinds, keeps=lambda name: True)
    named = dict(kinds)
    for name, file in [law for _, law in covered.values() if law] + [step for step, _ in covered.values()]:
        named.setdefault(f'{OWN}proofs.{file}', []).append(name)
    simple = 'refl (λ x. tt) (λ x. refl) (λ x. refl) (λ q. refl) (λ q. refl) refl'
    last = 'e = let f : false ≡ true = e in cc f'
    steps = [f'steps {shown(kind)} e = {step}' for kind, ((step, _), _) in covered.items()]
    laws = [f'laws {shown(kind)} e = {law[0] if law else f"simple_kind {shown(kind)} {simple}"}'
            for kind, (_, law) in covered.items()]
    put(f'{CRATE}/proofs/AllKinds.antt', [
        '\n'.join(['pub steps : (k : Kind) → has_step k ≡ true → Step k', 'unfolding has_step', *steps,
                   f'steps _ {last}']),
        '\n'.join(['pub laws : (k : Kind) → has_step k ≡ true → KindLaw k',
                   'unfolding has_step held passed place_of table', *laws, f'laws _ {last}'])], named)


def put_keywords():
    """proofs/Keywords: of the words that proofs name whether they are reserved."""
    for file, text in proofs():
        for name in re.findall(r'\b(?:reserved|free)_([a-z_]+)\b', text) if file != 'Keywords' else []:
            word = {'underscore': '_', 'big_self': 'Self'}.get(name, name)
            if word != 'not':
                keyword(word)
    blocks = []
    for word, name in sorted(KEYWORDS.items(), key=lambda it: it[1]):
        claim = f'is_reserved (codes "{word}") ≡ {"true" if word in RESERVED else "false"}'
        blocks.append(f'pub {name} : {claim}\nunfolding is_reserved\n{name} = refl')
    put(f'{CRATE}/proofs/Keywords.antt', blocks)


def main():
    founder = Founder()
    undecided = founder.settle()
    good = [kind for kind in KINDS if kind not in STARTS and kind not in ARMS and not undecided[kind]]
    if '--list' in sys.argv:
        for kind, why in undecided.items():
            if why:
                print('BY HAND', shown(kind), why[:3])
        return
    put_behind(founder)
    put_starts(founder)
    put_steps(founder, good)
    put_covered(covered_kinds(good))
    put_keywords()


if __name__ == '__main__':
    main()
