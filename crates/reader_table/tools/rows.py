#!/usr/bin/env python3
"""Writes the rows of src/, the looks of several steps (src/composite.rt, src/sights.rt, specs/Composites.antt) and the
answers in proofs/ from the entries in syn_grammar/specs, as they are written. What it writes needs no trust: each row
is proved to be its entry. It formats the crate, and then lays its tables out in rows, where that takes fewer lines."""
import glob
import os
import re
import subprocess
import sys

sys.dont_write_bytecode = True
HERE = os.path.dirname(os.path.abspath(__file__))
CRATES = os.path.dirname(os.path.dirname(HERE))
sys.path.insert(0, os.path.join(os.path.dirname(CRATES), 'tests', 'grammar'))
from antt import World, items_of  # noqa: E402

SPECS = 'Rattle.syn_grammar.specs.'


def text(chars):
    return ''.join(chr(c) for c in items_of(chars))


WORDS = {name: (lambda name=name: (name,)) for name in (
    'is_ident', 'is_name', 'is_plain_name', 'is_path_keyword', 'is_bool', 'any_text', 'is_number', 'is_string',
    'is_index', 'are_indices', 'ends_in_dot')}
SYMBOLS = {
    'Look': {
        'sees': (1, lambda a: ('Sees', a)), 'lacks': (1, lambda a: ('Lacks', a)),
        '◌then◌': (2, lambda a, b: ('Then', a, b)), '◌or◌': (2, lambda a, b: ('Or', a, b)),
        'maybe': (1, lambda a: ('Maybe', a)), 'no': (1, lambda a: ('No', a)),
        'a_word': (1, lambda p: ('Word', p)), 'the_word': (1, lambda t: ('Word', ('keyword', text(t)))),
        'one_of': (1, lambda ws: ('Word', among(ws))), 'a_quoted': (1, lambda p: ('Quoted', p)),
        'the_mark': (1, lambda t: ('Mark', text(t))), 'any_mark': (1, lambda ts: any_mark(list(items_of(ts)))),
        'a_lifetime': (0, lambda: ('Lifetime',)), 'opens': (1, lambda d: ('Opens', d[0])),
        'closes': (0, lambda: ('Closes',)),
        'a_group': (1, lambda d: ('Group', d[0])), 'past_first': (2, lambda c, n: ('PastFirst', c)),
        'opening': (0, lambda: ('Opening',)), 'past_literals': (1, lambda p: ('PastLiterals', p)),
        'the_end': (0, lambda: ('End',)), 'repeatedly': (1, lambda a: ('Repeatedly', a)),
    },
    'Say': {
        'keyword': (1, lambda s: ('word', ('keyword', s))), 'one_word': (1, lambda ws: ('word', among(ws))),
    },
    'Words': {name: (0, f) for name, f in WORDS.items()},
}


def among(words):
    return ('among', tuple(text(w) for w in items_of(words)))


def any_mark(texts):
    look = ('Nowhere',)
    for t in reversed(texts):
        look = ('Or', ('Mark', text(t)), look)
    return look


class Symbols(World):
    """The definitions, in which tests stay words."""

    def function(self, module, name):
        own = SYMBOLS.get(module.key.split('.')[-1], {}).get(name)
        if own is None:
            return super().function(module, name)
        python = 'own_' + self.library(name)
        self.names[python] = own[1]
        return python, own[0]


PARAMETERS = {'Style': ['InModule', 'InExpression', 'InType', 'AtType'], 'Plus': ['WithPlus', 'WithoutPlus'],
              'Position': ['Plain', 'InCondition', 'InArm', 'InStatement'],
              'Place': ['InFile', 'InForeign', 'InTrait', 'InImpl']}


def kinds(path):
    """The kinds, in their order, with the type of their parameter."""
    source = re.sub(r'--.*', '', open(path, encoding='utf8').read().split('pub data Kind')[1].split('where', 1)[1])
    for names, parameter in re.findall(r'((?:[A-Z]\w*\s+)+):\s*(?:(\w+)\s*→\s*)?Kind', source.replace('\n', ' ')):
        for name in names.split():
            yield name, parameter or None


# The looks of several steps: a name, what it sees in words, and the term of the written grammar that it is.
COMPOSITES = [line.split(' | ') for line in '''
Turbofish | `::` and then `<` | turbofish
ArgumentsStand | arguments of a path in a type | arguments_stand k.InType
ALiteral | a literal, `true` or `false` | a_literal
IdentThenEq | an Ident before `=` | an_ident then marks "="
FnPtrStands | a function pointer | at "for" or at "unsafe" or at "extern" or at "fn"
NamedArgument | a name and a colon | (an_ident or at "_") then colon
BoundStands | a bound | bound_stands
Vert | a `|` that begins no `||` and no `|=` | vert
IdentPatternStands | `ref`, `mut`, or an Ident that names what it matches | at "ref" or at "mut" or binding
RangeToPatternStands | a range without a start | marks "..=" or (dots then range_bound_stands)
Dots | `..` that begins no `...` and no `..=` | dots
LiteralPatternStands | a literal or `-` | a_literal or marks "-"
RangeEndStands | `..` that begins no `...` | range_end_stands
RangeBoundStands | the end of a range | range_bound_stands
MemberColon | a member and a colon | (an_ident or a_quoted is_index) then marks ":"
InnerAttribute | `#` and `!` | marks "#" then marks "!"
AnyDelimiter | a group of any visible kind | parenthesis or brace or bracket
ImplGenericsStand | parameters behind `impl` | impl_generics_stand
LifetimeBehindAttributes | attributes and a lifetime | all_attributes then a_lifetime
ConstBehindAttributes | attributes and `const` | all_attributes then at "const"
WhereEnds | the end of a where clause | where_ends
PostfixStands | a postfix form | postfix_stands
IdentAlone | an Ident without a colon | an_ident then no (marks ":")
AnyRestriction | a restriction | restricted or restricted_in
RestrictedIn | `(in` | restricted_in
NotBeforeBrace | `!` before no brace | marks "!" then no brace
ReceiverStands | a receiver | receiver_stands
IdentThenLt | an Ident before `<` | an_ident then marks "<"
UnsafeOrSafe | `unsafe` or `safe` | at "unsafe" or at "safe"
IdentOrTry | an Ident or `try` | an_ident or at "try"
SignatureStands | a function's signature | signature_stands k.InFile
ExternCrate | `extern crate` | at "extern" then at "crate"
ConstTrait | `const` before a trait | at "const" then trait_stands
ConstImpl | `const` before an impl | at "const" then maybe (at "unsafe") then at "impl"
UnsafeExtern | `unsafe extern` | at "unsafe" then at "extern"
UnsafeMod | `unsafe mod` | at "unsafe" then at "mod"
UnsafeImpl | `unsafe impl` | at "unsafe" then at "impl"
UnionIdent | `union` and an Ident | at "union" then an_ident
RestrictedTraitStands | a restricted trait | restricted_trait_stands
TraitStands | a trait | at "trait" or (at "auto" then at "trait")
ImplStands | an impl | at "impl" or (at "default" then no (marks "!"))
MacroStands | a macro's path | macro_stands
ForeignSignatureStands | a function's signature in an extern block | signature_stands k.InForeign
ForeignStaticStands | a static in an extern block | maybe_safety k.InForeign then at "static"
DefaultStands | `default` before no `!` | at "default" then no (marks "!")
NameOrPathSep | a name or `::` | a_name or marks "::"
MacroItemBehindAttributes | attributes and a macro that is an item | all_attributes then macro_item_stands
MacroStatementBehindAttributes | attributes and a macro that is a statement | all_attributes then macro_statement_stands
LetBehindAttributes | attributes and `let` | all_attributes then at "let"
ItemBehindAttributes | attributes and an item's first words | all_attributes then item_stands
LabelledBlock | a block, perhaps with a label | labelled then brace
LabelledLoop | `loop`, perhaps with a label | labelled then at "loop"
LabelledWhile | `while`, perhaps with a label | labelled then at "while"
LabelledFor | `for`, perhaps with a label | labelled then at "for"
TypedClosureStands | a closure with `->` behind its parameters | typed_closure_stands
ClosureStands | a closure | closure_stands
RepeatStands | brackets with a `;` in them | repeat_stands
RawAddrStands | `&raw const` or `&raw mut` | marks "&" then at "raw" then (at "const" or at "mut")
UnaryStands | `*`, `!` or `-` | marks "*" or marks "!" or marks "-"
MacroCallStands | a path and `!` | macro_call_stands
PathStands | a path | a_name or marks "::" or marks "<"
AssignOpStands | an operator that assigns | any_mark (codes "+=" ∷ codes "-=" ∷ codes "*=" ∷ codes "/=" ∷ codes "%="\
 ∷ codes "^=" ∷ codes "&=" ∷ codes "|=" ∷ codes "<<=" ∷ codes ">>=" ∷ [])
EqualityStands | `==`, `<=`, `!=` or `>=` | any_mark (codes "==" ∷ codes "<=" ∷ codes "!=" ∷ codes ">=" ∷ [])
AssignStands | `=` that begins no `=>` | no (marks "=>") then marks "="
ShiftStands | `<<` or `>>` | marks "<<" or marks ">>"
LtOrGt | `<` or `>` | marks "<" or marks ">"
PlusOrMinus | `+` or `-` | marks "+" or marks "-"
ProductStands | `*`, `/` or `%` | marks "*" or marks "/" or marks "%"
AwaitStands | `.await` | dot_stands then at "await"
MethodStands | a dot and a method | dot_stands then an_ident then (parenthesis or marks "::")
DotStands | a dot that begins no `..`, and numbers that end in one | dot_stands
OperandStands | an expression, where a jump has an operand | operand_stands
BreakOperandStands | the operand of a `break` in a condition | no brace then operand_stands
RangeIsOpen | no end of a range | range_is_open k.Plain
RangeIsOpenInCondition | no end of a range in a condition | range_is_open k.InCondition
'''.strip().replace('`|`', '`\u2016`').split('\n')]
for each in COMPOSITES:
    each[:] = [part.replace('\u2016', '|') for part in each]
SOURCES = {
    'Look': 'a_literal a_lifetime all_attributes an_ident a_name a_quoted any_mark maybe no',
    'Say': 'at marks parenthesis brace bracket', 'Words': 'is_index', 'Paths': 'turbofish arguments_stand',
    'Types': 'colon bound_stands', 'Patterns': 'vert binding dots range_bound_stands range_end_stands',
    'Generics': 'impl_generics_stand where_ends', 'Expressions': 'postfix_stands',
    'Items': 'restricted restricted_in receiver_stands signature_stands trait_stands restricted_trait_stands '
             'maybe_safety',
    'Lists': 'macro_stands', 'Statements': 'macro_item_stands macro_statement_stands item_stands',
    'Forms': 'labelled typed_closure_stands closure_stands repeat_stands macro_call_stands dot_stands operand_stands '
             'range_is_open',
}
KEYWORDS = {'_': 'Underscore', 'self': 'SelfValue'}
WORD_CLASSES = {'is_ident': 'Ident', 'is_name': 'Name', 'is_plain_name': 'PlainName', 'is_path_keyword': 'PathKeyword',
                'is_bool': 'Bool', 'any_text': 'Any'}
WORD_LISTS = {('crate', 'self', 'super'): 'Restriction', ('self', 'super', 'crate'): 'MacroStart',
              ('self', 'super', 'crate', 'try'): 'UseWord', ('unsafe', 'safe'): 'Safety',
              ('const', 'mut'): 'ConstOrMut'}
LITERALS = {'any_text': 'Any', 'is_number': 'Number', 'is_string': 'Text', 'is_index': 'Index',
            'are_indices': 'Indices', 'ends_in_dot': 'EndsInDot'}
VERDICTS = {'SomeBounds': 'SomeBounds', 'FieldPatterns': 'FieldPatterns', 'FieldValues': 'FieldValues', 'Arm': 'Arm',
            'Parameters': 'Parameters', 'FnArg': 'FnArg', 'ATrait': 'Trait', 'ARestrictedTrait': 'RestrictedTrait',
            'AnImpl': 'Impl', 'ItemTrait': 'TraitByItself', 'ItemTraitAlias': 'TraitAliasByItself', 'ALet': 'Let',
            'OneStatement': 'OneStatement', 'Statements': 'Statements', 'AnItem': 'Item(Place::InFile)',
            'AForeignItem': 'Item(Place::InForeign)', 'ATraitItem': 'Item(Place::InTrait)',
            'AnImplItem': 'Item(Place::InImpl)',
            'ForeignItemStatic': 'Typed(Place::InForeign)'}


def sign_names():
    source = open(os.path.join(HERE, '..', 'src', 'word.rt'), encoding='utf8').read()
    return {b: a for a, b in re.findall(r'Sign::(\w+) => "([^"]*)"', source)}


SIGNS = sign_names()
# Words of the language with which rules begin.
FIRST_WORDS = {'async', 'break', 'const', 'dyn', 'enum', 'extern', 'for', 'if', 'impl', 'macro', 'match', 'pub', 'ref',
               'static', 'struct', 'type', 'union', 'unsafe', 'use', 'where'}


def snake(name):
    return re.sub(r'(?<!^)(?=[A-Z])', '_', name).upper()


def words(p):
    if p[0] == 'keyword':
        return f'Words::Keyword(Keyword::{KEYWORDS.get(p[1], p[1].capitalize())})'
    if p[0] == 'among':
        return f'Words::{WORD_LISTS.get(p[1], "ItemWord")}'
    return f'Words::{WORD_CLASSES[p[0]]}'


def literals(p):
    return f'Literals::{LITERALS[p[0]]}'


def sights(a):
    """The steps of a look."""
    if a[0] in ('Then', 'Or'):
        front = sights(a[1])
        return [f'Sight::{a[0]}({len(front)})'] + front + sights(a[2])
    if a[0] in ('Maybe', 'No', 'Repeatedly'):
        return [f'Sight::{a[0]}'] + sights(a[1])
    return [f'Sight::{step(a)}']


def step(a):
    if a[0] == 'Word':
        return f'Word({words(a[1])})'
    if a[0] in ('Quoted', 'PastLiterals'):
        return f'{a[0]}({literals(a[1])})'
    if a[0] == 'Mark':
        return f'Mark(Sign::{SIGNS[a[1]]})'
    if a[0] in ('Opens', 'Group'):
        return f'{a[0]}(Delimiter::{a[1]})'
    if a[0] == 'PastFirst':
        return f'PastFirst({a[1]})'
    return a[0]


def normal(a):
    """A look in which what sees nothing is a word."""
    if callable(a):
        return ('Nowhere',)
    return tuple(normal(x) if isinstance(x, tuple) or callable(x) else x for x in a)


class Rows:
    def __init__(self):
        self.world = Symbols(CRATES, {})
        self.composites = {}
        for name, _, term in COMPOSITES:
            self.composites.setdefault(self.look_of(term), name)

    def look_of(self, term):
        """The look that a term of the written grammar says."""
        folder = os.path.join(HERE, '.made')
        path = os.path.join(folder, 'Made.antt')
        os.makedirs(folder, exist_ok=True)
        with open(path, 'w', encoding='utf8') as out:
            out.write(''.join(imports()) + f'\nabbrev pub made : Look\nmade = {term}\n')
        self.world.roots['made'] = folder
        self.world.modules.pop('Rattle.made.specs.Made', None)
        self.world.known = {k: v for k, v in self.world.known.items() if k[0] != 'Rattle.made.specs.Made'}
        self.world.tables.pop('Rattle.made.specs.Made', None)
        found = normal(self.world.get('Rattle.made.specs.Made', 'made'))
        os.remove(path)
        os.rmdir(folder)
        return found

    def look(self, a):
        a = normal(a)
        if a[0] in ('Word', 'Quoted', 'Mark', 'Lifetime', 'Opens', 'End', 'Nowhere'):
            return f'Look::{step(a)}'
        return f'Look::Composite(Composite::{self.composites[a]})'

    def test(self, t):
        return f'Test::{t[0]}({self.look(t[1])})'

    def ops(self, g, kind):
        """The steps of an entry."""
        form = g[0]
        if form == 'word':
            return [f'Op::Word({words(g[1])})']
        if form == 'literal':
            return [f'Op::Literal({literals(g[1])})']
        if form == 'mark':
            return [f'Op::Mark(Sign::{SIGNS[chr(g[1]) + text(g[2])]})']
        if form in ('lifetime', 'raw', 'nothing', 'never'):
            return [f'Op::{form.capitalize()}']
        if form == 'seq':
            front = self.ops(g[1], kind)
            return [f'Op::Seq({len(front)})'] + front + self.ops(g[2], kind)
        if form == 'alt':
            first = self.ops(g[2], kind)
            return [f'Op::Alt({self.test(g[1])}, {len(first)})'] + first + self.ops(g[3], kind)
        if form == 'star':
            return [f'Op::Star({self.test(g[1])})'] + self.ops(g[2], kind)
        if form == 'many':
            separator = {44: 'Comma', 43: 'Plus'}[g[2]]
            return [f'Op::Many({self.test(g[1])}, Separator::{separator})'] + self.ops(g[3], kind)
        if form == 'group':
            return [f'Op::Group(Delimiter::{g[1][0]})'] + self.ops(g[2], kind)
        if form == 'judged':
            return [f'Op::Judged(Verdicts::{verdict(kind)})'] + self.ops(g[2], kind)
        if form == 'dropped':
            return ['Op::Dropped'] + self.ops(g[1], kind)
        if form == 'called':
            return [f'Op::Called(Part::{part(g[1][0])})'] + self.ops(g[2], kind)
        if form == 'ref':
            return [f'Op::Ref({kind_code(g[1])})']
        if form == 'operand':
            return [f'Op::Operand(Position::{g[1][0]}, {g[2]})']
        raise ValueError(g)


def verdict(kind):
    if kind[0] in VERDICTS:
        return VERDICTS[kind[0]]
    place = kind[1][0] if len(kind) > 1 else 'InFile'
    return f'Typed(Place::{place})'


def part(name):
    camel = ''.join(w.capitalize() for w in name.replace('the_', '').split('_'))
    return 'SelfType' if camel == 'Self' else camel


def kind_code(kind):
    if len(kind) == 1:
        return f'Kind::{kind[0]}'
    types = {v: t for t, vs in PARAMETERS.items() for v in vs}
    return f'Kind::{kind[0]}({types[kind[1][0]]}::{kind[1][0]})'


def imports():
    """The use lines of a spec that names the composites' terms."""
    out = ['use Rattle.std.specs.Prelude.{codes, [], ◌∷◌}\n', 'use Rattle.syn_grammar.specs.Kind as k\n',
           'use Rattle.syn_grammar.specs.Look.{Look, ◌then◌, ◌or◌}\n']
    for module, names in SOURCES.items():
        names = names.split()
        while names:
            line = f'use Rattle.syn_grammar.specs.{module}.{{{", ".join(names)}}}\n'
            taken = len(names)
            while len(line) > 119:
                taken -= 1
                line = f'use Rattle.syn_grammar.specs.{module}.{{{", ".join(names[:taken])}}}\n'
            out.append(line)
            names = names[taken:]
    return out


def entries():
    """Of each kind the file of its entry and the words above that."""
    source = open(os.path.join(CRATES, 'syn_grammar', 'specs', 'Table.antt'), encoding='utf8').read()
    homes = {}
    for module, names in re.findall(r'use Rattle\.syn_grammar\.specs\.(\w+)\.\{([^}]*)\}', source):
        homes.update({n.strip(): module for n in names.split(',')})
    found = {}
    for kind, right in re.findall(r'^table \(?(\w+)(?: \w+\))? = (.*)$', source, re.M):
        name = right.split()[0]
        module = homes.get(name)
        if module in (None, 'Gram', 'Say', 'Look'):
            module = {'ExprLit': 'Expressions'}.get(kind, 'Lists')
            found[kind] = (module, '')
        elif name == 'only':
            found[kind] = ('Lists', 'one item of that kind by itself')
        else:
            found[kind] = (module, comment(module, name))
    return found


# The rules of kinds that are told otherwise beside their rows than above their entries, or have no words there.
RULES = dict(line.split(' | ') for line in '''
ImplType | impl bounds, of which one at least is a path.
NeverType | !
InferType | _
WildPattern | _
RestPattern | ..
SlicePattern | [patterns]
ImplGenerics | Behind impl generics stand only where < begins parameters.
GenericParams | Parameters with commas between them, up to > .
ExprLit | A literal, true or false.
ExprPath | A path, perhaps a qualified one.
ExprMacro | A macro.
ExprArray | [expressions]
ExprInfer | _
ExprBlock | Label? body
ExprUnsafe | unsafe body
ExprAsync | async move? block
ExprConst | const body
ExprTryBlock | try block
ExprLoop | Label? loop body
ExprWhile | Label? while condition body
ExprForLoop | Label? for Pat in condition body
ExprContinue | continue Lifetime?
ExprStruct | What stands behind the path: the fields.
ExprCall | (expressions)
ExprAwait | . await
ExprIndex | [Expr]
ExprTry | ?
ExprCast | as Type, the type without plus, behind which no postfix form stands.
ExprUnary | *, ! or -
ExprRawAddr | & raw const, or & raw mut
ExprReference | & mut?
ExprLet | let Pat =
ExprReturn | return
ExprYield | yield
ExprRange | ..
ExprRangeClosed | ..=
ExprAssign | =, or an operator and = in one.
ExprOr | ||
ExprAnd | &&
ExprBitOr | |
ExprBitXor | ^
ExprBitAnd | &
ExprShift | << or >>
ExprSum | + or -
ExprProduct | *, / or %
FieldValues | { fields }; a base is the last, without a comma behind it.
Arms | Arms, to the end.
NamedFields | { fields }
UnnamedFields | (fields)
ATrait | unsafe? auto? trait Ident generics, (: bounds)? where? { inner attributes, items }, or = bounds where? ;
AConstTrait | const and a trait.
AnImpl | default? const? unsafe? impl generics !? Type (for Type)? where? { inner attributes, items }
Items | Items, to the end.
ForeignItems | Items of an extern block, to the end.
TraitItems | Items of a trait, to the end.
ImplItems | Items of an impl, to the end.
ItemTrait | A trait by itself, which is no alias.
ItemTraitAlias | An alias of traits by itself.
OneFunction | A function by itself, as it stands in its place.
OneTypeAlias | A type by itself, as it stands in its place.
OneConst | A constant by itself, as it stands in its place.
ForeignItemStatic | A static of an extern block by itself, with its safety.
ALet | let alternative (: Type)? (= Expr (else block)?)? ;
'''.strip().replace(' | |\n', ' | \u2016\n').replace(' | ||\n', ' | \u2016\u2016\n').split('\n'))


def rule(kind, words_):
    """The rule of a kind in words: a word of the language at its beginning stays as it is."""
    if kind in RULES:
        return RULES[kind].replace('\u2016', '|')
    first = re.match(r'\w*', words_)[0]
    return words_ if first in FIRST_WORDS else words_[:1].upper() + words_[1:]


def comment(module, name):
    """The words above an entry."""
    lines = open(os.path.join(CRATES, 'syn_grammar', 'specs', module + '.antt'), encoding='utf8').read().split('\n')
    at = next((i for i, line in enumerate(lines) if re.match(rf'abbrev pub {re.escape(name)} :', line)), None)
    words_above = []
    while at and lines[at - 1].startswith('-- '):
        at -= 1
        words_above.insert(0, lines[at][3:])
    return ' '.join(words_above)


CATEGORIES = ['Paths', 'Types', 'Patterns', 'Attributes', 'Generics', 'Expressions', 'Items', 'Functions', 'Lists',
              'Statements']
OF_FUNCTIONS = {'Parameters', 'Parameter', 'FnArg', 'Receiver', 'Signature', 'AFunction'}
TITLES = {'Paths': 'paths, their arguments, macros and members', 'Types': 'types and bounds', 'Patterns': 'patterns',
          'Attributes': 'attributes', 'Generics': 'generics and where clauses', 'Expressions': 'expressions',
          'Functions': 'functions and their parameters', 'Items': 'items, behind their attributes and their visibility',
          'Lists': 'items among others, and by themselves',
          'Statements': 'statements and files'}


def wrapped(prefix, words_, width=118):
    out, line = [], prefix
    for word in words_.split():
        if len(line) + 1 + len(word) > width:
            out.append(line)
            line = prefix
        line += ' ' + word
    return out + [line]


def uses(body, own):
    """The use lines of a module whose text this is."""
    names = {'crate::composite': ['Composite'], 'crate::kind': ['Kind', 'Place', 'Plus', 'Position', 'Style'],
             'crate::op': ['Case', 'Look', 'Op', 'Separator', 'Sight', 'Test', 'Verdicts'], 'crate::part': ['Part'],
             'crate::word': ['Keyword', 'Literals', 'Sign', 'Words'], 'proc_macro2::delimiter': ['Delimiter']}
    out = []
    for path, items in names.items():
        found = [n for n in items if re.search(rf'\b{n}\b', body) and (path, n) not in own]
        if found:
            out.append(f'use {path}::{{{", ".join(found)}}};' if len(found) > 1 else f'use {path}::{found[0]};')
    return out


def write(path, text_):
    path = os.path.join(HERE, '..', path)
    os.makedirs(os.path.dirname(path), exist_ok=True)
    with open(path, 'w', encoding='utf8') as out:
        out.write(text_)


def static(name, type_, steps):
    return f'static {name}: [{type_}; {len(steps)}] = [{", ".join(steps)}];\n'


def answers(function, uses_, goals, before=()):
    """The answers of a function, which has a row in each arm: the arm's fact says what was matched, and the rest is
    evaluation."""
    head = ['-- Each arm gives a row, and the row is evaluated. Written by tools/rows.py.', *uses_,
            f'use Rattle.reader_table.proofs.{function.replace("/", ".")}.Goals as goal', '', *before]
    body = []
    for name, opened, proof in goals:
        body += [f'pub returns-in-{name} : goal.returns-in-{name}'] + ([f'unfolding {opened}'] if opened else [])
        body += [f'returns-in-{name} c = {proof}', '']
    write(f'proofs/{function}/Answers.antt', '\n'.join(head + body))


def named_once(name, steps):
    """The name of each value's row: a row that several values have is named by the first of them."""
    first = {}
    return {value: snake(name + first.setdefault(tuple(row), value)) for value, row in steps.items()}


def choice(module, name, parameter, names):
    """The function that answers the entry of a kind that has a parameter, by the name of each value's row."""
    given = parameter.lower()
    answers(f'{module}/{snake(name).lower()}', [
        'use Rattle.std.proofs.Common.{sym, ap}', 'use Rattle.syn_grammar.specs.Table.{table}',
        'use Rattle.reader_table.specs.Kinds.{kind_of}',
        f'use Rattle.reader_table.specs.declared.kind.{parameter}.{{{parameter}}}',
        'use Rattle.reader_table.specs.declared.kind.Kind.TheVariants as kinds'],
        [(v, 'table', f'sym (ap (λ (p : {parameter}). table (kind_of (kinds.{name} p))) c.in-{v}.is)')
         for v in PARAMETERS[parameter]])
    arms = [f'        {parameter}::{v} => &{names[v]},' for v in PARAMETERS[parameter]]
    return '\n'.join([f"pub(crate) fn {snake(name).lower()}({given}: {parameter}) -> &'static [Op]",
                      f'    ensures {{ gram_of result.now ≡ table (kind_of (kinds.{name} {given})) }}',
                      '{', f'    match {given} {{', *arms, '    }', '}', ''])


def write_rows(rows):
    table = rows.world.get(SPECS + 'Table', 'table')
    home = entries()
    bodies = {c: [] for c in CATEGORIES}
    arms = []
    for name, parameter in kinds(os.path.join(CRATES, 'syn_grammar', 'specs', 'Kind.antt')):
        module, words_ = home[name]
        module = 'Functions' if name in OF_FUNCTIONS else module
        doc = wrapped('///', rule(name, words_))
        of = {v: (name, (v,)) if v else (name,) for v in (PARAMETERS[parameter] if parameter else [''])}
        steps = {v: rows.ops(table(kind), kind) for v, kind in of.items()}
        names = named_once(name, steps)
        for own, ops in {names[v]: steps[v] for v in of}.items():
            row = static(own, 'Op', ops)
            bodies[module].append('\n'.join(doc + [row if parameter else f'pub(crate) {row}']))
        if parameter:
            given = parameter.lower()
            bodies[module].append(choice(module.lower(), name, parameter, names))
            arms.append(f'Kind::{name}({given}) => {module.lower()}::{snake(name).lower()}({given}),')
        else:
            arms.append(f'Kind::{name} => &{module.lower()}::{snake(name)},')
    for module in CATEGORIES:
        body = '\n'.join(bodies[module])
        head = [f'//! The entries of {TITLES[module]}.', '',
                '// Written by tools/rows.py from the entries of the written grammar.', '']
        if 'gram_of' in body:
            head += ['ghost use Rattle.reader_table.specs.Kinds.{kind_of};',
                     'ghost use Rattle.reader_table.specs.Ops.{gram_of};',
                     'ghost use Rattle.reader_table.specs.declared.kind.Kind.TheVariants as kinds;',
                     'ghost use Rattle.std.specs.Prelude.{◌≡◌};',
                     'ghost use Rattle.syn_grammar.specs.Table.{table};', '']
        write(f'src/{module.lower()}.rt', '\n'.join(head + uses(body, set()) + ['', body]))
    return arms


def write_composites(rows):
    out = ['//! Looks of several steps, by their names.', '', '// Written by tools/rows.py.', '',
           '/// A look of several steps.', '#[derive(Clone, Copy)]', 'pub enum Composite {']
    for name, words_, _ in COMPOSITES:
        out += [f'    /// {words_[:1].upper() + words_[1:]}.', f'    {name},']
    write('src/composite.rt', '\n'.join(out + ['}', '']))
    of_forms = [c[0] for c in COMPOSITES].index('LabelledBlock')
    write_sights(rows, 'entry_sights', COMPOSITES[:of_forms], 'What looks of several steps see, of entries.')
    write_sights(rows, 'form_sights', COMPOSITES[of_forms:],
                 'What looks of several steps see, of how expressions bind.')
    arms = [f'        Composite::{c[0]} => &{"entry" if n < of_forms else "form"}_sights::{snake(c[0])},'
            for n, c in enumerate(COMPOSITES)]
    head = ['//! What looks of several steps see, step by step.', '', '// Written by tools/rows.py.', '',
            'ghost use Rattle.reader_table.specs.Composites.{composite_of};',
            'ghost use Rattle.reader_table.specs.Looks.{sights_of};', 'ghost use Rattle.std.specs.Prelude.{◌≡◌};', '',
            'use crate::composite::Composite;', 'use crate::op::Sight;',
            'use crate::{entry_sights, form_sights};', '', '/// The steps of a look of several.',
            "pub fn sights(composite: Composite) -> &'static [Sight]",
            '    ensures { sights_of result.now ≡ composite_of composite }', '{', '    match composite {'] \
        + arms + ['    }', '}', '']
    write('src/sights.rt', '\n'.join(head))
    answers('sights/sights', ['use Rattle.std.proofs.Common.{sym, ap}',
                              'use Rattle.reader_table.specs.Composites.{composite_of}'],
            [(c[0], None, f'sym (ap composite_of c.in-{c[0]}.is)') for c in COMPOSITES])
    write_composite_spec()


def write_sights(rows, module, composites, title):
    body = []
    for name, words_, term in composites:
        row = static(snake(name), 'Sight', sights(rows.look_of(term)))
        body.append(f'/// {words_[:1].upper() + words_[1:]}.\npub(crate) {row}')
    text_ = '\n'.join(body)
    head = [f'//! {title}', '', '// Written by tools/rows.py.', '']
    write(f'src/{module}.rt', '\n'.join(head + uses(re.sub('composite', '', text_), set()) + ['', text_]))


def write_composite_spec():
    spec = ['-- What looks of several steps see, in the words of the written grammar. Written by tools/rows.py.\n']
    spec += imports()
    spec += ['use Rattle.reader_table.specs.declared.composite.Composite.{Composite}\n',
             'use Rattle.reader_table.specs.declared.composite.Composite.TheVariants as composites\n', '\n',
             'abbrev pub composite_of : Composite → Look\n']
    for name, _, term in COMPOSITES:
        line = f'composite_of composites.{name} = {term}'
        if len(line) > 118:
            at = line.rfind(' ∷ ', 0, 116)
            line = line[:at] + '\n   ' + line[at:]
        spec.append(line + '\n')
    write('specs/Composites.antt', ''.join(spec))


def write_entry(arms):
    body = '\n'.join(f'        {arm}' for arm in arms)
    modules = ', '.join(sorted(c.lower() for c in CATEGORIES))
    head = ['//! The entry of each kind.', '', '// Written by tools/rows.py.', '',
            'ghost use Rattle.reader_table.specs.Kinds.{kind_of};',
            'ghost use Rattle.reader_table.specs.Ops.{gram_of};',
            'ghost use Rattle.std.specs.Prelude.{◌≡◌};', 'ghost use Rattle.syn_grammar.specs.Table.{table};', '',
            'use crate::kind::Kind;', 'use crate::op::Op;', f'use crate::{{{modules}}};', '',
            '/// The entry of a kind, as steps.', "pub fn entry(kind: Kind) -> &'static [Op]",
            '    ensures { gram_of result.now ≡ table (kind_of kind) }', '{', '    match kind {', body, '    }', '}',
            '']
    write('src/entry.rt', '\n'.join(head))
    plain = [re.match(r'Kind::(\w+) =>', arm) for arm in arms]
    answers('entry/entry', ['use Rattle.std.proofs.Common.{sym, ap}', 'use Rattle.syn_grammar.specs.Gram.{Gram}',
                            'use Rattle.syn_grammar.specs.Table.{table}',
                            'use Rattle.reader_table.specs.Kinds.{kind_of}',
                            'use Rattle.reader_table.specs.declared.kind.Kind.{Kind}'],
            [(m.group(1), 'table', f'sym (ap entry_of c.in-{m.group(1)}.is)') for m in plain if m],
            ['abbrev entry_of : Kind → Gram', 'entry_of k = table (kind_of k)', ''])


def write_forms(rows):
    body, arms = [], {'fronts': [], 'backs': []}
    for which in arms:
        steps = {}
        for value in PARAMETERS['Position']:
            cases = items_of(rows.world.get(SPECS + 'Forms', which)((value,)))
            steps[value] = [f'Case {{ kind: {kind_code(c[1])}, look: {rows.look(c[2])} }}' for c in cases]
        names = named_once(which.capitalize(), steps)
        body += [static(own, 'Case', row) for own, row in {names[v]: steps[v] for v in steps}.items()]
        arms[which] += [f'        Position::{value} => &{own},' for value, own in names.items()]
    foot = []
    for which, words_ in (('fronts', 'The forms that begin in a position, in the order in which they are looked for.'),
                          ('backs', 'The forms whose left operand stands before them in a position, in their order.')):
        foot += ['', f'/// {words_}', f"pub fn {which}(position: Position) -> &'static [Case]",
                 f'    ensures {{ cases_of result.now ≡ {which} (position_of position) }}', '{',
                 '    match position {'] + arms[which] + ['    }', '}']
    text_ = '\n'.join(body)
    head = ['//! Which forms of expressions begin at tokens, and which have their left operand before them.', '',
            '// Written by tools/rows.py.', '',
            'ghost use Rattle.reader_table.specs.Cases.{cases_of};',
            'ghost use Rattle.reader_table.specs.Kinds.{position_of};', 'ghost use Rattle.std.specs.Prelude.{◌≡◌};',
            'ghost use Rattle.syn_grammar.specs.Forms.{backs, fronts};', '']
    write('src/form.rt', '\n'.join(head + uses(text_ + 'Position', set()) + ['', text_] + foot + ['']))
    for which in arms:
        answers(f'form/{which}', ['use Rattle.std.proofs.Common.{sym, ap}', 'use Rattle.syn_grammar.specs.Forms as f',
                                  'use Rattle.reader_table.specs.Kinds.{position_of}',
                                  'use Rattle.reader_table.specs.declared.kind.Position.{Position}'],
                [(v, None, f'sym (ap (λ (p : Position). f.{which} (position_of p)) c.in-{v}.is)')
                 for v in PARAMETERS['Position']])


def elements(lines):
    """The elements of a table that is formatted, each as one line."""
    found = ['']
    for line in lines:
        found[-1] = f'{found[-1]} {line.strip()}'.lstrip()
        if line[4] != ' ' and line.endswith(','):
            found.append('')
    tight = [re.sub(r',?\s*([})])', lambda end: ' }' if end[1] == '}' else ')', it[:-1]) for it in found[:-1]]
    return [it.replace('( ', '(') for it in tight]


def laid_out(head, type_, steps, width=118):
    """A table in rows, as many steps a row as it has room for, and a case a row."""
    lone = f'{head}[{", ".join(steps)}];'
    if len(lone) <= width and type_ != 'Case':
        return ['#[rattlefmt::skip]', lone]
    rows = []
    for step in steps:
        if rows and type_ != 'Case' and len(rows[-1]) + len(step) + 2 <= width:
            rows[-1] += f' {step},'
        else:
            rows.append(f'    {step},')
    return ['#[rattlefmt::skip]', f'{head}[', *rows, '];']


def in_rows(path):
    """Lays out each table of a file that is formatted, where that takes fewer lines than a step a line."""
    with open(path, encoding='utf8') as file:
        lines, out = file.read().split('\n'), []
    while lines:
        begun = re.match(r'((?:pub\(crate\) )?static \w+: \[(\w+); \d+\] = )\[$', lines[0])
        if begun:
            end = lines.index('];') + 1
            rows = laid_out(*begun.groups(), elements(lines[1:end - 1]))
            out += rows if len(rows) < end else lines[:end]
        else:
            end = 1
            out.append(lines[0])
        lines = lines[end:]
    with open(path, 'w', encoding='utf8') as file:
        file.write('\n'.join(out))


def main():
    rows = Rows()
    write_forms(rows)
    write_composites(rows)
    write_entry(write_rows(rows))
    crate = os.path.dirname(HERE)
    subprocess.run(['rt', 'fmt'], cwd=crate, check=True, stdout=subprocess.DEVNULL)
    for path in glob.glob(f'{crate}/src/*.rt'):
        in_rows(path)


if __name__ == '__main__':
    main()
