"""The kinds that the steps of reading back are written for, by category, and what is said of some of them by hand."""
import re

import entries
from looks import PATH_KEYWORDS

VALUES, TYPES = entries.parameters()
CATEGORIES = {
    'Paths': '''Path Segments Segment QualifiedPath AnyPath Arguments AnArgument ParenthesizedArguments AMacro
        Delimited Member Index''',
    'Types': '''AType DynType ImplType ReturnType TupleType NeverType ReferenceType PointerType BracketType
        InferType FnPtrType FnPtrArg SomeBounds Bounds Bound TraitPath BoundLifetimes Lifetimes Abi''',
    'Patterns': '''Pattern SeveralPatterns OnePattern IdentPattern WildPattern RangeToPattern RestPattern TuplePattern
        SlicePattern ReferencePattern LiteralPattern PathPattern RangeEnd RangeBound FieldPatterns
        FieldPattern''',
    'Attributes': 'OuterAttributes OuterAttribute InnerAttributes InnerAttribute Meta',
    'Generics': '''Generics ImplGenerics GenericParams GenericParam LifetimeParam LifetimeColon ConstParam TypeParam
        BoundsColon Where WhereClause WherePredicate''',
    'Items': '''Visibility NamedFields UnnamedFields NamedField UnnamedField Variant AStruct AnEnum AUnion AStatic
        AConst AnExternCrate AUse UseTop UseTree UseBranch UseRooted Parameters Parameter FnArg Receiver
        Signature AFunction ATypeAlias ItemMacro Label Body Block ALet AStatement Statements Items
        ForeignItems TraitItems ImplItems AModule AForeignModule AMacroDefinition ATrait AConstTrait
        ARestrictedTrait AnImpl AnItem AForeignItem ATraitItem AnImplItem AFile''',
    'Expressions': '''ExprLit ExprPath ExprMacro ExprParen ExprArray ExprRepeat ExprGroup ExprInfer ExprBlock ExprUnsafe
        ExprAsync ExprConst ExprTryBlock ExprIf ExprMatch ExprLoop ExprWhile ExprForLoop ExprContinue
        ExprTypedClosure ExprStruct ExprCall ExprMethodCall ExprField ExprAwait ExprIndex ExprTry ExprCast
        ExprAttributed ExprUnary ExprRawAddr ExprReference ExprLet ExprBreak ExprReturn ExprYield
        ExprClosure ExprRange ExprRangeClosed ExprAssign ExprOr ExprAnd ExprCompare ExprBitOr ExprBitXor
        ExprBitAnd ExprShift ExprSum ExprProduct FieldValues AFieldValue FieldValue Arms Arm ClosureParam''',
}


def at_values(name):
    """A kind at each value of what it has besides its name."""
    return [(name, value) for value in VALUES[TYPES[name]]] if name in TYPES else [(name,)]


# Each kind with its category.
KINDS = {kind: category for category, names in CATEGORIES.items() for name in names.split() for kind in at_values(name)}

with open(f'{entries.SPECS}/Ranks.antt', encoding='utf8') as file:
    SKIPS = set(re.findall(r'^skips \(?([A-Z][A-Za-z]*)', file.read(), re.M))

LISTS = [('Items',), ('ForeignItems',), ('TraitItems',), ('ImplItems',)]
# Arms begin with their attributes and their pattern.
ARMS = [('Arm',), ('Arms',)]
# Kinds of which the entry is written, and the step is by hand, since what may follow is said of the kind's tree too.
ENTRIES = {('AType', 'WithPlus')}
# Kinds whose step is proved in the crate laws_reread.
ABOVE = {('AStatement',)}

# What may not follow, where it isn't read off the entry.
POSITIONS = {('Expression', 'Plain'): ['no (the_end or marks "," or marks ";" or marks "=>")'],
             ('Expression', 'InCondition'): ['no brace'],
             ('Expression', 'InArm'): ['no (the_end or marks ",")'],
             ('Expression', 'InStatement'): ['no (the_end or marks ";")']}
# What may not follow, where it is said of the kind's tree too.
BEHIND = {**POSITIONS, **{kind: ['no the_end'] for kind in LISTS},
          ('AFieldValue',): ['no the_end'], ('AStatement',): ['no the_end'], ('Statements',): ['no the_end'],
          ('Arms',): ['no the_end'], ('Arm',): ['maybe the_end'], ('ImplGenerics',): ['impl_generics_stand']}
# What more may not follow, where a second token decides.
BESIDES = {('OnePattern',): ['marks ".."']}


# First tokens that are written by hand.

def words(text):
    return [('word', it) for it in text.split()]


ATTRIBUTE = ('then', '#', ('open', 'Bracket'))
NAME = [('ident',), ('word', 'Self')]
NAMES = [('ident',), *words('Self'), *(('word', it) for it in PATH_KEYWORDS)]
MACRO = [('ident',), *(('word', it) for it in PATH_KEYWORDS), ('sign', '::')]
ITEM = words('const async unsafe extern fn use static mod type struct enum union auto trait default impl')
FORMS = [ATTRIBUTE, ('lit', 'any_text'), ('tick',),
         *(('open', it) for it in ('Brace', 'Parenthesis', 'Bracket', 'None')),
         *words('true false loop while for static move const async unsafe _ try if match continue break return yield '
                'let'), *(('sign', it) for it in ('|', '&', '*', '!', '-', '..=', '..', '<')),
         *NAMES, *(('then', '::', it) for it in NAMES)]


def among(front, others):
    """What an item among others begins with, in a place: the tokens of a raw one, attributes, these words, a macro."""
    return [('raw',), ATTRIBUTE, *words(front), *others, *MACRO]


IN_FILE, IN_FOREIGN = among('pub', ITEM), among('pub const async unsafe safe extern fn unsafe safe static type', [])
IN_TRAIT = among('pub default const async unsafe extern fn const type', [])
STATEMENT = [*IN_FILE[:2], ('word', 'let'), *IN_FILE[2:]]
STARTS = {
    **{kind: [] for kind in LISTS}, ('ALet',): words('let'),
    ('ATypeAlias', 'InFile'): words('type'), ('ATypeAlias', 'InForeign'): words('type'),
    ('AnItem',): IN_FILE, ('Items',): IN_FILE, ('AForeignItem',): IN_FOREIGN, ('ForeignItems',): IN_FOREIGN,
    ('ATraitItem',): IN_TRAIT, ('AnImplItem',): IN_TRAIT, ('TraitItems',): IN_TRAIT, ('ImplItems',): IN_TRAIT,
    ('AStatement',): STATEMENT, ('Statements',): [('sign', ';'), *STATEMENT],
    ('ImplGenerics',): [('sign', '<')], ('AnImpl',): words('default const unsafe impl'),
    ('AFieldValue',): [('sign', '..'), ATTRIBUTE, ('ident',), ('ident',), ('lit', 'is_index')],
    **{kind: [it for it in FORMS if kind[1] != 'InStatement' or it != ('word', 'let')] for kind in POSITIONS},
}


def shown(kind):
    return kind[0] if len(kind) == 1 else f'({" ".join(kind)})'


def snake(kind):
    """The name of a kind in a lemma's name."""
    return '_'.join(re.sub(r'(?<!^)([A-Z])', r'_\1', it).lower() for it in kind)
