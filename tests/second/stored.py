"""The stored texts of tests/grammar, each as a whole file: of other kinds a file is put round them."""
import glob
import os

TEXTS = os.path.join(os.path.dirname(os.path.abspath(__file__)), '..', 'grammar', 'texts', '*.txt')
# What is put round a text of a kind. Kinds that aren't here are items, or stand as they are; answers aren't read.
ROUND = {
    'ForeignItem': 'extern {%s}', 'TraitItem': 'trait Q {%s}', 'ImplItem': 'impl Q {%s}',
    'Type': 'type Q = %s;', 'Type-no-plus': 'type Q = &%s;', 'Bound': 'fn q<Q: %s>(){}', 'Path-type': 'type Q = %s;',
    'Pat': 'fn q(){match q {%s => 1}}', 'Pat-several': 'fn q(){match q {%s => 1}}', 'Pat-single': 'fn q(){let %s = q;}',
    'Expr': 'const Q: Q = %s;', 'Expr-condition': 'fn q(){if %s {}}', 'Expr-arm': 'fn q(){match q {_ => %s}}',
    'Expr-statement': 'fn q(){ %s }', 'Path-expr': 'const Q: Q = %s;', 'Macro': 'fn q(){(%s)}',
    'Member': 'fn q(){x.%s}', 'Index': 'fn q(){x.%s}', 'FieldValue': 'fn q(){(S{%s})}', 'Label': 'fn q(){%s loop {}}',
    'Statements': 'fn q(){ %s }', 'Stmt': 'fn q(){ %s }', 'Arm': 'fn q(){match q {%s}}', 'Block': 'fn q() %s',
    'Attributes': '%s struct Q;', 'Meta': '#[%s] struct Q;', 'Visibility': '%s struct Q;',
    'Generics': 'fn q%s(){}', 'Param': 'fn q<%s>(){}', 'Where': 'fn q() %s {}', 'WhereClause': 'fn q() %s {}',
    'Variant': 'enum Q {%s}', 'Field': 'struct Q {%s}', 'Field-unnamed': 'struct Q(%s);',
    'Signature': '%s {}', 'FnArg': 'fn q(%s){}', 'Receiver': 'fn q(%s){}', 'UseTree': 'use %s;',
}


def rows():
    """Kinds with texts. An expression that is built by hand is no text of the language."""
    for path in sorted(glob.glob(TEXTS)):
        with open(path, encoding='utf8') as file:
            for line in file:
                row, answered, _ = line.rstrip('\n').partition(' ==>')
                kind, _, text = row.partition(': ')
                if answered and not line.startswith('# ') and kind != 'built':
                    yield kind, text.replace('\\n', '\n')


def stored_texts():
    """Each text once, as a whole file."""
    return list(dict.fromkeys(ROUND.get(kind, '%s').replace('%s', text) for kind, text in rows()))
