"""The pieces of which random texts are made: tokens, parts of expressions and their places, characters, items."""

# Texts of one token or a few, which are put into others.
PIECES = '''a b c S T x self super crate Self union auto default safe raw macro_rules r#fn r#a _ as async await box
    break const continue dyn else enum extern false fn for if impl in let loop macro match mod move mut pub ref
    return static struct super trait true try type unsafe use where while yield :: : ; , . .. ..= ... = == => -> <-
    + - * / % ^ & && | || ! != < <= > >= << >> <<= >>= += -= *= /= &= |= @ # $ ? ~ 'a 'static '_ 'b 1 0 1.0 0.1 1.
    0x1 1u8 1e5 1f32 "s" b"b" c"c" 'c' b'b' r"r" r#"r"# 1_0 () {} [] (a) {a} [a] #[a] #![a] (a,) (a,b) {a:b} {;}
    m!{} m!() a::b ::a <T> ::<T> <T>::a |x| pub(crate) for<'a> extern"C" 'a: =1 :T &mut ..a a.. -1 =>a, a=>a, if{}
    else{} #[a=1]'''.split()
PIECES += ['<T as A>::B', 'pub(in a)', 'where T:A', 'let a=b', 'dyn A', 'impl A', 'fn f();', 'fn f(){}', 'if a{}']

PREFIXES = ['-', '&', '!', '*', '&mut', '&raw const', '&raw', 'return', 'break', "break 'a", 'yield', '|x|', '||',
            'move ||', '|x: T|', 'async ||', 'static ||', 'const ||', "for<'a> ||", 'let p =', 'let a | b =', '#[x]',
            '#[x] ..', '#[x] ..=', '..', '..=']
POSTFIXES = ['.f', '.0', '.1.2', '. 1.', '.await', '.g()', '.g::<T>()', '?', '(b)', '[b]']
CASTS = ['as T', 'as u8', 'as T<U>', 'as _', 'as &T', 'as dyn A', 'as fn()->T', 'as [T]']
OPERATORS = ['+', '-', '*', '/', '&', '&&', '|', '||', '==', '<', '>', '<=', '!=', '=', '+=', '<<=', '>>', '<<', '^',
             '..', '..=', ',', ';', '=>']
ATOMS = ['a', 'b', 'c', '1', '1.5', 'x.0.1', 'S', 'self', 'crate', '::a', 'a::b', '<T>::a', 'a::<T>', '"s"', 'true',
         '_', '(a)', '(a,)', '()', '[]', '[a; b]', '{}', '{b}', '{ ..a }', '({})', 'S{}', 'S{a}', 'S{..}',
         'S{a: b, ..c}', 'm!{}', 'm!()', 'm![]', 'if a {}', 'if a {} else {}', 'match a {}', 'loop {}', "'a: {}",
         "'a: loop {}", 'unsafe {}', 'async {}', 'async move {}', 'const {}', 'try {}', 'while a {}',
         'for a in b {}', 'continue', "continue 'a", '|| -> T {}', 'else', 'in', 'if']
PLACES = ['const Q: Q = %s;', 'const Q: Q = %s;', 'fn q(){if %s {}}', 'fn q(){while %s {} }', 'fn q(){match %s {}}',
          'fn q(){for p in %s {} }', 'fn q(){match q {_ => %s}}', 'fn q(){match q {_ => %s, p => q}}',
          'fn q(){match q {_ => %s p => q}}', 'fn q(){match q {_ if %s => 1}}', 'fn q(){ %s }', 'fn q(){ %s }',
          'fn q(){ %s; }', 'fn q(){fn g();%s }', 'fn q(){use {::a};%s; x }', 'fn q(){ #[s] %s }',
          'fn q(){ #[s] %s; }', 'fn q(){ let x = %s; }', 'fn q(){ let x = %s else {}; }',
          'fn q(){ if let p = %s {} }', 'fn q(){ (S{x: %s}) }', 'fn q(){ f(%s) }', 'fn q(){ x[%s] }',
          '#[a = %s] struct S;', 'type A = [T; %s];', 'enum E { A = %s, B }', 'struct S { a: T = %s }',
          'fn q(){ %s x }', 'fn q(){ if || %s {} }', 'fn q(){ if return %s {} }', 'fn q(){ if break %s {} }']

CHARACTERS = list('"\'#rbcaZ_eExo012 89fg.+-/*~!@$%^&=|;:,<>?`()[]{}\\\r\n\t') + [
    '##', 'br', 'cr', 'r#', "b'", '\\n', '\\x41', '\\x7f', '\\x80', '\\xff', '\\x00', '\\x4', '\\u{41}', '\\u{0}',
    '\\u{00_0}', '\\u{_1}', '\\u{1_}', '\\u{110000}', '\\u{d800}', '\\u{1234567}', '\\u{}', '\\0', '\\\n', '\\\r\n',
    '\\\r', '\r\n', '..', '0x', '0b', '0o', '1e', '1e+', '1e_', '1E-_1', '0.', '.0', '1_', '1__2', 'u8', 'f32', '//',
    '///', '////', '//!', '/*', '*/', '/**', '/***', '/*!', '/**/', '\u00e9', '\u00f1', '\u0301', '\u200e', '\u200f',
    '\u00a0', '\u2028', '\ufeff', '\u00b7', '\u2118', '\u1369', '\u00df', '\u65e5', '\U0001d4b3', '\U0001f600',
    '\u00ad', '\x00', '\x01', '\x7f', '\x0b', '\x0c', '\x1c', '\x85', '\u3000', 'self', 'Self', 'super', 'crate',
    'fn', '"a"', "'a'", "'a", 'r"a"', 'r#"a"#', 'b"a"', 'c"a"', '// c\n', '/* c */', '/// d\n', '//! d\n',
    '/** d */', '/*! d */', "\\'", '\\"', '#"', '"#', "'r#a", "'r#", "'_", "''", "b''", "'\\''"]

ITEMS = ['struct S;', 'struct r#S<T>(T);', 'pub struct A{a: T}', 'fn f(){}', 'async fn f();', 'fn f();',
         'pub(crate) const unsafe extern "C" fn g(){fn inner(){}}', 'const A: T = 1;', 'const _: T = 1;',
         'const A: T;', 'const r#fn<>: T = 1;', 'static A: T = 1;', 'static mut B: T = 1;', 'static C: T;', 'mod m;',
         'mod m {', 'pub unsafe mod try {', 'mod r#mod {', '}', '}', '}', 'use a::b;', 'use {::a};',
         'extern crate a;', 'extern crate a as b;', 'extern crate self as _;', 'extern "C" { fn f(); }',
         'unsafe extern {}', 'union U {a: T}', 'enum E {A, B}', 'type A = B;', 'type A: B = C;',
         "type A<'a, T> where T: B = C;", 'trait T {fn f();}', 'unsafe auto trait T {}', 'auto trait T {}',
         'pub trait A = B;', 'const trait A {}', 'trait A<T>: B {}', 'impl A {}', 'impl A for B {fn f(){}}',
         'macro_rules! m {}', 'macro_rules! r#x ();', 'a::b! {}', 'm!();', '::m! try [];', 'macro m {}',
         'pub macro m() {}', '#[a] #[b = 1] fn h(){}', '/// doc\nfn d(){}', '//! x\n', '/** a\nb */ struct D;',
         '/* \u00e9 */ fn \u00e9(){}', '// \U0001d4b3\nstruct \U0001d4b3;', '#[a] mod \u00e9 {', 'unsafe mod x;',
         'safe!{}', 'union!{}', 'auto!();', 'default!{}', 'default impl A for B {}', '\n', '\r\n', ' ',
         'impl(crate) trait A {}', 'impl(in a) unsafe auto trait A {}']
