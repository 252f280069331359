//! A peer of `canon.py`: reads Rust source on standard input by rust-analyzer's parser, which makes events of it and no
//! tree, and fails if there is a fault among them. With the argument `lex` it lexes only. It prints nothing.

use parser::{Edition, LexedStr, Step, TopEntryPoint};
use std::io::Read;

fn main() {
    let mut text = String::new();
    std::io::stdin().read_to_string(&mut text).expect("a text");
    let edition = Edition::Edition2021;
    let lexed = LexedStr::new(edition, &text);
    assert!(lexed.errors().next().is_none(), "a text that lexes");
    if std::env::args().nth(1).is_some() {
        return;
    }
    let output = TopEntryPoint::SourceFile.parse(&lexed.to_input(edition));
    let is_fault = |step| matches!(step, Step::Error { .. });
    assert!(!output.iter().any(is_fault), "a file");
}
