//! The peer of `canon.py`: reads Rust source on standard input as a file by syn and prints the tokens of its tree. With
//! the argument `read` it reads and prints nothing, with `lex` it lexes and prints nothing.

use proc_macro2::TokenStream;
use quote::ToTokens;
use std::io::{Read, Write};

fn main() {
    let mut text = String::new();
    std::io::stdin().read_to_string(&mut text).expect("a text");
    let only = std::env::args().nth(1);
    if only.as_deref() == Some("lex") {
        let stream: TokenStream = text.parse().expect("a text that lexes");
        assert!(!stream.is_empty());
        return;
    }
    let file = syn::parse_file(&text).expect("a file");
    if only.is_some() {
        assert!(!file.items.is_empty());
        return;
    }
    let printed = file.into_token_stream().to_string();
    std::io::stdout().write_all(printed.as_bytes()).expect("a place to write");
}
