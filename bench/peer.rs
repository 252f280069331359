//! The peer of `shapes.py`: reads a text on standard input and lexes it with proc-macro2's own lexer; with the
//! argument `print` it writes the tokens to standard output.

use std::io::{Read, Write};

fn main() {
    let prints = std::env::args().nth(1).as_deref() == Some("print");
    let mut text = String::new();
    std::io::stdin().read_to_string(&mut text).expect("a text");
    let stream: proc_macro2::TokenStream = match text.parse() {
        Ok(stream) => stream,
        Err(_) => std::process::exit(1),
    };
    if prints {
        let printed = stream.to_string();
        std::io::stdout().write_all(printed.as_bytes()).expect("written");
    }
}
