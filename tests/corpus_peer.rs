//! The peer of `corpus.py`: prints the tokens of a Rust text on standard input, one a line, groups flat. With the
//! argument `file` they are those of the tree that syn reads, with `lex` those of the text. In a token a line feed is
//! printed as `\n` and a backslash as two. Where the text is refused it prints `refused: ..`, and ends with status 1.

use proc_macro2::{Delimiter, TokenStream, TokenTree};
use quote::ToTokens;
use std::io::{Read, Write};
use std::process::ExitCode;

/// What is printed before a group's tokens and behind them.
fn ends(delimiter: Delimiter) -> (&'static str, &'static str) {
    match delimiter {
        Delimiter::Parenthesis => ("(\n", ")\n"),
        Delimiter::Bracket => ("[\n", "]\n"),
        Delimiter::Brace => ("{\n", "}\n"),
        Delimiter::None => ("", ""),
    }
}

fn put(stream: TokenStream, out: &mut String) {
    for tree in stream {
        if let TokenTree::Group(group) = tree {
            let (open, close) = ends(group.delimiter());
            out.push_str(open);
            put(group.stream(), out);
            out.push_str(close);
            continue;
        }
        let text = tree.to_string().replace('\\', "\\\\").replace('\n', "\\n");
        // A literal that is below zero is two tokens of a text.
        match text.strip_prefix('-') {
            Some(rest) if !rest.is_empty() => out.push_str(&format!("-\n{rest}\n")),
            _ => out.push_str(&format!("{text}\n")),
        }
    }
}

fn tokens(of_tree: bool) -> Result<TokenStream, String> {
    let mut text = String::new();
    std::io::stdin().read_to_string(&mut text).map_err(|fault| fault.to_string())?;
    if of_tree {
        return syn::parse_file(&text).map(ToTokens::into_token_stream).map_err(|fault| fault.to_string());
    }
    text.parse().map_err(|fault: proc_macro2::LexError| fault.to_string())
}

fn main() -> ExitCode {
    let of_tree = std::env::args().nth(1).as_deref() == Some("file");
    let (mut out, mut code) = (String::new(), ExitCode::SUCCESS);
    match tokens(of_tree) {
        Ok(stream) => put(stream, &mut out),
        Err(fault) => {
            out = format!("refused: {fault}\n");
            code = ExitCode::from(1);
        }
    }
    std::io::stdout().write_all(out.as_bytes()).expect("a place to write");
    code
}
