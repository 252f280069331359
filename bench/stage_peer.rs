//! The peer of `stages.py`: reads Rust source by syn, and prints it. Two numbers stand on the first line of standard
//! input, and the text behind it: how often its tokens are read as a file, and how often the tokens of what was read
//! are printed.

use proc_macro2::TokenStream;
use quote::ToTokens;
use std::io::Read;

fn main() {
    let mut asked = String::new();
    std::io::stdin().read_to_string(&mut asked).expect("a text");
    let (line, text) = asked.split_once('\n').expect("a line");
    let (reads, prints) = line.split_once(' ').expect("two numbers");
    let count = |word: &str| word.parse::<usize>().expect("a number");
    let stream: TokenStream = text.parse().expect("a text that lexes");
    let read = || syn::parse2::<syn::File>(stream.clone()).expect("a file");
    for _ in 1..count(reads) {
        assert!(!read().items.is_empty());
    }
    let file = read();
    let lengths = (0..count(prints)).map(|_| file.to_token_stream().to_string().len());
    println!("{}", lengths.max().unwrap_or(0));
}
