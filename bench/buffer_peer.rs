//! The peer of `buffer.py`: does with syn's own buffer what `bench_buffer` does. It reads Rust source on standard input
//! and lexes it; with a number as first argument it makes the buffer of its tokens and walks it so often, and with a
//! second argument it looks at each place for kinds too. It writes how many tokens of each sort it met.

use proc_macro2::{Delimiter, Ident, TokenStream};
use std::io::Read;
use syn::buffer::{Cursor, TokenBuffer};
use syn::token::Token;

#[derive(Default)]
struct Counts {
    idents: u64,
    lifetimes: u64,
    marks: u64,
    literals: u64,
    groups: u64,
    kinds: u64,
}

/// Looks for a keyword, for a name, and for punctuations of one mark, two and three.
fn look(at: Cursor, counts: &mut Counts) {
    let found = <syn::Token![fn]>::peek(at)
        || Ident::peek(at)
        || <syn::Token![,]>::peek(at)
        || <syn::Token![::]>::peek(at)
        || <syn::Token![..=]>::peek(at);
    counts.kinds += u64::from(found);
}

/// Past the token that stands there, if no group opens there.
fn past_leaf<'a>(at: Cursor<'a>, counts: &mut Counts) -> Option<Cursor<'a>> {
    if let Some((_, behind)) = at.ident() {
        counts.idents += 1;
        return Some(behind);
    }
    if let Some((_, behind)) = at.lifetime() {
        counts.lifetimes += 1;
        return Some(behind);
    }
    if let Some((_, behind)) = at.punct() {
        counts.marks += 1;
        return Some(behind);
    }
    let (_, behind) = at.literal()?;
    counts.literals += 1;
    Some(behind)
}

/// Past the group that stands there, which is walked.
fn past_group<'a>(at: Cursor<'a>, by_kinds: bool, counts: &mut Counts) -> Option<Cursor<'a>> {
    let delimiters = [Delimiter::Parenthesis, Delimiter::Brace, Delimiter::Bracket];
    let (inside, _, behind) = delimiters.into_iter().find_map(|delimiter| at.group(delimiter))?;
    counts.groups += 1;
    walk(inside, by_kinds, counts);
    Some(behind)
}

fn walk(mut at: Cursor, by_kinds: bool, counts: &mut Counts) {
    while !at.eof() {
        if by_kinds {
            look(at, counts);
        }
        match past_leaf(at, counts).or_else(|| past_group(at, by_kinds, counts)) {
            Some(behind) => at = behind,
            None => return,
        }
    }
}

fn main() {
    let mut text = String::new();
    std::io::stdin().read_to_string(&mut text).expect("a text");
    let stream: TokenStream = text.parse().expect("a text that lexes");
    let mut args = std::env::args().skip(1);
    let Some(walks) = args.next() else {
        return;
    };
    let walks: u32 = walks.parse().expect("a number of walks");
    let by_kinds = args.next().is_some();
    let buffer = TokenBuffer::new2(stream);
    let mut counts = Counts::default();
    for _ in 0..walks {
        walk(buffer.begin(), by_kinds, &mut counts);
    }
    let Counts { idents, lifetimes, marks, literals, groups, kinds } = counts;
    print!("{idents} identifiers, {lifetimes} lifetimes, {marks} marks, ");
    println!("{literals} literals, {groups} groups, {kinds} kinds");
}
