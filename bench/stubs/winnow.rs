//! The part of the crate `winnow` that rust-analyzer's parser asks for: it looks for a frontmatter before the first
//! token.

pub mod stream {
    use std::ops::Range;

    pub struct LocatingSlice<'a> {
        at: usize,
        rest: &'a str,
    }

    impl<'a> LocatingSlice<'a> {
        pub fn new(rest: &'a str) -> Self {
            Self { at: 0, rest }
        }
    }

    impl AsRef<str> for LocatingSlice<'_> {
        fn as_ref(&self) -> &str {
            self.rest
        }
    }

    pub trait Location {
        fn current_token_start(&self) -> usize;
    }

    impl Location for LocatingSlice<'_> {
        fn current_token_start(&self) -> usize {
            self.at
        }
    }

    pub trait Stream<'a> {
        fn next_slice(&mut self, length: usize) -> &'a str;
        fn eof_offset(&self) -> usize;
    }

    impl<'a> Stream<'a> for LocatingSlice<'a> {
        fn next_slice(&mut self, length: usize) -> &'a str {
            let (slice, rest) = self.rest.split_at(length);
            *self = Self { at: self.at + length, rest };
            slice
        }

        fn eof_offset(&self) -> usize {
            self.rest.len()
        }
    }

    pub trait FindSlice {
        fn find_slice(&self, what: &str) -> Option<Range<usize>>;
    }

    impl FindSlice for LocatingSlice<'_> {
        fn find_slice(&self, what: &str) -> Option<Range<usize>> {
            self.rest.find(what).map(|at| at..at + what.len())
        }
    }

    pub trait Offset {
        fn offset_from(&self, start: &Self) -> usize;
    }

    impl Offset for &str {
        fn offset_from(&self, start: &Self) -> usize {
            self.as_ptr() as usize - start.as_ptr() as usize
        }
    }
}
