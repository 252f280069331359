
// What stands behind the text of Debian's proc-macro2, as syn 2 asks for more than that version has.

pub mod extra {
    use crate::Span;

    #[derive(Clone, Copy)]
    pub struct DelimSpan {
        pub(crate) join: Span,
        pub(crate) open: Span,
        pub(crate) close: Span,
    }

    impl DelimSpan {
        pub fn join(&self) -> Span {
            self.join
        }

        pub fn open(&self) -> Span {
            self.open
        }

        pub fn close(&self) -> Span {
            self.close
        }
    }
}

impl Group {
    pub fn delim_span(&self) -> extra::DelimSpan {
        extra::DelimSpan { join: self.span(), open: self.span_open(), close: self.span_close() }
    }
}

impl Literal {
    pub fn c_string(text: &std::ffi::CStr) -> Literal {
        Literal::byte_string(text.to_bytes())
    }
}
