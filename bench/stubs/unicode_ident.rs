//! Debian's `unicode_ident`, here `ident`, with a constant that rustc's lexer compares with that of
//! `unicode_properties`.

pub use ident::{is_xid_continue, is_xid_start};

pub const UNICODE_VERSION: (u8, u8, u8) = (0, 0, 0);
