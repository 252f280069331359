//! The part of the crate `tracing` that rust-analyzer's parser asks for, which does nothing.

pub struct Span;

impl Span {
    pub fn entered(self) -> Self {
        self
    }
}

#[macro_export]
macro_rules! info_span {
    ($($told:tt)*) => {
        $crate::Span
    };
}
