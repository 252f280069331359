//! The part of the crate `drop_bomb` that rust-analyzer's parser asks for: a mark that must be defused.

pub struct DropBomb {
    message: &'static str,
    is_defused: bool,
}

impl DropBomb {
    pub fn new(message: &'static str) -> Self {
        Self { message, is_defused: false }
    }

    pub fn defuse(&mut self) {
        self.is_defused = true;
    }
}

impl Drop for DropBomb {
    fn drop(&mut self) {
        if !self.is_defused && !std::thread::panicking() {
            panic!("{}", self.message);
        }
    }
}
