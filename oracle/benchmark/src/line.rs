//! Where the crates of the benchmarks print.

use std::fmt::{self, Write};

/// A line that is written from its start again and again, never cleared.
pub struct Line {
    bytes: [u8; 64],
    len: usize,
}

impl Line {
    pub const fn new() -> Self {
        Line {
            bytes: [0; 64],
            len: 0,
        }
    }

    #[inline]
    pub fn restart(&mut self) {
        self.len = 0;
    }

    /// Writes behind what is there, or nothing if there is no room.
    #[inline]
    pub fn push(&mut self, bytes: &[u8]) -> Option<()> {
        let end = self.len + bytes.len();
        self.bytes.get_mut(self.len..end)?.copy_from_slice(bytes);
        self.len = end;
        Some(())
    }
}

impl Write for Line {
    #[inline]
    fn write_str(&mut self, text: &str) -> fmt::Result {
        self.push(text.as_bytes()).ok_or(fmt::Error)
    }
}
