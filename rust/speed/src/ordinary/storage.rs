//! How storage behaves, by the strip.

/// The strip, and how much of it is read.
pub struct Storage<'a> {
    strip: &'a [u8],
    read: usize,
}

impl<'a> Storage<'a> {
    pub fn new(strip: &'a [u8]) -> Self {
        Storage { strip, read: 0 }
    }

    /// The next byte; past the end reads 0.
    pub fn next(&mut self) -> u8 {
        let byte = self.strip.get(self.read).copied().unwrap_or(0);
        self.read += 1;
        byte
    }
}
