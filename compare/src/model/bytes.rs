//! Reading numbers, high byte first.

pub fn word(four: &[u8]) -> u32 {
    u32::from_be_bytes([four[0], four[1], four[2], four[3]])
}

/// What is left to be read of a file.
pub struct Rest<'a>(pub &'a [u8]);

impl<'a> Rest<'a> {
    pub fn is_empty(&self) -> bool {
        self.0.is_empty()
    }

    /// A count and as many words. None if the bytes don't suffice.
    pub fn counted_words(&mut self) -> Option<impl Iterator<Item = u32> + 'a> {
        let count = word(self.take(4)?) as u64;
        let bytes = self.take(count * 4)?;
        Some(bytes.chunks_exact(4).map(word))
    }

    fn take(&mut self, length: u64) -> Option<&'a [u8]> {
        if length > self.0.len() as u64 {
            return None;
        }
        let (taken, rest) = self.0.split_at(length as usize);
        self.0 = rest;
        Some(taken)
    }
}
