//! What outputs, maps and buffers hold before they are lent, so that a byte shows whether it was written.

use second::random::Random;

/// A long row of bytes that is made once: to cut noise from it costs one number, however long it is.
pub struct Noise {
    row: Vec<u8>,
}

impl Noise {
    /// Nothing that is cut from it can be longer.
    pub fn new(random: &mut Random, longest: usize) -> Noise {
        Noise { row: random.bytes(longest) }
    }

    /// As many bytes from any place in the row.
    pub fn cut(&self, random: &mut Random, length: usize) -> &[u8] {
        let start = random.below(self.row.len() - length + 1);
        &self.row[start..start + length]
    }
}
