//! Lent bytes with a margin on either side that is not lent, so that a write outside of them shows.

/// How many bytes a margin has, more than an entry of a record that is read whole, and what they hold.
const MARGIN: usize = 256;
const UNLENT: u8 = 0xA5;

/// Bytes to lend, between their margins.
pub struct Margined {
    around: Vec<u8>,
}

impl Margined {
    pub fn new(bytes: &[u8]) -> Margined {
        Margined { around: [&[UNLENT; MARGIN], bytes, &[UNLENT; MARGIN]].concat() }
    }

    /// The bytes within the margins: only these are lent.
    pub fn within(&mut self) -> &mut [u8] {
        let end = self.around.len() - MARGIN;
        &mut self.around[MARGIN..end]
    }

    pub fn margins_stay(&self) -> bool {
        let end = self.around.len() - MARGIN;
        self.around[..MARGIN].iter().chain(&self.around[end..]).all(|byte| *byte == UNLENT)
    }
}

#[cfg(test)]
mod tests {
    use super::*;

    #[test]
    fn a_write_shows_at_every_place_outside_and_at_none_within() {
        for length in 0..3 {
            for place in 0..MARGIN + length + MARGIN {
                let mut lent = Margined::new(&vec![UNLENT; length]);
                assert!(lent.margins_stay());
                lent.around[place] ^= 1;
                let is_within = lent.within().iter().any(|byte| *byte != UNLENT);
                assert_eq!(lent.within().len(), length);
                assert_eq!(lent.margins_stay(), is_within);
            }
        }
    }
}
