//! Tables that are right but for a sum that is off by one, at each of their bytes: short ones and longer ones, which the
//! library sums in two ways, of lengths with every remainder by sixteen, and with bytes lent behind them.

use second::answer::number::CHECKSUM;
use second::damage::put_checksum_within_length;
use second::frame::LEAST_LENGTH;
use second::wire::put_u32;
use second::{check, samples};

/// The least Length of each sort of table, and of how many lengths it is taken.
const LEAST: [usize; 2] = [LEAST_LENGTH, 256];
const LENGTHS: usize = 16;
/// Lent behind a table in part or whole. No part sums to 0, and none does with a table that is off by one.
const TAIL: [u8; 7] = [1, 2, 3, 4, 5, 6, 7];
const LENGTH_AT: usize = 4;
const HEAP_LENGTH_AT: usize = 40;

/// A table of this Length whose sum is right: K1 with another heap. It is accepted if its name still fits.
fn table(length: usize) -> Vec<u8> {
    let mut table = samples::smallest();
    table.resize(length, b'x');
    put_u32(&mut table, LENGTH_AT, length as u32);
    put_u32(&mut table, HEAP_LENGTH_AT, (length - LEAST_LENGTH) as u32);
    put_checksum_within_length(&mut table);
    table
}

/// Each of these tables with each part of the tail, first as it is, then with one byte after the other raised by one.
pub fn each(mut compare: impl FnMut(&[u8]) -> Result<(), String>) -> Result<(), String> {
    let lengths = LEAST.into_iter().flat_map(|least| least..least + LENGTHS);
    for length in lengths {
        let table = table(length);
        for tail in 0..=TAIL.len() {
            each_raised([&table, &TAIL[..tail]].concat(), length, &mut compare)?;
        }
    }
    Ok(())
}

/// The sum is what the second program refuses a raised table for, unless it is refused before its sum is taken.
fn each_raised(
    mut lent: Vec<u8>,
    length: usize,
    compare: &mut impl FnMut(&[u8]) -> Result<(), String>,
) -> Result<(), String> {
    assert!(check(&lent).is_done() || check(&lent).number > CHECKSUM);
    compare(&lent)?;
    for place in 0..length {
        lent[place] = lent[place].wrapping_add(1);
        assert!((1..=CHECKSUM).contains(&check(&lent).number));
        compare(&lent)?;
        lent[place] = lent[place].wrapping_sub(1);
    }
    Ok(())
}

#[cfg(test)]
mod tests {
    use super::*;
    use second::wire::u32_at;

    const CHECKSUM_AT: usize = 9;

    /// Whether a check is found out that counts one byte of the sum so many times, the one at a place by the Length.
    fn is_found(place: impl Fn(usize) -> usize, times: u8) -> bool {
        each(|lent| {
            let mut other = lent.to_vec();
            if let Some(byte) = lent.get(place(u32_at(lent, LENGTH_AT) as usize)) {
                let more = byte.wrapping_mul(times).wrapping_sub(*byte);
                other[CHECKSUM_AT] = other[CHECKSUM_AT].wrapping_add(more);
            }
            if check(&other) == check(lent) { Ok(()) } else { Err("other".to_string()) }
        })
        .is_err()
    }

    #[test]
    fn a_byte_left_out_or_taken_twice_is_found() {
        for times in [0, 2] {
            assert!(is_found(|length| length - 1, times));
            assert!(is_found(|length| length / 4 * 4, times));
            assert!(is_found(|length| length / 2, times));
            assert!(is_found(|length| if length < 256 { 0 } else { length / 4 * 3 }, times));
            assert!(is_found(|length| length, times));
        }
        assert!(!is_found(|length| length - 1, 1));
    }
}
