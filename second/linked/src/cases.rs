//! Cases one after the other. A difference tells seed and case, and so does a touch of a closed page, which ends the
//! process.

use std::io::Write;
use std::sync::atomic::{AtomicU64, Ordering::Relaxed};

static SEED: AtomicU64 = AtomicU64::new(0);
static CASE: AtomicU64 = AtomicU64::new(0);

/// So many cases, counted from 1, until one shows a difference. The caller makes them from the seed.
pub fn each(count: u64, seed: u64, mut compare: impl FnMut() -> Result<(), String>) -> Result<(), String> {
    SEED.store(seed, Relaxed);
    for case in 1..=count {
        CASE.store(case, Relaxed);
        compare().map_err(|difference| format!("seed {seed}, case {case}: {difference}"))?;
    }
    Ok(())
}

const BAD_ADDRESS: i32 = 11;
const STANDARD_ERROR: i32 = 2;

extern "C" {
    fn signal(number: i32, handler: extern "C" fn(i32)) -> usize;
    fn write(file: i32, text: *const u8, length: usize) -> isize;
    fn _exit(status: i32) -> !;
}

/// From here on a touch of a page that nothing may touch ends the process with a message and status 1.
pub fn tell_of_touched_pages() {
    // SAFETY: the handler only reads numbers, writes to a file that is open, and ends the process.
    unsafe { signal(BAD_ADDRESS, touched) };
}

extern "C" fn touched(_: i32) {
    let mut text = [0; 120];
    let mut rest = &mut text[..];
    let (seed, case) = (SEED.load(Relaxed), CASE.load(Relaxed));
    // The text fits: both numbers have at most 20 digits.
    let _ = writeln!(rest, "seed {seed}, case {case}: a page that nothing may touch was touched");
    let length = 120 - rest.len();
    // SAFETY: as many bytes as were written.
    unsafe {
        write(STANDARD_ERROR, text.as_ptr(), length);
        _exit(1)
    }
}

#[cfg(test)]
mod tests {
    use super::*;

    #[test]
    fn a_difference_tells_its_seed_and_case() {
        let mut met = 0;
        let compared = each(9, 77, || {
            met += 1;
            if met == 5 { Err("other".to_string()) } else { Ok(()) }
        });
        assert_eq!((met, compared), (5, Err("seed 77, case 5: other".to_string())));
    }
}
