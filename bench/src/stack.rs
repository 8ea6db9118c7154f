//! How deep a call reaches into the stack: bytes below the caller are given
//! a pattern, and those that lost it are counted.

use std::arch::asm;

const PAINTED: usize = 64 * 1024;
const RED_ZONE: usize = 256;
const PATTERN: u8 = 0xA5;

#[inline(always)]
fn stack_pointer() -> *mut u8 {
    let pointer: *mut u8;
    // SAFETY: reads a register.
    #[cfg(target_arch = "x86_64")]
    unsafe {
        asm!("mov {}, rsp", out(reg) pointer, options(nomem, nostack))
    };
    #[cfg(target_arch = "aarch64")]
    unsafe {
        asm!("mov {}, sp", out(reg) pointer, options(nomem, nostack))
    };
    pointer
}

/// The deepest byte below this one that the call wrote, as a distance.
#[inline(never)]
pub fn depth<T>(call: impl FnOnce() -> T) -> usize {
    let top = stack_pointer();
    // SAFETY: the bytes below the red zone belong to no live call; volatile
    // writes and reads keep them in order around the call between them.
    unsafe {
        for below in RED_ZONE..PAINTED {
            top.sub(below).write_volatile(PATTERN);
        }
        call();
        (RED_ZONE..PAINTED)
            .rev()
            .find(|below| top.sub(*below).read_volatile() != PATTERN)
            .unwrap_or(RED_ZONE)
    }
}
