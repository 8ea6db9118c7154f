//! Lent bytes that end at, or start behind, a page that nothing may touch.

use std::ptr::null_mut;

const PAGE: usize = 4096;
const NO_ACCESS: i32 = 0;
const READ_WRITE: i32 = 3;
const PRIVATE_ANONYMOUS: i32 = 0x22;

extern "C" {
    fn mmap(at: *mut u8, length: usize, access: i32, kind: i32, file: i32, offset: i64) -> *mut u8;
    fn mprotect(at: *mut u8, length: usize, access: i32) -> i32;
    fn munmap(at: *mut u8, length: usize) -> i32;
}

/// Pages with one on either side that a read or a write of would end the process.
pub struct Guarded {
    start: *mut u8,
    length: usize,
}

impl Guarded {
    pub fn new(bytes: usize) -> Guarded {
        let length = bytes.div_ceil(PAGE).max(1) * PAGE;
        // SAFETY: fresh anonymous pages, of which the inner ones are opened.
        let start = unsafe {
            let outer = mmap(null_mut(), length + 2 * PAGE, NO_ACCESS, PRIVATE_ANONYMOUS, -1, 0);
            assert!(outer as isize != -1, "no memory for guarded pages");
            let inner = outer.add(PAGE);
            assert_eq!(mprotect(inner, length, READ_WRITE), 0, "pages stay closed");
            inner
        };
        Guarded { start, length }
    }

    /// The bytes, placed so that the next one is on the closed page.
    pub fn ending(&mut self, bytes: &[u8]) -> &mut [u8] {
        let at = self.length.checked_sub(bytes.len()).expect("the bytes fit in the open pages");
        self.place(at, bytes)
    }

    /// The bytes, placed so that the one before is on the closed page.
    pub fn starting(&mut self, bytes: &[u8]) -> &mut [u8] {
        self.place(0, bytes)
    }

    fn place(&mut self, at: usize, bytes: &[u8]) -> &mut [u8] {
        assert!(at + bytes.len() <= self.length);
        // SAFETY: the part lies in the open pages, which this value owns.
        let part = unsafe { std::slice::from_raw_parts_mut(self.start.add(at), bytes.len()) };
        part.copy_from_slice(bytes);
        part
    }
}

impl Drop for Guarded {
    fn drop(&mut self) {
        // SAFETY: the pages that `new` made, and only once.
        unsafe { munmap(self.start.sub(PAGE), self.length + 2 * PAGE) };
    }
}

/// A call that is lent two rows of bytes, made four times: each row ends at, or starts behind, a page that nothing may
/// touch. Gives what all four give; where they differ, the message says that `what` depends on the place.
pub fn in_four_places<T: PartialEq>(
    [first_pages, second_pages]: &mut [Guarded; 2],
    [first, second]: [&[u8]; 2],
    what: &str,
    mut call: impl FnMut(&mut [u8], &mut [u8]) -> Result<T, String>,
) -> Result<T, String> {
    let ends_end = call(first_pages.ending(first), second_pages.ending(second))?;
    let ends_start = call(first_pages.ending(first), second_pages.starting(second))?;
    let starts_end = call(first_pages.starting(first), second_pages.ending(second))?;
    let starts_start = call(first_pages.starting(first), second_pages.starting(second))?;
    if [ends_start, starts_end, starts_start].iter().all(|other| *other == ends_end) {
        Ok(ends_end)
    } else {
        Err(format!("{what} depends on the place"))
    }
}
