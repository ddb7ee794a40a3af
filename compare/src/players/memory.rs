//! Memory between two unmapped pages: whoever reads or writes past its ends is
//! stopped by the processor.

use std::ffi::{c_int, c_long, c_void};
use std::ptr;

const PAGE: usize = 4096;

const PROT_NONE: c_int = 0;
const PROT_READ_AND_WRITE: c_int = 1 | 2;
const MAP_PRIVATE_AND_ANONYMOUS: c_int = 0x02 | 0x20;

unsafe extern "C" {
    fn mmap(
        at: *mut c_void,
        length: usize,
        protection: c_int,
        flags: c_int,
        file: c_int,
        offset: c_long,
    ) -> *mut c_void;
    fn mprotect(at: *mut c_void, length: usize, protection: c_int) -> c_int;
    fn munmap(at: *mut c_void, length: usize) -> c_int;
}

/// Which unmapped page a part of the memory touches.
#[derive(Clone, Copy, Debug, PartialEq, Eq)]
pub enum Side {
    /// It begins right after one.
    Start,
    /// It ends right before one.
    End,
}

/// Memory of whole pages between two pages that are not mapped.
pub struct Guarded {
    /// Where the mapping begins, one page before the memory.
    mapping: *mut u8,
    length: usize,
}

impl Guarded {
    /// Memory for at least so many bytes, all of them 0.
    ///
    /// # Errors
    ///
    /// There is none. The message is one line.
    pub fn new(bytes: usize) -> Result<Self, String> {
        let length = bytes.next_multiple_of(PAGE);
        // SAFETY: a new mapping of its own touches no other memory, and the
        // part that is then opened lies within it.
        let mapping = unsafe {
            let mapping = mmap(
                ptr::null_mut(),
                length + 2 * PAGE,
                PROT_NONE,
                MAP_PRIVATE_AND_ANONYMOUS,
                -1,
                0,
            );
            let within = mapping.wrapping_byte_add(PAGE);
            if mapping.addr() == usize::MAX || mprotect(within, length, PROT_READ_AND_WRITE) != 0 {
                return Err(format!("no memory of {length} bytes to be had"));
            }
            mapping.cast()
        };
        Ok(Self { mapping, length })
    }

    /// All of it.
    pub fn all(&mut self) -> &mut [u8] {
        // SAFETY: `new` has mapped so many bytes, which are lent with `self`.
        unsafe { std::slice::from_raw_parts_mut(self.mapping.add(PAGE), self.length) }
    }

    /// So many bytes on one side, and the bytes beside them.
    ///
    /// # Panics
    ///
    /// There are not so many.
    pub fn part(&mut self, side: Side, bytes: usize) -> (&mut [u8], &mut [u8]) {
        let all = self.all();
        match side {
            Side::Start => all.split_at_mut(bytes),
            Side::End => {
                let (beside, part) = all.split_at_mut(all.len() - bytes);
                (part, beside)
            }
        }
    }
}

/// The floats that these bytes are.
///
/// # Panics
///
/// They are not whole floats, or begin at an odd place.
pub fn floats(bytes: &mut [u8]) -> &mut [f32] {
    // SAFETY: any four bytes are a float.
    match unsafe { bytes.align_to_mut() } {
        ([], floats, []) => floats,
        _ => panic!("these bytes are no floats"),
    }
}

/// The same of numbers of voices.
///
/// # Panics
///
/// They are not whole numbers, or begin at an odd place.
pub fn sizes(bytes: &mut [u8]) -> &mut [usize] {
    // SAFETY: any eight bytes are such a number.
    match unsafe { bytes.align_to_mut() } {
        ([], sizes, []) => sizes,
        _ => panic!("these bytes are no numbers"),
    }
}

impl Drop for Guarded {
    fn drop(&mut self) {
        // SAFETY: it is the mapping that `new` made, and nobody has it any more.
        unsafe { munmap(self.mapping.cast(), self.length + 2 * PAGE) };
    }
}

#[cfg(test)]
mod tests {
    use super::*;

    #[test]
    fn parts_touch_the_unmapped_pages() {
        let mut memory = Guarded::new(5000).unwrap();
        let first = memory.all().as_ptr();
        assert_eq!(memory.all().len(), 2 * PAGE);
        let (part, beside) = memory.part(Side::End, 7);
        assert_eq!(part.as_ptr(), first.wrapping_add(2 * PAGE - 7));
        assert_eq!((part.len(), beside.len()), (7, 2 * PAGE - 7));
        let (part, beside) = memory.part(Side::Start, 0);
        assert_eq!(part.as_ptr(), first);
        beside.fill(9);
        assert_eq!(beside.len(), 2 * PAGE);
    }
}
