//! Mapped memory, and how many of its pages have been touched.

use std::ffi::c_void;
use std::fs::File;
use std::ops::Range;
use std::os::unix::fs::FileExt;

unsafe extern "C" {
    fn mmap(
        at: *mut c_void,
        bytes: usize,
        access: i32,
        kind: i32,
        file: i32,
        offset: i64,
    ) -> *mut c_void;
    fn madvise(at: *mut c_void, bytes: usize, advice: i32) -> i32;
}

const READ_WRITE: i32 = 3;
/// Private, anonymous, and not reserved before it is used.
const KIND: i32 = 0x2 | 0x20 | 0x4000;

/// Advice: nothing of it is needed any more, and no larger pages.
const NOT_NEEDED: i32 = 4;
const NOT_LARGER: i32 = 15;

pub const PAGE: usize = 4096;

/// Bytes of the kernel's entry of a page.
const ENTRY: usize = 8;
/// Of an entry's last byte: the page is in memory, or swapped out.
const PRESENT: u8 = 0x80 | 0x40;

/// A new mapping; all of it is zero and can be read and written.
pub fn mapped(bytes: usize) -> *mut c_void {
    // SAFETY: where it lies is left to the kernel.
    let at = unsafe { mmap(std::ptr::null_mut(), bytes, READ_WRITE, KIND, -1, 0) };
    assert!(at as isize != -1, "no memory was mapped");
    at
}

/// A mapping of whole pages, none of which is present before something is read from it or written
/// to it.
pub struct Pages {
    at: *mut c_void,
    count: usize,
    /// An entry for each page of the process.
    entries: File,
}

impl Pages {
    pub fn new(bytes: usize) -> Self {
        let count = bytes.div_ceil(PAGE);
        let at = mapped(count * PAGE);
        // SAFETY: the mapping. A kernel that has no larger pages does not know the advice.
        unsafe { madvise(at, count * PAGE, NOT_LARGER) };
        let entries = File::open("/proc/self/pagemap").expect("pages can be counted");
        Pages { at, count, entries }
    }

    pub fn at(&self) -> *mut c_void {
        self.at
    }

    /// How many of these pages have been touched.
    pub fn touched(&self, pages: Range<usize>) -> usize {
        let first = self.at as usize / PAGE;
        let mut read = [0; 1 << 15];
        let mut touched = 0;
        for start in pages.clone().step_by(read.len() / ENTRY) {
            let bytes = ENTRY * (pages.end - start).min(read.len() / ENTRY);
            let some = &mut read[..bytes];
            let from = ENTRY * (first + start);
            self.entries
                .read_exact_at(some, from as u64)
                .expect("every page has an entry");
            let present = |entry: &&[u8]| entry[ENTRY - 1] & PRESENT != 0;
            touched += some.chunks_exact(ENTRY).filter(present).count();
        }
        touched
    }

    /// Makes all of it zero and untouched.
    pub fn renew(&self) {
        // SAFETY: the mapping, of which nothing is borrowed.
        let done = unsafe { madvise(self.at, self.count * PAGE, NOT_NEEDED) };
        assert!(done == 0, "the pages were not given up");
    }
}

/// Whether a page that is only read counts, and one that is written, and no other.
pub fn are_counted() -> bool {
    let pages = Pages::new(8 * PAGE);
    let byte = |page: usize| pages.at.cast::<u8>().wrapping_add(page * PAGE + page);
    let mut counts = vec![pages.touched(0..8)];
    // SAFETY: both bytes are inside the mapping.
    unsafe {
        byte(2).read_volatile();
        counts.push(pages.touched(0..8));
        byte(5).write_volatile(1);
    }
    counts.extend([0..8, 2..3, 5..6].map(|some| pages.touched(some)));
    pages.renew();
    counts.push(pages.touched(0..8));
    counts == [0, 1, 2, 1, 1, 0]
}
