//! Memory passed to a call: next to an unreadable page, from malloc and exactly as long, or in
//! pages that nothing has touched.

use crate::pages::{PAGE, Pages, mapped};
use std::ffi::c_void;
use std::fmt::{Debug, Formatter, Result};
use std::ops::Range;

unsafe extern "C" {
    fn mprotect(at: *mut c_void, bytes: usize, access: i32) -> i32;
    fn malloc(bytes: usize) -> *mut c_void;
    fn free(at: *mut c_void);
}

const NO_ACCESS: i32 = 0;

/// Unreadable on each side: whole pages, of whatever size.
const GUARD: usize = 1 << 16;
/// A plane of 4,096 by 4,096 samples, and more.
const READABLE: usize = 33 << 20;

/// Elements of an overlong list, or a few more.
pub const OVERLONG: usize = 1 << 26;
const LONGEST: usize = OVERLONG + 8192;

/// On which side of what is passed the unreadable page lies.
#[derive(Clone, Copy, PartialEq)]
pub enum Guard {
    Before,
    After,
}

/// Where the memory comes from.
#[derive(Clone, Copy, PartialEq)]
pub enum Source {
    /// Mapped once; its first readable byte.
    Guarded(*mut u8),
    /// From malloc, for each call.
    Exact,
}

impl Source {
    /// Readable memory between two unreadable stretches.
    pub fn guarded() -> Self {
        let at = mapped(READABLE + 2 * GUARD);
        // SAFETY: the two ends of the mapping.
        unsafe {
            let start = at.byte_add(GUARD);
            let ends = [at, start.byte_add(READABLE)];
            let closed = ends.iter().all(|&end| mprotect(end, GUARD, NO_ACCESS) == 0);
            assert!(closed, "the ends were not closed");
            Source::Guarded(start.cast())
        }
    }
}

/// A list that is passed to a call, and what it held before.
pub struct List<T> {
    pub held: Vec<T>,
    source: Source,
    memory: *mut T,
    at: *mut T,
    /// The length of a list that lies in pages that nothing has touched.
    untouched: Option<usize>,
    /// These pages; mapped for the first such list.
    pages: Option<Pages>,
}

impl<T: Copy + Default + Eq> List<T> {
    pub fn new(source: Source) -> Self {
        List {
            held: Vec::new(),
            source,
            memory: std::ptr::null_mut(),
            at: std::ptr::null_mut(),
            untouched: None,
            pages: None,
        }
    }

    /// Its address in the call, and its length.
    pub fn lent(&self) -> (*mut T, usize) {
        (self.at, self.len())
    }

    pub fn at(&self) -> *mut T {
        self.at
    }
}

/// What is done with a list of any numbers.
pub trait Lend {
    fn len(&self) -> usize;

    /// Elements are removed or added.
    fn set_len(&mut self, length: usize);

    fn set_zero(&mut self);

    fn is_zero(&self) -> bool;

    /// The next call is passed so many zeros, in pages that nothing has touched. Of an overlong
    /// list nothing is held.
    fn set_untouched(&mut self, length: usize);

    fn is_untouched(&self) -> bool;

    fn is_overlong(&self) -> bool;

    /// Copies what is held to where the call finds it. So many elements next to the guard
    /// are left out, though the call is given a length that includes them.
    fn lend(&mut self, guard: Guard, left_out: usize);

    /// Whether every element is what it was, bit by bit. An overlong list is not compared.
    fn same(&self) -> bool;

    /// Alters one element of what is passed.
    fn spoil(&mut self);

    /// How many pages of it have been touched; those of some elements do not count.
    fn touched(&self, but: Range<usize>) -> usize;

    /// Reads one element of what is passed.
    fn touch(&self, element: usize);

    fn give_back(&mut self);
}

impl<T: Copy + Default + Eq> Lend for List<T> {
    fn len(&self) -> usize {
        self.untouched.unwrap_or(self.held.len())
    }

    fn set_len(&mut self, length: usize) {
        self.held.resize(length, T::default());
    }

    fn set_zero(&mut self) {
        self.held.fill(T::default());
    }

    fn is_zero(&self) -> bool {
        self.held.iter().all(|v| *v == T::default())
    }

    fn set_untouched(&mut self, length: usize) {
        assert!(length <= LONGEST, "no memory is that long");
        self.held.clear();
        if length < OVERLONG {
            self.set_len(length);
        }
        self.untouched = Some(length);
    }

    fn is_untouched(&self) -> bool {
        self.untouched.is_some()
    }

    fn is_overlong(&self) -> bool {
        self.len() >= OVERLONG
    }

    fn lend(&mut self, guard: Guard, left_out: usize) {
        if self.is_untouched() {
            let whole = || Pages::new(LONGEST * size_of::<T>());
            self.at = self.pages.get_or_insert_with(whole).at().cast();
            return;
        }
        let there = self.held.len() - left_out;
        let bytes = there * size_of::<T>();
        assert!(bytes <= READABLE, "no memory is that long");
        // SAFETY: what is copied lies inside the mapping, or fills what malloc gave.
        unsafe {
            self.memory = match (self.source, guard) {
                (Source::Guarded(start), Guard::Before) => start.cast(),
                (Source::Guarded(start), Guard::After) => start.add(READABLE - bytes).cast(),
                (Source::Exact, _) => malloc(bytes).cast(),
            };
            let first = match guard {
                Guard::Before => left_out,
                Guard::After => 0,
            };
            let from = self.held.as_ptr().add(first);
            std::ptr::copy_nonoverlapping(from, self.memory, there);
            self.at = self.memory.wrapping_sub(first);
        }
    }

    fn same(&self) -> bool {
        // SAFETY: passed whole, and freed later.
        let passed = || unsafe { std::slice::from_raw_parts(self.at, self.held.len()) };
        self.is_overlong() || self.held == passed()
    }

    fn spoil(&mut self) {
        // SAFETY: as above, and the element is there.
        unsafe {
            let byte: *mut u8 = self.at.add(self.held.len() - 1).cast();
            *byte ^= 1;
        }
    }

    fn touched(&self, but: Range<usize>) -> usize {
        let page = |elements: usize| elements * size_of::<T>() / PAGE;
        let next = |elements: usize| (elements * size_of::<T>()).div_ceil(PAGE);
        let counted = [0..page(but.start), next(but.end)..next(self.len())];
        let pages = self.pages.as_ref().expect("they are mapped");
        counted.map(|some| pages.touched(some)).iter().sum()
    }

    fn touch(&self, element: usize) {
        assert!(element < self.len());
        // SAFETY: the element is there.
        unsafe { self.at.add(element).read_volatile() };
    }

    fn give_back(&mut self) {
        if self.untouched.take().is_some() {
            self.pages.iter().for_each(Pages::renew);
        } else if self.source == Source::Exact {
            // SAFETY: from malloc, once per call.
            unsafe { free(self.memory.cast()) };
        }
    }
}

/// Its length alone.
impl<T> Debug for List<T> {
    fn fmt(&self, f: &mut Formatter) -> Result {
        let length = self.untouched.unwrap_or(self.held.len());
        write!(f, "{length} elements")
    }
}
