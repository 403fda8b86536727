//! Steps, answers and rows as the words that they are: a slice of them is lent with no copy.

use crate::Number;
use std::mem::{align_of, size_of};
use std::slice;

/// A box or a window: x0 ≤ x1 and y0 ≤ y1, in whole metres up to 1,048,575. A call refuses others.
#[derive(Clone, Copy, Debug, Default, PartialEq, Eq, Hash)]
#[repr(C)]
pub struct Bounds {
    pub x0: u32,
    pub y0: u32,
    pub x1: u32,
    pub y1: u32,
}

impl Bounds {
    pub const WHOLE_MAP: Bounds = Bounds::new(0, 0, 1_048_575, 1_048_575);

    pub const fn new(x0: u32, y0: u32, x1: u32, y1: u32) -> Bounds {
        Bounds { x0, y0, x1, y1 }
    }

    pub const fn point(x: u32, y: u32) -> Bounds {
        Bounds::new(x, y, x, y)
    }
}

/// A step, six words. The makers give the words that each kind names and 0 for the others.
#[derive(Clone, Copy, Debug, Default, PartialEq, Eq, Hash)]
#[repr(C)]
pub struct Step {
    pub kind: u32,
    pub a: u32,
    pub bounds: Bounds,
}

impl Step {
    const fn of(kind: u32, a: u32) -> Step {
        let bounds = Bounds::new(0, 0, 0, 0);
        Step { kind, a, bounds }
    }

    /// The train is here now. Counts the open boards that list it before or after.
    pub const fn report(train: u32, bounds: Bounds) -> Step {
        Step {
            kind: 1,
            a: train,
            bounds,
        }
    }

    /// The train is nowhere any more. Counts as a report does.
    pub const fn withdraw(train: u32) -> Step {
        Step::of(2, train)
    }

    /// Removes one leaf's old entries, and counts them.
    pub const fn clean() -> Step {
        Step::of(3, 0)
    }

    /// Frees the memo slots that nothing needs any more, and counts them.
    pub const fn inspect() -> Step {
        Step::of(4, 0)
    }

    /// From now on the board lists what is in the window. Counts the rows.
    pub const fn open(board: u32, window: Bounds) -> Step {
        Step {
            kind: 5,
            a: board,
            bounds: window,
        }
    }

    pub const fn close(board: u32) -> Step {
        Step::of(6, board)
    }
}

impl From<[u32; 6]> for Step {
    fn from([kind, a, x0, y0, x1, y1]: [u32; 6]) -> Step {
        let bounds = Bounds::new(x0, y0, x1, y1);
        Step { kind, a, bounds }
    }
}

/// What a step answers; a refused one counts 0.
#[derive(Clone, Copy, Debug, Default, PartialEq, Eq, Hash)]
#[repr(C)]
pub struct Answer {
    pub number: Number,
    pub count: u32,
}

/// A line of a query's answer or of a board.
#[derive(Clone, Copy, Debug, Default, PartialEq, Eq, Hash)]
#[repr(C)]
pub struct Row {
    pub train: u32,
    pub bounds: Bounds,
}

/// What is nothing but `WORDS` words in a row.
///
/// # Safety
/// The type has the size and the alignment of `[u32; WORDS]`, no padding, and any words are a value of it.
pub(crate) unsafe trait Plain: Sized {
    const WORDS: usize;
    const LAID_OUT: () = assert!(
        size_of::<Self>() == Self::WORDS * size_of::<u32>()
            && align_of::<Self>() == align_of::<u32>()
    );
}

// Safety: `repr(C)` structs whose fields are, in the end, all `u32`.
unsafe impl Plain for Step {
    const WORDS: usize = 6;
}
unsafe impl Plain for Answer {
    const WORDS: usize = 2;
}
unsafe impl Plain for Row {
    const WORDS: usize = 5;
}

pub(crate) fn words<T: Plain>(values: &[T]) -> &[u32] {
    let () = T::LAID_OUT;
    // Safety: by `Plain` these are the same bytes, and the lifetime is the slice's.
    unsafe { slice::from_raw_parts(values.as_ptr().cast(), values.len() * T::WORDS) }
}

pub(crate) fn words_mut<T: Plain>(values: &mut [T]) -> &mut [u32] {
    let () = T::LAID_OUT;
    // Safety: as above, and any words that are written are values.
    unsafe { slice::from_raw_parts_mut(values.as_mut_ptr().cast(), values.len() * T::WORDS) }
}

/// Words as values; those after the last whole one are left out.
pub(crate) fn values<T: Plain>(words: &[u32]) -> &[T] {
    let () = T::LAID_OUT;
    // Safety: by `Plain` any words are values, and no more are taken than there are.
    unsafe { slice::from_raw_parts(words.as_ptr().cast(), words.len() / T::WORDS) }
}
