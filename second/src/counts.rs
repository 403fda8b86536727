//! Train numbers, stamps and page numbers: three counts that never stand in for each other.

/// The number of a train; 0 means no train and is never held.
#[derive(Clone, Copy, Debug, PartialEq, Eq, PartialOrd, Ord)]
pub struct Train(pub u32);

/// A stamp given out by the store; a leaf's mark is a stamp too.
#[derive(Clone, Copy, Debug, PartialEq, Eq, PartialOrd, Ord)]
pub struct Stamp(pub u32);

impl Stamp {
    pub const FIRST: Stamp = Stamp(1);
    pub const LAST: Stamp = Stamp(u32::MAX);

    /// The stamp after this one; a store at the last stamp refuses before it asks.
    pub fn following(self) -> Stamp {
        Stamp(self.0 + 1)
    }
}

/// The number of a page in the store.
#[derive(Clone, Copy, Debug, PartialEq, Eq, PartialOrd, Ord)]
pub struct PageNumber(pub u32);
