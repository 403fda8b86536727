//! A safe wrapper over the verified train index.
//!
//! The index lives in one slice of 32-bit words that its caller lends for each call, and the code behind the calls is
//! proved: it tests all that it is lent and stays within it. What is left for this wrapper is what the proof takes for
//! granted of a caller, and the types see to it: pointers that are not null, lengths that are right, and slices that
//! don't overlap.
//!
//! [`Store`] is the way in; [`calls`] has the exported calls as they are, over plain words.
//!
//! ```
//! use shunebokai::{Bounds, Sizes, Step, Store};
//!
//! let mut store = Store::start(Sizes { pages: 4, slots: 8, boards: 1 })?;
//! let fence = Bounds::new(100, 100, 200, 200);
//! let answers = store.run(&[
//!     Step::open(0, fence),
//!     Step::report(7, Bounds::point(150, 150)),
//!     Step::report(7, Bounds::point(180, 150)),
//!     Step::clean(),
//! ])?;
//! assert!(answers.iter().all(|answer| answer.number.is_done()));
//! assert_eq!(store.board(0)?[0].bounds, Bounds::point(180, 150));
//! assert_eq!(store.query(fence)?.len(), 1);
//! # Ok::<(), shunebokai::Number>(())
//! ```
//!
//! A run is judged once, before its first step, so many steps in one run cost less than many runs. A refused step is
//! passed over and the next one runs.

pub mod calls;
mod number;
mod plain;
mod store;

pub use number::Number;
pub use plain::{Answer, Bounds, Row, Step};
pub use store::{Sizes, Store, MOST_ROWS};
