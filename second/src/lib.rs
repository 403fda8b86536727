//! The second program: document 01's rules built a second time, apart from the verified build.
//!
//! It keeps pages as owned tree nodes, the memo and the rows of boards as ordered maps, and
//! makes words only at the edge, so that it shares no arrangement with what it is held against.

pub mod boards;
pub mod check;
pub mod clean;
pub mod counts;
pub mod damaged;
pub mod geometry;
pub mod make;
pub mod memo;
pub mod page;
pub mod places;
pub mod runs;
pub mod steps;
pub mod store;
pub mod text;
pub mod tree;
pub mod words;
