//! The exported calls over plain words, passed on as they are: the proved code tests what it is lent.
//!
//! Each answers by the table of [`Number`](crate::Number). A call refused with 1 to 5, and a refused query, leaves every
//! slice untouched.

mod exported {
    // A slice is passed as its first word's address and its number of words.
    extern "C" {
        pub fn shunebokai_start(p: u32, k: u32, b: u32, store: *mut u32, store_len: usize) -> u32;

        pub fn shunebokai_run(
            store: *mut u32,
            store_len: usize,
            steps: *const u32,
            steps_len: usize,
            answers: *mut u32,
            answers_len: usize,
        ) -> u32;

        pub fn shunebokai_query(
            store: *const u32,
            store_len: usize,
            x0: u32,
            y0: u32,
            x1: u32,
            y1: u32,
            rows: *mut u32,
            rows_len: usize,
            count: *mut usize,
        ) -> u32;

        pub fn shunebokai_board_test(store: *const u32, store_len: usize, board: u32) -> u32;

        pub fn shunebokai_board_rows(
            store: *const u32,
            store_len: usize,
            board: u32,
            from: *mut usize,
            to: *mut usize,
        ) -> u32;
    }
}

// Safety, for each call below: every pointer comes with its length from one slice that is borrowed until the call
// returns, and Rust's references are never null and don't overlap where one may be written. By its promise the call
// stays within what it is lent, keeps no pointer and always ends.

/// Writes a fresh store of p pages, k memo slots and b boards.
pub fn start(p: u32, k: u32, b: u32, store: &mut [u32]) -> u32 {
    unsafe { exported::shunebokai_start(p, k, b, store.as_mut_ptr(), store.len()) }
}

/// Runs steps of six words each, and writes two words for each: its number and its count.
pub fn run(store: &mut [u32], steps: &[u32], answers: &mut [u32]) -> u32 {
    unsafe {
        exported::shunebokai_run(
            store.as_mut_ptr(),
            store.len(),
            steps.as_ptr(),
            steps.len(),
            answers.as_mut_ptr(),
            answers.len(),
        )
    }
}

/// Writes the rows that meet the window, five words each in ascending train, and gives how many.
pub fn query(store: &[u32], [x0, y0, x1, y1]: [u32; 4], rows: &mut [u32]) -> (u32, usize) {
    let mut count = 0;
    let number = unsafe {
        exported::shunebokai_query(
            store.as_ptr(),
            store.len(),
            x0,
            y0,
            x1,
            y1,
            rows.as_mut_ptr(),
            rows.len(),
            &mut count,
        )
    };
    (number, count)
}

/// 0 if the board's rows can be read.
pub fn board_test(store: &[u32], board: u32) -> u32 {
    unsafe { exported::shunebokai_board_test(store.as_ptr(), store.len(), board) }
}

/// The number of the board's test, and the rows as they stand in the store, none where it is refused.
pub fn board_rows(store: &[u32], board: u32) -> (u32, &[u32]) {
    let (mut from, mut to) = (0, 0);
    let number = unsafe {
        exported::shunebokai_board_rows(store.as_ptr(), store.len(), board, &mut from, &mut to)
    };
    (number, &store[from..to])
}
