//! The numbers that a call or a step may answer.

use std::fmt;

/// A number that a call or a step answers: 0 where it is done, otherwise why it is refused.
#[derive(Clone, Copy, Default, PartialEq, Eq, PartialOrd, Ord, Hash)]
#[repr(transparent)]
pub struct Number(pub u32);

impl Number {
    pub const DONE: Number = Number(0);
    pub const SIZES_OUT_OF_RANGE: Number = Number(1);
    pub const NOT_LAID_OUT: Number = Number(2);
    pub const NOT_SOUND: Number = Number(3);
    pub const STEPS_ODD: Number = Number(4);
    pub const ANSWERS_ODD: Number = Number(5);
    pub const UNKNOWN_STEP: Number = Number(6);
    pub const NO_TRAIN: Number = Number(7);
    pub const NOT_PROPER: Number = Number(8);
    pub const NO_BOARD: Number = Number(9);
    pub const OPEN_OR_CLOSED: Number = Number(10);
    pub const STAMPS_SPENT: Number = Number(11);
    pub const ENTRIES_FULL: Number = Number(12);
    pub const MEMO_FULL: Number = Number(13);
    pub const BOARD_FULL: Number = Number(14);
    pub const ROWS_SHORT: Number = Number(15);

    pub fn is_done(self) -> bool {
        self == Number::DONE
    }

    /// When the number is given.
    pub fn text(self) -> &'static str {
        match self.0 {
            0 => "done",
            1 => "pages, slots or boards out of range",
            2 => "store under 16 words, of a wrong length, or with a wrong word 0, 4, 6, 8 or 10 to 15",
            3 => "store not sound",
            4 => "steps not a whole number of six words",
            5 => "answers slice of another length",
            6 => "unknown kind of step, or a word that it does not name is not 0",
            7 => "train 0",
            8 => "box or window not proper",
            9 => "no board of this number",
            10 => "opening an open board, closing or reading a closed one",
            11 => "no stamp left",
            12 => "no room for an entry: clean",
            13 => "no memo slot left for the train: clean and inspect",
            14 => "a board would need a 17th row",
            15 => "more rows than the row slice holds",
            _ => "no number of the table",
        }
    }

    /// `Ok` where it is done.
    pub(crate) fn done(self) -> Result<(), Number> {
        if self.is_done() {
            return Ok(());
        }
        Err(self)
    }
}

impl fmt::Display for Number {
    fn fmt(&self, f: &mut fmt::Formatter) -> fmt::Result {
        write!(f, "{} ({})", self.0, self.text())
    }
}

impl fmt::Debug for Number {
    fn fmt(&self, f: &mut fmt::Formatter) -> fmt::Result {
        fmt::Display::fmt(self, f)
    }
}

impl std::error::Error for Number {}
