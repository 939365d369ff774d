//! The figures of document 01, and of document 02 as far as it is landed, once for this program: limits, refusals by name, and the book that document 01
//! prints. Python has them in tests/figures.py, C in tests/native/figures.h. tests/figures holds the three to each other, to the engine's own and to the
//! pages.

// Figures that only other programs use stand here too, so that each home has all of them.
#![allow(dead_code)]

/// The mark line of a book, and how a listing begins.
pub const MARK: &[u8] = b"DPB 0001\n";
pub const LISTED: &str = "DPL 0001";

// Limits: at most this many.
pub const TEXT_BYTES: usize = 16_384;
pub const NAMES: usize = 128;
pub const NAME_BYTES: usize = 32;
pub const RULES: usize = 256;
pub const ATOMS: usize = 256;
pub const FOLDS: u64 = 8;

/// Bytes of a folding table: an entry for each byte value.
pub const LETTER_BYTES: usize = 256;

/// Bytes of the listing area, and of the longest listing.
pub const LISTING_BYTES: usize = 4_608;
pub const LONGEST_LISTING: usize = 4_271;

/// The last line that can be at fault: the mark is line 1, a line end each is the least that stands between, a faulty line has two bytes.
pub const LAST_LINE: usize = TEXT_BYTES - MARK.len();

/// The numbers under which calls refuse.
pub mod refusal {
    pub const SHORT_AREA: u64 = 1;
    pub const LONG_TEXT: u64 = 2;
    pub const MARK: u64 = 3;
    pub const LAST_BYTE: u64 = 4;
    pub const LINE: u64 = 5;
    pub const NAMES: u64 = 6;
    pub const RULES: u64 = 7;
    pub const ATOMS: u64 = 8;
    pub const FOLDS: u64 = 9;
    pub const ILL_FORMED: u64 = 10;
    pub const START_LOST: u64 = 11;
    pub const LONG_WRITTEN: u64 = 12;
    pub const LONG_NAME: u64 = 13;
    pub const BARRED_BYTE: u64 = 14;
    pub const RESERVED_BYTE: u64 = 20;
    pub const UNSETTLED_ENTRY: u64 = 21;

    /// Those that the call for C returns.
    pub const RETURNED: [u64; 11] = [SHORT_AREA, LONG_TEXT, MARK, LAST_BYTE, LINE, NAMES, RULES, ATOMS, FOLDS, LONG_NAME, BARRED_BYTE];
}

/// The book that document 01 prints: its rules, its names, those held, the rounds by folds, its atoms, c and h.
pub mod printed {
    pub const RULES: &str = "p:q/q:p r/q:s/s:";
    pub const NAMES: usize = 4;
    pub const HELD: &str = "p q s";
    pub const ROUNDS: &[(u64, usize)] = &[(0, 4), (1, 4), (super::FOLDS, 4)];
    pub const ATOMS: usize = 6;
    pub const C: usize = 3;
    pub const H: usize = 1;
}
