//! How many words records, cells and lines have, and the places of a cell's words.

/// The words of a record, in a list and in a packed part.
pub const RECORD_WIDTH: usize = 4;

/// The same as the size of a record counts it.
pub const RECORD_SIZE: u32 = RECORD_WIDTH as u32;

pub const CELL_WIDTH: usize = 7;

pub const LINE_WIDTH: usize = 4;

// The places of a cell's words.
pub const KIND: usize = 0;
pub const ID: usize = 1;
pub const POSITION: usize = 2;
pub const LENGTH: usize = 3;
pub const FIRST: usize = 4;
pub const COUNT: usize = 5;
pub const NEXT: usize = 6;

/// The number of the cell that a word offset is in.
pub fn cell_number(at: usize) -> u32 {
    (at / CELL_WIDTH + 1) as u32
}
