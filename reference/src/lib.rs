//! A second implementation of document 01 and of the requests that have landed, by another method than the proved code: components are found by breadth-first search
//! over cells. Where the document leaves something open it goes by docs/DECISIONS.md. host/compare compares it with the proved code.
pub mod book;
pub mod cells;
pub mod codec;
pub mod cutting;
pub mod grid;
pub mod label;
pub mod listing;
pub mod maxima;
pub mod outcome;
pub mod pages;
pub mod random;
pub mod samples;
pub mod strain;
pub mod table;
#[cfg(test)]
mod volumes;

/// The numbers of "What the service declines". 7 is no longer given.
pub mod refusal {
    pub const OFF_SIZE: u32 = 1;
    pub const BAD_CUT: u32 = 2;
    pub const WRONG_STAGE: u32 = 3;
    pub const NO_SUCH_PLACE: u32 = 4;
    pub const DONE_ALREADY: u32 = 5;
    pub const WRONG_TRAY: u32 = 6;
    pub const STRAY_LABEL: u32 = 8;
    pub const LAYERS_DIFFER: u32 = 9;
    pub const TABLE_FULL: u32 = 10;
    pub const BAD_RECORD: u32 = 11;
    pub const BAD_READING: u32 = 12;
}
