//! Tugrelis for programs in Rust: the proved library behind types for blocks, records, cuttings, jobs and tables. Everything that the library
//! declines comes back as a [`Refusal`]; nothing has to be tested beforehand. What works on whole volumes and files answers with an [`Error`].
pub mod block;
pub mod cell_list;
pub mod cutting;
pub mod error;
pub mod job;
pub mod joining;
pub mod kept;
pub mod raw;
pub mod refusal;
pub mod sheet;
pub mod strain;
pub mod volumes;

pub use block::{cells, Block, Counts};
pub use cell_list::{Cells, MOST_CELLS};
pub use cutting::Cutting;
pub use error::Error;
pub use job::{Entries, Job, Kind, Numbers, Stage, Tables};
pub use refusal::{Refusal, REFUSALS};
pub use strain::{Reading, Readings, Side, Sums, Totals};
