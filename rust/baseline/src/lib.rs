//! A receiver for application tables (AIT) and DSM-CC data carousels, in plain Rust.
//!
//! It is written from the paper `01-scope.md` ("the paper" below) and 02, §5, §6, §8 and §9, and serves as an
//! independent second implementation and as a baseline for speed. Nothing is allocated except by
//! [`read_all`], whose answer is a tree of owned values, [`drift::read`] and [`transport`].
//!
//! * [`Record::step`] takes one carousel section ("The messages", "The carousel record").
//! * [`Record::take`] and [`Record::run`] walk over a stretch of sections ("The run").
//! * [`Record::handout`] and [`Record::missing`] answer about one module.
//! * [`read`] and [`read_all`] read one application section ("The application section").
//! * [`drift`] reads and writes a drift list, which is of a request of its own and not of the paper.
//! * [`player`] writes the sections of a carousel, on shore (02, §13).
//! * [`transport`] takes sections out of transport packets, and puts them into some (02, §2).
//!
//! Every refusal is a number of the paper's table "Numbers a call may answer", or of a request, and changes
//! neither the record nor the image nor the buffer. That of a section is a [`Refusal`], which says besides where
//! it broke (02, §9).

#![forbid(unsafe_code)]
#![warn(missing_docs)]

mod ait;
mod checksum;
pub mod drift;
mod message;
pub mod player;
mod reader;
mod record;
mod refusal;
mod run;
mod section;
pub mod table;
pub mod transport;

pub use ait::{read, Table};
pub use checksum::crc;
pub use record::{Answer, Missing, Module, Record};
pub use record::{ALL_WORDS, BLOCKS, MODULES, MOST_TOGETHER, WORDS};
pub use refusal::Refusal;
pub use run::{Fate, Passage, Stop, Taken};
pub use table::read_all;
