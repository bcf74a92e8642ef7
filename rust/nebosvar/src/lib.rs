//! The receiver of wheelhouse boxes: it hears application tables and a data carousel off a DVB
//! multiplex, section by section, and hands out a module once every block of it has come.
//!
//! [`Record`] is the carousel; [`table`] and the functions beside it read an application section; [`drift`]
//! reads and writes the drift list, which is one of its modules; [`player`] writes the sections of a carousel, on
//! shore; [`transport`] takes sections out of transport packets, and puts one into them. Each is one call of
//! `libnebosvar.a` (x86-64 Linux), which is proved to answer as the paper, the association's document 01, states, and its
//! document 02 of the drift list, the player and packets:
//!
//! * Any bytes, any record, any image: each call ends, with the one answer stated for them. There is
//!   nothing to check first.
//! * A refusal changes neither the record nor the image nor the bytes to be written. That of a section whose header or
//!   CRC is wrong says at which byte it broke ([`Refusal::place`]).
//! * No call allocates, blocks, keeps a reference, or uses anything but what it is lent.
//!
//! The proofs leave it to the caller that a length is its pointer's, and that what is lent, as record, section
//! and image, does not overlap or change while the call runs. Rust's types see to that: a slice has its length, what is
//! lent to be changed is lent to no one else, and what is lent to be read nobody changes. This crate itself is not proved, but it only passes arguments and answers on.
//!
//! ```
//! use nebosvar::{Kind, Record, Refusal};
//!
//! /// A section: header, body, CRC.
//! fn section(table: u8, extension: u16, version: u8, number: u8, body: &[u8]) -> Vec<u8> {
//!     let mut bytes = vec![table];
//!     bytes.extend((0xB000 | (body.len() + 9) as u16).to_be_bytes());
//!     bytes.extend(extension.to_be_bytes());
//!     bytes.extend([0xC1 | version << 1, number, number]);
//!     bytes.extend(body);
//!     let mut crc = u32::MAX;
//!     for byte in &bytes {
//!         crc ^= u32::from(*byte) << 24;
//!         for _ in 0..8 {
//!             crc = (crc << 1) ^ if crc >> 31 == 1 { 0x04C1_1DB7 } else { 0 };
//!         }
//!     }
//!     bytes.extend(crc.to_be_bytes());
//!     bytes
//! }
//!
//! // Download 1 in blocks of 4 bytes; one module, with number 7, 6 bytes, and version 2.
//! let announcement = section(0x3B, 0, 0, 0, &[
//!     0x11, 0x03, 0x10, 0x02, 0, 0, 0, 0, 0xFF, 0, 0, 30,
//!     0, 0, 0, 1, 0, 4, 0, 0, 0, 0, 0, 0, 0, 0, 0, 0, 0, 0,
//!     0, 1, 0, 7, 0, 0, 0, 6, 2, 0, 0, 0,
//! ]);
//! // Its blocks 0 and 1, in sections of its number and version.
//! let first = section(0x3C, 7, 2, 0, &[
//!     0x11, 0x03, 0x10, 0x03, 0, 0, 0, 1, 0xFF, 0, 0, 10,
//!     0, 7, 2, 0xFF, 0, 0, b'b', b'u', b'o', b'y',
//! ]);
//! let second = section(0x3C, 7, 2, 1, &[
//!     0x11, 0x03, 0x10, 0x03, 0, 0, 0, 1, 0xFF, 0, 0, 8,
//!     0, 7, 2, 0xFF, 0, 1, b' ', b'3',
//! ]);
//!
//! let mut record = Record::new();
//! let mut image = [0; 6];
//! assert_eq!(record.step(&announcement, &mut image), Ok(Kind::New));
//! assert_eq!(record.step(&second, &mut image), Ok(Kind::Stored));
//! assert_eq!(record.handout(&image, 7), Err(Refusal::INCOMPLETE));
//! assert_eq!(record.step(&first, &mut image), Ok(Kind::Stored));
//! assert_eq!(record.handout(&image, 7), Ok(&b"buoy 3"[..]));
//! ```
//!
//! A section within the image does not compile:
//!
//! ```compile_fail
//! let mut image = [0; 64];
//! nebosvar::Record::new().step(&image[..16], &mut image);
//! ```

#![warn(missing_docs)]
#![warn(clippy::undocumented_unsafe_blocks)]
#![deny(unsafe_op_in_unsafe_fn)]

mod answer;
pub mod drift;
mod ffi;
mod limits;
pub mod player;
mod proved;
mod record;
mod refusal;
mod table;
pub mod transport;

pub use answer::{Kind, Missing, Passage, Stop, Taken};
pub use limits::{LARGEST_BLOCK, MARK_WORDS, MODULE_WORDS, MOST_BLOCKS, MOST_BYTES, MOST_MODULES};
pub use record::{Module, Record};
pub use refusal::Refusal;
pub use table::{application, descriptor, extension, item, label, table};
pub use table::{Application, Class, Control, Descriptor, Item, ItemKind, Label, Scope, Table};
