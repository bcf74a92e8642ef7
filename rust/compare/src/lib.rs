//! A differential test: the proved receiver, `nebosvar`, beside the independent one, `baseline`, over made
//! stretches of sections, valid, damaged and hostile. The paper (`01-scope.md`) decides who is right. And the
//! reader and writer of drift lists beside the independent ones ([`lists`]); there the request's §1 decides. And the
//! shore player beside the independent one ([`plays`]); there it is §13. And what takes sections out of transport packets, and puts
//! them into some ([`packets`]); there it is §2.
//!
//! * Making: [`random`], sections by the crate `make`, [`tables`], [`carousels`], [`damage`], [`starts`] (records and
//!   images to start from), [`stretches`] (all of it put together), [`renewals`] (many new announcements), [`limits`] (by which all of it goes), [`bounds`] (what
//!   is at them, and not by chance).
//! * Comparing: [`pair`] (both receivers side by side), [`walk`] (a whole stretch), [`reading`] (a table),
//!   [`threads`] (all stretches), [`fence`] (for some of them, memory that may not be touched beside what is lent).
//! * Telling: [`counts`] (what was answered how often), [`columns`] (how it is printed), [`versions`] (of blocks, for the counts), [`reached`] (limits),
//!   [`kept`] (what new announcements keep), [`whole`] (that what is whole stays whole),
//!   [`difference`].
//!
//! What the makers mean a section to be decides nothing: a section that was not spoilt as intended is still
//! compared, and only the counts at the end say whether every answer was reached.

#![deny(unsafe_code)] // but in `fence`

pub mod bounds;
pub mod carousels;
pub mod columns;
pub mod counts;
pub mod damage;
pub mod difference;
pub mod fence;
pub mod kept;
pub mod limits;
pub mod lists;
pub mod packets;
pub mod pair;
pub mod plays;
pub mod random;
pub mod reached;
pub mod reading;
pub mod renewals;
pub mod starts;
pub mod stretches;
pub mod tables;
pub mod threads;
pub mod versions;
pub mod walk;
pub mod whole;
