//! The shore player (02, §13): bytes written out by hand, each limit from both sides, each refusal alone and in its
//! order, and what a receiver makes of a rotation.

mod by_hand;
mod headers;
mod limits;
mod made;
mod model;
mod played;
mod refusals;
