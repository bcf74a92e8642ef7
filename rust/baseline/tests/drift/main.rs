//! The drift list: each refusal alone and in its order, each bound from both sides, and that reader and
//! writer undo each other.

mod both;
mod by_hand;
mod made;
mod model;
mod records;
mod writer;
