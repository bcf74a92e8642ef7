//! Straight from transport packets (02, §2): packets written out by hand, each refusal alone and in its order, repeats, breaks and
//! losses, states, and the writer.

mod by_hand;
mod losses;
mod made;
mod refusals;
mod repeats;
mod states;
mod stream;
mod writer;
