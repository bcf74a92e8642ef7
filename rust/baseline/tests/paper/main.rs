//! The paper's soundings, its refusals at and past their limits, 02, §5, §6, §8 and §9, and laws over random input.

mod applications;
mod bigger;
mod blocks;
mod frames;
mod keeping;
mod made;
mod messages;
mod model;
mod places;
mod random;
mod records;
mod soundings;
mod stale;
mod trees;
mod walks;
