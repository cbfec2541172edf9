//! Reference implementation of the plan table, its plane and its patches,
//! written from the requirement alone (document 01, "The plan table and its
//! plane"; document 02, orders 1 to 6).

pub mod answer;
pub mod bucket;
pub mod combination;
pub mod identifier;
pub mod lines;
#[cfg(feature = "linked")]
pub mod ours;
pub mod patch;
pub mod plane;
#[cfg(test)]
mod products;
pub mod rng;
pub mod table;

pub use answer::Answer;
