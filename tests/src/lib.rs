//! Another implementation of document 01, written from its text alone and
//! sharing no code with the library that it is compared with.

pub mod atoms;
pub mod best;
pub mod builder;
pub mod by_hand;
pub mod cheapest;
pub mod check;
pub mod compile;
pub mod damage;
pub mod deep;
pub mod draft;
pub mod entries;
#[cfg(feature = "entries")]
pub mod entry_calls;
#[cfg(feature = "entries")]
pub mod entry_trial;
pub mod examples;
pub mod file;
pub mod generate;
pub mod harness;
pub mod lent;
pub mod long_plans;
pub mod moves;
pub mod operator_records;
pub mod print;
pub mod random;
pub mod semantics;
pub mod shared_core;
pub mod shrink;
pub mod stack;
pub mod stored;
pub mod task;
