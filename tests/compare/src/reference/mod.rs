//! The planner once more, written from document 01 and requests #101 and #103 to #106 of document 02 alone: sets of relations, the five rules
//! as they stand there, all rows of distinct items for the greatest chains. It shares no code, table or layout with the crates.

pub mod bytes;
pub mod finish;
pub mod packing;
pub mod relations;
pub mod search;
pub mod sheet;
pub mod turning;
pub mod value;
