//! A second judge of X12 855 interchanges.
//!
//! It is written from the rule book (`docs/RULES.md`) alone and in a declarative style: the whole
//! input is taken apart first, every fault of layers 1 to 4 is listed, and only then the first one
//! by rank is taken. It shares no code and no idea with a judge that reads segment by segment.
//!
//! | Module | Topic | Section of the rule book |
//! |---|---|---|
//! | [`bytes`] | classes of bytes, the header, delimiters | 2, 3 |
//! | [`segments`] | segments, elements, places | 4, 5 |
//! | [`types`] | types of elements | 6 |
//! | [`natural`] | natural numbers of any size | "by value" |
//! | [`guide`] | what a guide is, and its tables as text | 7, 8 |
//! | [`guide_b`], [`guide_m`] | the two guides | 9 |
//! | [`derive`] | derivations, by search | 7 |
//! | [`elements`] | faults 8 to 13 | 10 |
//! | [`totals`] | faults 14 to 17 | 11 |
//! | [`rank`] | faults, their order, verdicts | 12, 13, 16 |
//! | [`tables`] | result tables | 14 |
//! | [`judge`] | reading | 1, 13 |
//! | [`register`] | lodging and finding | 15 |
//! | [`calls`] | lists of calls, as text | 1, 15 |
//! | [`generate`] | files and lists of calls to try judges with | |
//! | [`hex`] | hexadecimal text | |

#![forbid(unsafe_code)]
#![warn(missing_docs)]

pub mod bytes;
pub mod calls;
pub mod derive;
pub mod elements;
pub mod generate;
pub mod guide;
pub mod guide_b;
pub mod guide_m;
pub mod hex;
pub mod judge;
pub mod natural;
pub mod rank;
pub mod register;
pub mod segments;
pub mod tables;
pub mod totals;
pub mod types;

#[cfg(test)]
mod one_by_one;
#[cfg(test)]
mod worked_examples;
