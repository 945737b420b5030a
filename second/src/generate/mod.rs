//! Files and lists of calls to try judges with.
//!
//! All of it is drawn from a seeded generator of random numbers: the same seed gives the same
//! files. File number i depends on the seed and on i alone.
//!
//! | Module | Topic |
//! |---|---|
//! | [`prng`] | random numbers |
//! | [`paper`] | an interchange as pieces that can be changed and rendered |
//! | [`scribe`] | element values |
//! | [`valid`] | interchanges that are regular |
//! | [`large`] | interchanges at the limits of uses, bytes and rows |
//! | [`damage`] | interchanges with one or two damages |
//! | [`layer_1`] | short files aimed at layer 1 |
//! | [`calls`] | lists of lodgings and findings |

pub mod calls;
pub mod damage;
pub mod large;
pub mod layer_1;
pub mod paper;
pub mod prng;
pub mod scribe;
pub mod valid;

use crate::derive::Tree;
use prng::Prng;

/// What files are wanted.
#[derive(Clone, Copy, Debug, PartialEq, Eq)]
pub enum FileKind {
    /// Regular interchanges. A few have more segments than 4,096 rows can hold.
    Valid,
    /// Regular interchanges with one or two random damages.
    Damaged,
    /// Short files aimed at layer 1.
    Bytes,
}

impl FileKind {
    /// The kind with this name.
    pub fn named(name: &str) -> Option<FileKind> {
        match name {
            "valid" => Some(FileKind::Valid),
            "damaged" => Some(FileKind::Damaged),
            "bytes" => Some(FileKind::Bytes),
            _ => None,
        }
    }
}

/// File number `index` of this kind and seed.
pub fn file(kind: FileKind, seed: u64, index: u64, tree: &Tree) -> Vec<u8> {
    let mut prng = Prng::for_file(seed, kind as u64, index);
    match kind {
        FileKind::Valid => valid::file(&mut prng, tree.guide()),
        FileKind::Damaged => damage::file(&mut prng, tree.guide()),
        FileKind::Bytes => layer_1::file(&mut prng, index),
    }
}
