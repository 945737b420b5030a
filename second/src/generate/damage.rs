//! Interchanges with one or two damages.
//!
//! Most damages are aimed at one refusal number; others are blind. A second damage is at times
//! added, in the same segment or anywhere.

// All damages to bytes have one signature, also those that do not change the length.
#![allow(clippy::ptr_arg)]

mod aimed_at_bytes;
mod aimed_at_elements;
mod aimed_at_structure;
mod aimed_at_totals;
mod blind;

use crate::generate::large;
use crate::generate::paper::Paper;
use crate::generate::prng::Prng;
use crate::generate::scribe::{Brevity, Scribe};
use crate::generate::valid::Writer;
use crate::guide::{ElementRule, Guide, Label};

/// An interchange with fewer pieces is not damaged once more.
const LEAST_PIECES: usize = 3;

/// One damage: to the pieces, or to the rendered bytes.
#[derive(Clone, Copy)]
enum Damage {
    OnPaper(fn(&mut Bench)),
    OnBytes(fn(&mut Vec<u8>, &mut Prng)),
}

/// An interchange that is being damaged.
pub(crate) struct Bench<'a> {
    guide: &'a Guide,
    prng: &'a mut Prng,
    paper: Paper,
    scribe: Scribe,
    /// The piece that was damaged last.
    touched: usize,
    /// The next damage is done to the piece that was damaged last.
    stay: bool,
}

/// An interchange with one or two damages. A few of them are large.
pub fn file(prng: &mut Prng, guide: &Guide) -> Vec<u8> {
    match prng.below(1000) {
        0..=4 => {
            let segments = prng.pick_of(&[4097, 4097, 4097, 4098, 4100]);
            large::crowded(prng, guide, segments).render()
        }
        5..=9 => large::overrun_file(prng, guide),
        10..=11 => rich_file(prng, guide),
        12..=14 => {
            let paper = large::base(prng, guide);
            damaged(prng, guide, paper)
        }
        _ => {
            let paper = Writer::mixed(guide, prng).usual();
            damaged(prng, guide, paper)
        }
    }
}

/// Lines whose sum CTT02 cannot hold, or holds only wrapped around.
fn rich_file(prng: &mut Prng, guide: &Guide) -> Vec<u8> {
    let lines = prng.between(9, 13);
    let mut paper = large::rich(prng, guide, lines);
    let sum = 999_999_999u64 * lines as u64;
    let wrapped = [sum % (1 << 32), sum % 10_000_000_000, sum + (1 << 32), sum / 10, 0];
    let stated = prng.pick_of(&wrapped).to_string();
    for piece in paper.pieces.iter_mut().filter(|piece| piece.is(b"CTT")) {
        piece.set(2, stated.as_bytes());
    }
    paper.render()
}

/// Damages the interchange once or twice.
fn damaged(prng: &mut Prng, guide: &Guide, paper: Paper) -> Vec<u8> {
    let damages = choose(prng);
    let scribe = Scribe { delimiters: paper.delimiters, brevity: Brevity::Mixed };
    let stay = prng.chance(400);
    let mut bench = Bench { guide, prng, paper, scribe, touched: 0, stay: false };
    for damage in &damages {
        match damage {
            Damage::OnPaper(harm) if bench.paper.pieces.len() >= LEAST_PIECES => {
                harm(&mut bench);
                bench.stay = stay;
            }
            _ => {}
        }
    }
    let mut bytes = bench.paper.render();
    for damage in &damages {
        if let Damage::OnBytes(harm) = damage {
            harm(&mut bytes, prng);
        }
    }
    bytes
}

/// One damage, or two.
fn choose(prng: &mut Prng) -> Vec<Damage> {
    let mut damages = vec![choose_one(prng)];
    if prng.chance(300) {
        damages.push(choose_one(prng));
    }
    damages
}

fn choose_one(prng: &mut Prng) -> Damage {
    let damages = if prng.chance(250) {
        blind::DAMAGES
    } else {
        let number = prng.between(1, 17);
        aimed_at(number)
    };
    prng.pick_of(damages)
}

/// The damages that are aimed at a refusal number, 1 to 17.
fn aimed_at(number: usize) -> &'static [Damage] {
    match number {
        1 => aimed_at_bytes::AT_1,
        2 => aimed_at_bytes::AT_2,
        3 => aimed_at_bytes::AT_3,
        4 => aimed_at_bytes::AT_4,
        5 => aimed_at_bytes::AT_5,
        6 => aimed_at_structure::AT_6,
        7 => aimed_at_structure::AT_7,
        8 => aimed_at_elements::AT_8,
        9 => aimed_at_elements::AT_9,
        10 => aimed_at_elements::AT_10,
        11 => aimed_at_elements::AT_11,
        12 => aimed_at_elements::AT_12,
        13 => aimed_at_elements::AT_13,
        14 => aimed_at_totals::AT_14,
        15 => aimed_at_totals::AT_15,
        16 => aimed_at_totals::AT_16,
        _ => aimed_at_totals::AT_17,
    }
}

impl Bench<'_> {
    /// Some piece, or the one that was damaged last.
    fn some_piece(&mut self) -> usize {
        if !self.stay || self.touched >= self.paper.pieces.len() {
            self.touched = self.prng.below(self.paper.pieces.len());
        }
        self.touched
    }

    /// Some piece after the header.
    fn some_later_piece(&mut self) -> usize {
        let found = self.some_piece();
        if found == 0 && self.paper.pieces.len() > 1 {
            self.touched = self.prng.between(1, self.paper.pieces.len() - 1);
        }
        self.touched
    }

    /// Some piece with this name.
    fn some_named(&mut self, names: &[&[u8]]) -> Option<usize> {
        let name = self.prng.pick(names);
        let found = self.paper.indices(name);
        if found.is_empty() {
            return None;
        }
        self.touched = self.prng.pick_of(&found);
        Some(self.touched)
    }

    /// Some piece and one of the rules of its label for which the test holds.
    fn some_ruled(
        &mut self,
        test: impl Fn(&ElementRule, &[u8]) -> bool,
    ) -> Option<(usize, ElementRule)> {
        for _ in 0..40 {
            let index = self.some_piece();
            let piece = &self.paper.pieces[index];
            let rules: Vec<&ElementRule> = self
                .guide
                .rules_of(piece.label)
                .iter()
                .filter(|rule| test(rule, piece.element(rule.element)))
                .collect();
            if !rules.is_empty() {
                let rule = self.prng.pick(&rules).clone();
                return Some((index, rule));
            }
            self.stay = false;
        }
        None
    }

    /// Sets an element of a piece.
    fn write(&mut self, piece: usize, element: usize, bytes: &[u8]) {
        if let Some(found) = self.paper.pieces.get_mut(piece) {
            found.set(element, bytes);
        }
    }

    /// Makes all totals right, in some of a thousand cases.
    fn perhaps_settle(&mut self, per_mille: usize) {
        if self.prng.chance(per_mille) {
            self.paper.settle(self.guide, self.prng);
        }
    }

    /// The indices of the pieces of guide rows for which the test holds.
    fn rows_where(&self, test: impl Fn(&crate::guide::Row) -> bool) -> Vec<usize> {
        let is_such = |label: Label| match label {
            Label::Row(number) => self.guide.row(number).is_some_and(&test),
            Label::Envelope(_) => false,
        };
        (0..self.paper.pieces.len())
            .filter(|&index| is_such(self.paper.pieces[index].label))
            .collect()
    }
}
