//! Interchanges at the limits: of uses, of bytes, of result rows, of sums.

use crate::bytes::GREATEST_LENGTH;
use crate::generate::paper::{depth_of, Paper};
use crate::generate::prng::Prng;
use crate::generate::valid::Writer;
use crate::guide::{Guide, Label};

/// What is used as often as it may be, or once more.
#[derive(Clone, Copy, Debug)]
enum Stretch {
    Row(usize),
    Sets,
    Groups,
}

/// A regular interchange at some limit. Those with more than 4,096 segments have too few rows.
pub fn valid_file(prng: &mut Prng, guide: &Guide) -> Vec<u8> {
    match prng.below(20) {
        0..=8 => {
            let stretch = any_row(prng, guide);
            let less = prng.below(2);
            stretched(prng, guide, stretch, greatest(guide, stretch) - less).render()
        }
        9..=10 => {
            let count = prng.between(98, 99);
            stretched(prng, guide, Stretch::Groups, count).render()
        }
        11..=12 => {
            let count = prng.between(255, 256);
            stretched(prng, guide, Stretch::Sets, count).render()
        }
        13..=14 => {
            let length = GREATEST_LENGTH - prng.pick_of(&[0, 0, 1, 100]);
            full(prng, guide, length).render()
        }
        15..=16 => {
            let segments = prng.pick_of(&[4095, 4096, 4096, 4097]);
            crowded(prng, guide, segments).render()
        }
        _ => {
            let lines = prng.between(8, if guide.holds_sums { 10 } else { 14 });
            rich(prng, guide, lines).render()
        }
    }
}

/// An interchange in which something is used once more than it may be.
pub fn overrun_file(prng: &mut Prng, guide: &Guide) -> Vec<u8> {
    let stretch = match prng.below(10) {
        0 => Stretch::Groups,
        1 => Stretch::Sets,
        _ => any_row(prng, guide),
    };
    stretched(prng, guide, stretch, greatest(guide, stretch) + 1).render()
}

/// A large regular interchange that is to be damaged.
pub fn base(prng: &mut Prng, guide: &Guide) -> Paper {
    match prng.below(4) {
        0 => full(prng, guide, GREATEST_LENGTH - 64),
        1 => stretched(prng, guide, Stretch::Sets, 256),
        _ => {
            let stretch = any_row(prng, guide);
            stretched(prng, guide, stretch, greatest(guide, stretch))
        }
    }
}

/// A row that can be used more than once, and as often as it may be in 65,536 bytes.
fn any_row(prng: &mut Prng, guide: &Guide) -> Stretch {
    let rows: Vec<usize> = guide
        .rows
        .iter()
        .filter(|row| (2..=1000).contains(&row.greatest))
        .map(|row| row.number)
        .collect();
    Stretch::Row(prng.pick_of(&rows))
}

fn greatest(guide: &Guide, stretch: Stretch) -> usize {
    match stretch {
        Stretch::Row(number) => guide.row(number).map_or(1, |row| row.greatest as usize),
        Stretch::Sets => 256,
        Stretch::Groups => 99,
    }
}

/// A brief interchange in which something is used so often.
fn stretched(prng: &mut Prng, guide: &Guide, stretch: Stretch, count: usize) -> Paper {
    let mut writer = Writer::brief(guide, prng);
    writer.forced = match stretch {
        Stretch::Row(number) => with_outer(guide, number),
        _ => Vec::new(),
    };
    let mut paper = writer.with_one_original();
    let label_is = |label: Label| match stretch {
        Stretch::Row(number) => label == Label::Row(number),
        Stretch::Sets => label == Label::Row(1),
        Stretch::Groups => matches!(label, Label::Envelope(own) if own.name() == b"GS"),
    };
    if let Some(start) = paper.pieces.iter().position(|piece| label_is(piece.label)) {
        repeat(&mut paper, start, count, guide);
    }
    renumber(&mut paper, guide);
    paper.settle(guide, prng);
    paper
}

/// The row and the rows that open the loops in which it stands.
fn with_outer(guide: &Guide, number: usize) -> Vec<usize> {
    let mut rows = vec![number];
    let mut depth = depth_of(guide, number);
    for before in (1..number).rev() {
        if depth_of(guide, before) < depth {
            depth = depth_of(guide, before);
            rows.push(before);
        }
    }
    rows
}

/// Repeats the unit at this index, so that there are so many of it.
fn repeat(paper: &mut Paper, start: usize, count: usize, guide: &Guide) {
    let end = paper.end_of_unit(start, guide);
    let unit = paper.pieces[start..end].to_vec();
    let rest = paper.pieces.split_off(end);
    for _ in 1..count {
        paper.pieces.extend(unit.iter().cloned());
    }
    paper.pieces.extend(rest);
}

/// Numbers the sets of each group and the lines of each set.
pub fn renumber(paper: &mut Paper, guide: &Guide) {
    let first = guide.row(1).and_then(|row| row.rules.iter().find(|rule| rule.element == 2));
    let width = first.map_or(1, |rule| rule.form.least);
    let (mut sets, mut lines) = (0, 0);
    for piece in &mut paper.pieces {
        match piece.element(0) {
            b"GS" => sets = 0,
            b"ST" => {
                (sets, lines) = (sets + 1, 0);
                piece.set(2, format!("{sets:0width$}").as_bytes());
            }
            b"PO1" => {
                lines += 1;
                piece.set(1, lines.to_string().as_bytes());
            }
            _ => {}
        }
    }
}

/// A regular interchange of exactly this length, with many lines.
pub fn full(prng: &mut Prng, guide: &Guide, length: usize) -> Paper {
    let mut writer = Writer::mixed(guide, prng);
    let mut paper = writer.with_one_original();
    writer.add_lines(&mut paper, length.saturating_sub(6000));
    let mut quantities = 0;
    for piece in paper.pieces.iter_mut().filter(|piece| piece.is(b"PO1") || piece.is(b"ACK")) {
        quantities += 1;
        piece.set(2, (quantities % 90).to_string().as_bytes());
    }
    paper.settle(guide, prng);
    pad_to(&mut paper, length, prng);
    paper
}

/// Adds bytes 13 and 10 after some segment, so that the interchange has this length.
pub fn pad_to(paper: &mut Paper, length: usize, prng: &mut Prng) {
    let missing = length.saturating_sub(paper.length());
    let at = prng.below(paper.pieces.len());
    let run = (0..missing).map(|_| prng.pick_of(&[13, 10]));
    paper.pieces[at].gap.extend(run);
}

/// A regular interchange with so many segments, about 4,096.
pub fn crowded(prng: &mut Prng, guide: &Guide, segments: usize) -> Paper {
    match guide.rows.iter().find(|row| row.name == b"MSG") {
        Some(row) => crowded_with_messages(prng, guide, segments, row.number),
        None => crowded_with_sets(prng, guide, segments),
    }
}

/// Many messages in a few loops.
fn crowded_with_messages(prng: &mut Prng, guide: &Guide, segments: usize, msg: usize) -> Paper {
    let loops = prng.between(5, 40);
    let mut paper = stretched(prng, guide, Stretch::Row(msg - 1), loops);
    let missing = segments.saturating_sub(paper.pieces.len());
    let mut starts = paper.indices(b"MSG");
    starts.reverse();
    for (number, &at) in starts.iter().enumerate() {
        let more = missing / loops + usize::from(number < missing % loops);
        repeat(&mut paper, at, more + 1, guide);
    }
    paper.settle(guide, prng);
    paper
}

/// Many sets of ten to twelve segments in two groups.
fn crowded_with_sets(prng: &mut Prng, guide: &Guide, segments: usize) -> Paper {
    let mut writer = Writer::brief(guide, prng);
    writer.forced = (1..=guide.rows.len()).filter(|&row| depth_of(guide, row) == 1).collect();
    let mut paper = writer.with_one_original();
    let in_sets = segments.saturating_sub(6);
    let sets = in_sets.div_ceil(12);
    let start = 2;
    let end = paper.end_of_unit(start, guide);
    let group = paper.pieces[1..end + 1].to_vec();
    let at = paper.pieces.len() - 1;
    paper.pieces.splice(at..at, group.iter().cloned());
    repeat(&mut paper, at + 1, sets - sets / 2, guide);
    repeat(&mut paper, start, sets / 2, guide);
    for _ in 0..sets * 12 - in_sets {
        let found = paper.indices(b"PID");
        paper.pieces.remove(found[prng.below(found.len())]);
    }
    renumber(&mut paper, guide);
    paper.settle(guide, prng);
    paper
}

/// So many lines with the greatest PO102. The sum can have more digits than CTT02 can have.
pub fn rich(prng: &mut Prng, guide: &Guide, lines: usize) -> Paper {
    let mut writer = Writer::brief(guide, prng);
    writer.forced =
        (1..=guide.rows.len()).filter(|&row| guide.rows[row - 1].name == b"CTT").collect();
    let mut paper = writer.with_one_original();
    let po1 = paper.indices(b"PO1")[0];
    repeat(&mut paper, po1, lines, guide);
    renumber(&mut paper, guide);
    for piece in paper.pieces.iter_mut().filter(|piece| piece.is(b"PO1") || piece.is(b"ACK")) {
        piece.set(2, b"999999999");
    }
    for piece in paper.pieces.iter_mut().filter(|piece| piece.is(b"CTT")) {
        piece.set(2, b"1");
    }
    paper.settle(guide, prng);
    paper
}
