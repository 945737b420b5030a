//! Damages aimed at 14 to 17.

use super::{Bench, Damage};
use crate::generate::scribe::digit;

/// A trailer's control number that differs from its header's.
pub(super) const AT_14: &[Damage] = &[
    Damage::OnPaper(change_trailer),
    Damage::OnPaper(change_trailer),
    Damage::OnPaper(change_head),
];

fn change_trailer(bench: &mut Bench) {
    if let Some(piece) = bench.some_named(&[b"SE", b"SE", b"GE", b"IEA"]) {
        change_number(bench, piece, 2);
    }
}

fn change_head(bench: &mut Bench) {
    if let Some(piece) = bench.some_named(&[b"ST", b"GS", b"ISA"]) {
        let element = match bench.paper.pieces[piece].element(0) {
            b"ST" => 2,
            b"GS" => 6,
            _ => 13,
        };
        change_number(bench, piece, element);
    }
}

/// Changes one digit, or the number of leading zeros.
fn change_number(bench: &mut Bench, piece: usize, element: usize) {
    let mut value = bench.paper.pieces[piece].element(element).to_vec();
    if value.is_empty() {
        return;
    }
    match bench.prng.below(4) {
        0 if piece > 0 && value.len() < 9 => value.insert(0, b'0'),
        1 if piece > 0 && value.len() > 1 => {
            value.remove(0);
        }
        _ => {
            let at = bench.prng.below(value.len());
            value[at] = digit(bench.prng);
        }
    }
    bench.write(piece, element, &value);
}

/// A wrong count or sum.
pub(super) const AT_15: &[Damage] = &[
    Damage::OnPaper(change_count),
    Damage::OnPaper(change_count),
    Damage::OnPaper(change_sum),
    Damage::OnPaper(change_count_far),
];

fn change_count(bench: &mut Bench) {
    if let Some(piece) = bench.some_named(&[b"SE", b"SE", b"GE", b"IEA", b"CTT", b"CTT"]) {
        change_by(bench, piece, 1);
    }
}

fn change_sum(bench: &mut Bench) {
    if let Some(piece) = bench.some_named(&[b"CTT"]) {
        change_by(bench, piece, 2);
    }
}

/// Adds one, takes one away, or writes the same number with leading zeros.
fn change_by(bench: &mut Bench, piece: usize, element: usize) {
    let Some(number) = value(bench, piece, element) else {
        return;
    };
    let text = match bench.prng.below(5) {
        0 => format!("0{number}"),
        1 => number.saturating_add(10).to_string(),
        2 => number.saturating_sub(1).to_string(),
        _ => number.saturating_add(1).to_string(),
    };
    bench.write(piece, element, text.as_bytes());
}

/// Writes a number that is right only if it is wrapped around.
fn change_count_far(bench: &mut Bench) {
    let Some(piece) = bench.some_named(&[b"SE", b"CTT", b"SE", b"CTT", b"GE"]) else {
        return;
    };
    let element = if bench.paper.pieces[piece].is(b"CTT") { 2 } else { 1 };
    if let Some(number) = value(bench, piece, element) {
        let wraps =
            if bench.paper.pieces[piece].is(b"GE") { [256, 65_536] } else { [65_536, 1 << 32] };
        let text = number.saturating_add(bench.prng.pick_of(&wraps)).to_string();
        bench.write(piece, element, text.as_bytes());
    }
}

fn value(bench: &Bench, piece: usize, element: usize) -> Option<u64> {
    std::str::from_utf8(bench.paper.pieces[piece].element(element)).ok()?.parse().ok()
}

/// An ACK sum that is not PO102.
pub(super) const AT_16: &[Damage] = &[Damage::OnPaper(change_quantity), Damage::OnPaper(drop_ack)];

fn change_quantity(bench: &mut Bench) {
    let Some(piece) = bench.some_named(&[b"ACK", b"ACK", b"PO1"]) else {
        return;
    };
    let Some(number) = value(bench, piece, 2) else {
        return;
    };
    let text = match bench.prng.below(4) {
        0 => number.saturating_sub(1).to_string(),
        1 => format!("0{number}"),
        _ => number.saturating_add(1).to_string(),
    };
    bench.write(piece, 2, text.as_bytes());
}

/// Takes out or doubles an ACK, and makes the count of the set right.
fn drop_ack(bench: &mut Bench) {
    let Some(ack) = bench.some_named(&[b"ACK"]) else {
        return;
    };
    let quantities: Vec<Vec<u8>> =
        bench.paper.pieces.iter().map(|piece| piece.element(2).to_vec()).collect();
    let piece = bench.paper.pieces[ack].clone();
    bench.paper.pieces.insert(ack, piece);
    bench.paper.settle(bench.guide, bench.prng);
    for (index, quantity) in quantities.iter().enumerate() {
        let moved = index + usize::from(index >= ack);
        if bench.paper.pieces[moved].is(b"PO1") {
            bench.write(moved, 2, quantity);
        }
    }
}

/// ST02 or PO101 that occurs again.
pub(super) const AT_17: &[Damage] =
    &[Damage::OnPaper(repeat_number), Damage::OnPaper(repeat_unit), Damage::OnPaper(repeat_unit)];

/// Copies a control number or a line number from another segment.
fn repeat_number(bench: &mut Bench) {
    let Some(from) = bench.some_named(&[b"ST", b"PO1", b"PO1"]) else {
        return;
    };
    let is_set = bench.paper.pieces[from].is(b"ST");
    let (name, element): (&[u8], usize) = if is_set { (b"ST", 2) } else { (b"PO1", 1) };
    let value = bench.paper.pieces[from].element(element).to_vec();
    if let Some(to) = bench.some_named(&[name]) {
        bench.write(to, element, &value);
        bench.perhaps_settle(900);
    }
}

/// Repeats a whole set or a whole line.
fn repeat_unit(bench: &mut Bench) {
    let Some(start) = bench.some_named(&[b"ST", b"PO1", b"PO1"]) else {
        return;
    };
    let end = bench.paper.end_of_unit(start, bench.guide);
    let unit = bench.paper.pieces[start..end].to_vec();
    bench.paper.pieces.splice(end..end, unit);
    bench.perhaps_settle(900);
}
