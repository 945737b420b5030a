//! Damages aimed at 6 and 7.

use super::{Bench, Damage};
use crate::bytes::LEAST_LENGTH;
use crate::generate::paper::Piece;
use crate::generate::prng::Prng;
use crate::guide::Label;

/// A segment that no row takes.
pub(super) const AT_6: &[Damage] = &[
    Damage::OnPaper(delete_a_segment),
    Damage::OnPaper(double_a_segment),
    Damage::OnPaper(swap_two_segments),
    Damage::OnPaper(swap_neighbours),
    Damage::OnPaper(move_a_segment),
    Damage::OnPaper(insert_foreign_segment),
    Damage::OnPaper(copy_a_segment_elsewhere),
    Damage::OnPaper(change_placing_code),
    Damage::OnPaper(change_placing_code),
    Damage::OnPaper(delete_a_unit),
    Damage::OnPaper(double_a_unit),
    Damage::OnPaper(rename_a_segment),
];

pub(super) fn delete_a_segment(bench: &mut Bench) {
    let index = bench.some_later_piece();
    bench.paper.pieces.remove(index);
    bench.perhaps_settle(500);
}

pub(super) fn double_a_segment(bench: &mut Bench) {
    let index = bench.some_later_piece();
    let piece = bench.paper.pieces[index].clone();
    bench.paper.pieces.insert(index, piece);
    bench.perhaps_settle(500);
}

pub(super) fn swap_two_segments(bench: &mut Bench) {
    let one = bench.some_later_piece();
    let other = bench.prng.between(1, bench.paper.pieces.len() - 1);
    bench.paper.pieces.swap(one, other);
    bench.perhaps_settle(500);
}

fn swap_neighbours(bench: &mut Bench) {
    let one = bench.some_later_piece();
    let other = (one + 1).min(bench.paper.pieces.len() - 1);
    bench.paper.pieces.swap(one, other);
    bench.perhaps_settle(500);
}

pub(super) fn move_a_segment(bench: &mut Bench) {
    let from = bench.some_later_piece();
    let piece = bench.paper.pieces.remove(from);
    let to = bench.prng.between(1, bench.paper.pieces.len());
    bench.paper.pieces.insert(to, piece);
    bench.perhaps_settle(500);
}

/// Puts in a segment that no row, or none at this place, has.
fn insert_foreign_segment(bench: &mut Bench) {
    let name = bench.prng.pick(&[
        "DTM", "SLN", "ZZ", "N2", "N3", "TD5", "ISA", "IEA", "GS", "GE", "ST", "SE", "CTP", "SCH",
        "MSG", "N9", "REF", "CUR", "CTT", "PO", "A1", "999",
    ]);
    let mut elements = vec![name.as_bytes().to_vec()];
    for _ in 0..bench.prng.below(4) {
        let length = bench.prng.between(0, 4);
        elements.push(bench.scribe.text(length, bench.prng));
    }
    let at = bench.prng.between(1, bench.paper.pieces.len());
    let gap = bench.paper.pieces[at - 1].gap.clone();
    let label = bench.paper.pieces[at - 1].label;
    bench.paper.pieces.insert(at, Piece { label, elements, gap });
    bench.touched = at;
    bench.perhaps_settle(500);
}

/// Puts a copy of one of the segments at another place.
fn copy_a_segment_elsewhere(bench: &mut Bench) {
    let index = bench.some_later_piece();
    let piece = bench.paper.pieces[index].clone();
    let at = bench.prng.between(1, bench.paper.pieces.len());
    bench.paper.pieces.insert(at, piece);
    bench.perhaps_settle(700);
}

/// Puts another first element into a segment that is placed by it.
fn change_placing_code(bench: &mut Bench) {
    let found = bench.rows_where(|row| !row.placing.is_empty());
    if found.is_empty() {
        return;
    }
    let index = bench.prng.pick_of(&found);
    let code =
        bench.prng.pick(&["BT", "ST", "VN", "bt", "", "IA", "L1", "XX", "vn", "VNN", "V", "SU"]);
    bench.write(index, 1, code.as_bytes());
    bench.touched = index;
}

/// Takes out a whole loop, set or group.
fn delete_a_unit(bench: &mut Bench) {
    let start = bench.some_later_piece();
    let end = bench.paper.end_of_unit(start, bench.guide);
    bench.paper.pieces.drain(start..end);
    bench.perhaps_settle(700);
}

/// Repeats a whole loop, set or group.
fn double_a_unit(bench: &mut Bench) {
    let start = bench.some_later_piece();
    let end = bench.paper.end_of_unit(start, bench.guide);
    let unit = bench.paper.pieces[start..end].to_vec();
    bench.paper.pieces.splice(end..end, unit);
    bench.perhaps_settle(700);
}

/// Gives a segment the name of another row.
fn rename_a_segment(bench: &mut Bench) {
    let index = bench.some_later_piece();
    let rows = bench.guide.rows.len();
    let label = Label::Row(bench.prng.between(1, rows));
    let name = bench.guide.name_of(label).to_vec();
    bench.write(index, 0, &name);
    bench.perhaps_settle(300);
}

/// An input that ends before IEA.
pub(super) const AT_7: &[Damage] = &[
    Damage::OnBytes(cut_after_a_terminator),
    Damage::OnBytes(cut_after_a_terminator),
    Damage::OnPaper(drop_trailer),
    Damage::OnPaper(cut_before_a_segment),
];

fn cut_after_a_terminator(bytes: &mut Vec<u8>, prng: &mut Prng) {
    let terminator = bytes.get(LEAST_LENGTH - 1).copied().unwrap_or(b'~');
    let ends: Vec<usize> = (LEAST_LENGTH - 1..bytes.len().max(LEAST_LENGTH) - 1)
        .filter(|&place| bytes.get(place) == Some(&terminator))
        .collect();
    if !ends.is_empty() {
        bytes.truncate(prng.pick_of(&ends) + 1);
    }
    let tail: &[u8] = prng.pick(&[b"", b"", b"\n", b"\r\n", b"\r\r\n\n"]);
    bytes.extend_from_slice(tail);
}

fn drop_trailer(bench: &mut Bench) {
    bench.paper.pieces.pop();
}

fn cut_before_a_segment(bench: &mut Bench) {
    let index = bench.some_later_piece();
    bench.paper.pieces.truncate(index);
}
