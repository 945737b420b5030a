//! Damages that aim at nothing in particular.

use super::aimed_at_structure::{
    delete_a_segment, double_a_segment, move_a_segment, swap_two_segments,
};
use super::{Bench, Damage};
use crate::generate::prng::Prng;

/// All blind damages.
pub(super) const DAMAGES: &[Damage] = &[
    Damage::OnBytes(change_bytes),
    Damage::OnBytes(change_bytes),
    Damage::OnBytes(insert_bytes),
    Damage::OnBytes(delete_bytes),
    Damage::OnBytes(cut_anywhere),
    Damage::OnBytes(change_a_delimiter),
    Damage::OnPaper(empty_an_element),
    Damage::OnPaper(fill_an_element),
    Damage::OnPaper(swap_elements),
    Damage::OnPaper(copy_an_element),
    Damage::OnPaper(many_elements),
    Damage::OnPaper(change_a_byte_of_an_element),
    Damage::OnPaper(delete_a_segment),
    Damage::OnPaper(double_a_segment),
    Damage::OnPaper(move_a_segment),
    Damage::OnPaper(swap_two_segments),
    Damage::OnPaper(nothing),
];

/// A byte to put somewhere: any, or one that matters.
fn some_byte(bytes: &[u8], prng: &mut Prng) -> u8 {
    let known = |place: usize| bytes.get(place).copied().unwrap_or(b'*');
    match prng.below(8) {
        0 => known(3),
        1 => known(105),
        2 => known(104),
        3 => prng.pick_of(b"0123456789"),
        4 => prng.pick_of(b"ABCXYZ"),
        5 => prng.pick_of(b"\r\n .-a"),
        _ => prng.byte(),
    }
}

fn change_bytes(bytes: &mut Vec<u8>, prng: &mut Prng) {
    for _ in 0..prng.pick_of(&[1, 1, 1, 2, 3]) {
        let byte = some_byte(bytes, prng);
        let place = prng.below(bytes.len());
        if let Some(found) = bytes.get_mut(place) {
            *found = byte;
        }
    }
}

fn insert_bytes(bytes: &mut Vec<u8>, prng: &mut Prng) {
    for _ in 0..prng.pick_of(&[1, 1, 2]) {
        let byte = some_byte(bytes, prng);
        let place = prng.between(106.min(bytes.len()), bytes.len());
        bytes.insert(place, byte);
    }
}

fn delete_bytes(bytes: &mut Vec<u8>, prng: &mut Prng) {
    for _ in 0..prng.pick_of(&[1, 1, 2, 5]) {
        let place = prng.between(106.min(bytes.len()), bytes.len());
        if place < bytes.len() {
            bytes.remove(place);
        }
    }
}

fn cut_anywhere(bytes: &mut Vec<u8>, prng: &mut Prng) {
    bytes.truncate(prng.between(0, bytes.len()));
}

/// Names another delimiter in the header, and mostly puts it where the old one stands.
fn change_a_delimiter(bytes: &mut Vec<u8>, prng: &mut Prng) {
    let place = prng.pick_of(&[3, 104, 105]);
    let byte = prng.pick_of(b"!+:|^.-,/;@[_{}*>~");
    let Some(old) = bytes.get(place).copied() else {
        return;
    };
    if prng.chance(700) {
        bytes.iter_mut().filter(|own| **own == old).for_each(|own| *own = byte);
    } else {
        bytes[place] = byte;
    }
}

/// A piece after the header that has elements, and the number of one of them.
fn some_element(bench: &mut Bench) -> Option<(usize, usize)> {
    let piece = bench.some_later_piece();
    let count = bench.paper.pieces[piece].elements.len();
    (count > 1).then(|| (piece, bench.prng.between(1, count - 1)))
}

fn empty_an_element(bench: &mut Bench) {
    if let Some((piece, element)) = some_element(bench) {
        bench.write(piece, element, b"");
    }
}

fn fill_an_element(bench: &mut Bench) {
    if let Some((piece, element)) = some_element(bench) {
        let length = bench.prng.between(1, 8);
        let value = bench.scribe.text(length, bench.prng);
        bench.write(piece, element, &value);
    }
}

fn swap_elements(bench: &mut Bench) {
    if let Some((piece, one)) = some_element(bench) {
        let elements = &mut bench.paper.pieces[piece].elements;
        let other = bench.prng.between(1, elements.len() - 1);
        elements.swap(one, other);
    }
}

/// Puts the value of one element into another one, anywhere.
fn copy_an_element(bench: &mut Bench) {
    let Some((from, element)) = some_element(bench) else {
        return;
    };
    let value = bench.paper.pieces[from].element(element).to_vec();
    bench.stay = false;
    if let Some((to, element)) = some_element(bench) {
        bench.write(to, element, &value);
    }
}

/// Adds elements, up to thousands, mostly empty.
fn many_elements(bench: &mut Bench) {
    let piece = bench.some_later_piece();
    let count = bench.prng.pick_of(&[1, 5, 30, 31, 100, 500, 4000]);
    let last: &[u8] = bench.prng.pick(&[b"", b"", b"A", b"\x01", b" "]);
    let elements = &mut bench.paper.pieces[piece].elements;
    elements.resize(elements.len() + count, Vec::new());
    elements.push(last.to_vec());
}

fn change_a_byte_of_an_element(bench: &mut Bench) {
    let Some((piece, element)) = some_element(bench) else {
        return;
    };
    let mut value = bench.paper.pieces[piece].element(element).to_vec();
    if !value.is_empty() {
        let at = bench.prng.below(value.len());
        value[at] = bench.prng.pick_of(b"0123456789ABCXYZabc .-");
        bench.write(piece, element, &value);
    }
}

/// Leaves the interchange as it is.
fn nothing(_: &mut Bench) {}
