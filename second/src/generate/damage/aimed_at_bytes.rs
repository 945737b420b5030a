//! Damages aimed at 1 to 5.

use super::{Bench, Damage};
use crate::bytes::{GREATEST_LENGTH, LEAST_LENGTH, SEPARATOR_PLACES};
use crate::generate::paper::Piece;
use crate::generate::prng::Prng;

/// Another length than an interchange may have.
pub(super) const AT_1: &[Damage] = &[
    Damage::OnBytes(cut_within_header),
    Damage::OnBytes(cut_within_header),
    Damage::OnBytes(cut_within_header),
    Damage::OnBytes(cut_before_header_ends),
    Damage::OnBytes(cut_before_header_ends),
    Damage::OnBytes(cut_before_header_ends),
    Damage::OnBytes(cut_before_header_ends),
    Damage::OnBytes(leave_header),
    Damage::OnBytes(leave_header),
    Damage::OnBytes(lengthen_to_the_limit),
];

fn cut_within_header(bytes: &mut Vec<u8>, prng: &mut Prng) {
    bytes.truncate(prng.below(LEAST_LENGTH));
}

fn cut_before_header_ends(bytes: &mut Vec<u8>, _: &mut Prng) {
    bytes.truncate(LEAST_LENGTH - 1);
}

fn leave_header(bytes: &mut Vec<u8>, _: &mut Prng) {
    bytes.truncate(LEAST_LENGTH);
}

/// Adds bytes 13 and 10, or anything, up to the greatest length or a little more.
fn lengthen_to_the_limit(bytes: &mut Vec<u8>, prng: &mut Prng) {
    let length = GREATEST_LENGTH + prng.pick_of(&[0, 1, 1, 1, 1, 2, 100]);
    let filler = prng.pick_of(&[13, 10, 10, b'A', 0]);
    bytes.resize(length.max(bytes.len()), filler);
}

/// A header with another shape.
pub(super) const AT_2: &[Damage] = &[
    Damage::OnBytes(change_isa),
    Damage::OnBytes(drop_a_separator),
    Damage::OnBytes(add_a_separator),
    Damage::OnBytes(add_a_terminator),
    Damage::OnBytes(shift_header),
    Damage::OnBytes(make_delimiters_equal),
];

fn put(bytes: &mut [u8], place: usize, byte: u8) {
    if let Some(found) = bytes.get_mut(place) {
        *found = byte;
    }
}

fn at(bytes: &[u8], place: usize) -> u8 {
    bytes.get(place).copied().unwrap_or(0)
}

fn change_isa(bytes: &mut Vec<u8>, prng: &mut Prng) {
    let place = prng.below(3);
    let byte = prng.pick_of(b"iIsSaAX \0");
    put(bytes, place, byte);
}

fn drop_a_separator(bytes: &mut Vec<u8>, prng: &mut Prng) {
    let place = prng.pick_of(&SEPARATOR_PLACES);
    let byte = prng.pick_of(b" 0A+|\n");
    put(bytes, place, byte);
}

fn add_a_separator(bytes: &mut Vec<u8>, prng: &mut Prng) {
    let separator = at(bytes, 3);
    put(bytes, prng.below(LEAST_LENGTH), separator);
}

fn add_a_terminator(bytes: &mut Vec<u8>, prng: &mut Prng) {
    let terminator = at(bytes, 105);
    put(bytes, prng.below(LEAST_LENGTH), terminator);
}

/// Takes a byte out of the header or puts one in.
fn shift_header(bytes: &mut Vec<u8>, prng: &mut Prng) {
    let place = prng.below(LEAST_LENGTH);
    if place >= bytes.len() {
        return;
    }
    if prng.chance(500) {
        bytes.remove(place);
    } else {
        let byte = prng.pick_of(b" 0A\n");
        bytes.insert(place, byte);
    }
}

fn make_delimiters_equal(bytes: &mut Vec<u8>, prng: &mut Prng) {
    let (from, to) = prng.pick_of(&[(3, 104), (3, 105), (104, 105), (105, 104)]);
    let byte = at(bytes, from);
    put(bytes, to, byte);
}

/// A delimiter of another class.
pub(super) const AT_3: &[Damage] = &[
    Damage::OnBytes(poor_component),
    Damage::OnBytes(poor_terminator),
    Damage::OnBytes(poor_separator),
    Damage::OnBytes(poor_all),
];

const POOR: &[u8] = b"qjQJ7 \n\r\0\x1c\x1d\x1f\x7f\x80\xff";

fn poor_component(bytes: &mut Vec<u8>, prng: &mut Prng) {
    put(bytes, 104, prng.pick_of(POOR));
}

fn poor_terminator(bytes: &mut Vec<u8>, prng: &mut Prng) {
    let byte = prng.pick_of(POOR);
    exchange(bytes, 105, byte);
}

fn poor_separator(bytes: &mut Vec<u8>, prng: &mut Prng) {
    let byte = prng.pick_of(POOR);
    exchange(bytes, 3, byte);
}

fn poor_all(bytes: &mut Vec<u8>, _: &mut Prng) {
    for (place, byte) in [(3, 0x1d), (104, 0x1f), (105, 0x1c)] {
        exchange(bytes, place, byte);
    }
}

/// Puts a byte wherever the delimiter of this place stands.
fn exchange(bytes: &mut [u8], place: usize, to: u8) {
    let from = at(bytes, place);
    bytes.iter_mut().filter(|byte| **byte == from).for_each(|byte| *byte = to);
}

/// A byte of class 0 or a component separator in an element.
pub(super) const AT_4: &[Damage] = &[
    Damage::OnPaper(insert_foreign_byte),
    Damage::OnPaper(insert_foreign_byte),
    Damage::OnPaper(foreign_byte_in_header),
    Damage::OnPaper(second_header),
    Damage::OnBytes(line_end_anywhere),
];

const FOREIGN: &[u8] = b"\x00\x01\x09\x0a\x0d\x1b\x1f\x7f\x80\xa0\xff";

fn foreign_byte(bench: &mut Bench) -> u8 {
    if bench.prng.chance(400) {
        bench.paper.delimiters.component
    } else {
        bench.prng.pick_of(FOREIGN)
    }
}

fn insert_foreign_byte(bench: &mut Bench) {
    let index = bench.some_later_piece();
    let byte = foreign_byte(bench);
    let piece = &mut bench.paper.pieces[index];
    let number = bench.prng.below(piece.elements.len());
    let element = &mut piece.elements[number];
    let place = bench.prng.between(0, element.len());
    if bench.prng.chance(500) || place >= element.len() {
        element.insert(place, byte);
    } else {
        element[place] = byte;
    }
}

fn foreign_byte_in_header(bench: &mut Bench) {
    bench.touched = 0;
    let byte = foreign_byte(bench);
    let number = bench.prng.between(0, 15);
    let piece = &mut bench.paper.pieces[0];
    if let Some(element) = piece.elements.get_mut(number).filter(|element| !element.is_empty()) {
        let place = bench.prng.below(element.len());
        element[place] = byte;
    }
}

/// Puts the header into the interchange once more.
fn second_header(bench: &mut Bench) {
    let mut header = bench.paper.pieces[0].clone();
    if bench.prng.chance(300) {
        header.elements.pop();
    }
    let at = bench.prng.between(1, bench.paper.pieces.len());
    bench.paper.pieces.insert(at, header);
    bench.touched = at;
}

fn line_end_anywhere(bytes: &mut Vec<u8>, prng: &mut Prng) {
    let place = prng.between(LEAST_LENGTH.min(bytes.len()), bytes.len());
    bytes.insert(place, prng.pick_of(&[13, 10]));
}

/// A segment without a good name, or without a terminator.
pub(super) const AT_5: &[Damage] = &[
    Damage::OnPaper(spoil_name),
    Damage::OnPaper(spoil_name),
    Damage::OnPaper(insert_empty_segment),
    Damage::OnPaper(double_a_terminator),
    Damage::OnBytes(drop_last_terminator),
    Damage::OnBytes(add_tail),
    Damage::OnBytes(add_tail),
];

fn spoil_name(bench: &mut Bench) {
    let index = bench.some_later_piece();
    let mut name = bench.paper.pieces[index].elements[0].clone();
    match bench.prng.below(6) {
        0 => name.make_ascii_lowercase(),
        1 => name.truncate(1),
        2 => name.resize(4, b'A'),
        3 => name.clear(),
        4 => name.insert(0, b' '),
        _ => {
            let at = bench.prng.below(name.len());
            let byte = bench.prng.pick_of(b" az-_@[");
            name.splice(at..(at + 1).min(name.len()), [byte]);
        }
    }
    bench.write(index, 0, &name);
}

fn insert_empty_segment(bench: &mut Bench) {
    let at = bench.prng.between(1, bench.paper.pieces.len());
    let mut empty: Piece = bench.paper.pieces[0].clone();
    empty.elements = vec![Vec::new(); bench.prng.pick_of(&[1, 1, 1, 2, 5])];
    bench.paper.pieces.insert(at, empty);
    bench.touched = at;
}

/// Puts a terminator after the line ends of a segment.
fn double_a_terminator(bench: &mut Bench) {
    let index = bench.some_piece();
    let terminator = bench.paper.delimiters.terminator;
    let gap = &mut bench.paper.pieces[index].gap;
    gap.push(terminator);
    if bench.prng.chance(300) {
        gap.insert(0, 10);
    }
}

/// Cuts the input before its last terminator.
fn drop_last_terminator(bytes: &mut Vec<u8>, prng: &mut Prng) {
    let terminator = at(bytes, 105);
    if let Some(last) = bytes.iter().rposition(|&byte| byte == terminator) {
        bytes.truncate(last);
    }
    if prng.chance(200) {
        bytes.extend_from_slice(b"\r\n");
    }
}

/// Adds something after the last segment.
fn add_tail(bytes: &mut Vec<u8>, prng: &mut Prng) {
    let (separator, terminator) = (at(bytes, 3), at(bytes, 105));
    let tail: &[u8] = prng.pick(&[
        b"X",
        b"ZZ",
        b"X\r\n",
        b"ZZ\n",
        b"\r\n~",
        b"~",
        b"X~",
        b"ZZ~",
        b"X*\x01",
        b"ZZ*A~",
        b"IEA*1",
        b"\x00",
        b"\x1a",
        b" ",
        b"~~",
        b"IEA*1*000000007~",
        b"GS~",
        b"ISA~",
        b"*~",
        b"*",
    ]);
    bytes.extend(tail.iter().map(|&byte| match byte {
        b'*' => separator,
        b'~' => terminator,
        _ => byte,
    }));
}
