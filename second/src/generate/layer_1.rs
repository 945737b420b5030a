//! Short files aimed at layer 1.

use crate::bytes::{class, LEAST_LENGTH};
use crate::generate::prng::Prng;
use crate::generate::scribe::delimiters;

const HEADER: &[u8] = b"ISA*00*          *00*          *ZZ*TESTVENDOR     *ZZ*TESTBUYER      *050620*0930*U*00401*000000007*0*T*>~";

/// One short file. Every second one has a damaged header; its place follows from the index.
pub fn file(prng: &mut Prng, index: u64) -> Vec<u8> {
    let mut bytes = header(prng);
    if index.is_multiple_of(2) {
        let place = (index / 2) as usize % LEAST_LENGTH;
        damage_header(&mut bytes, place, prng);
    }
    add_segments(&mut bytes, prng);
    if prng.chance(60) {
        let length = prng.pick_of(&[0, 1, 104, 105, 106, 107, 108]);
        bytes.truncate(length);
    }
    bytes
}

/// A header, at times with other delimiters.
fn header(prng: &mut Prng) -> Vec<u8> {
    let chosen = delimiters(prng);
    HEADER
        .iter()
        .map(|&byte| match byte {
            b'*' => chosen.separator,
            b'>' => chosen.component,
            b'~' => chosen.terminator,
            _ => byte,
        })
        .collect()
}

/// A byte of a random class, a line end, or a delimiter.
fn some_byte(bytes: &[u8], prng: &mut Prng) -> u8 {
    let wanted = prng.below(10) as u8;
    match wanted {
        0..=5 => loop {
            let byte = prng.byte();
            if class(byte) == wanted {
                return byte;
            }
        },
        6 => bytes[3],
        7 => bytes[104],
        8 => bytes[105],
        _ => prng.pick_of(&[13, 10]),
    }
}

/// Changes the byte at this place, or does something else to the header.
fn damage_header(bytes: &mut Vec<u8>, place: usize, prng: &mut Prng) {
    let byte = some_byte(bytes, prng);
    match prng.below(12) {
        0 => {
            bytes.remove(place);
        }
        1 => bytes.insert(place, byte),
        2 => {
            let (from, to) = prng.pick_of(&[(3, 104), (3, 105), (104, 105), (105, 104), (104, 3)]);
            bytes[to] = bytes[from];
        }
        3..=4 => exchange_delimiter(bytes, byte, prng),
        5 => {
            let other = prng.below(LEAST_LENGTH);
            bytes.swap(place, other);
        }
        _ => bytes[place] = byte,
    }
    bytes.resize(bytes.len().max(LEAST_LENGTH), b'~');
}

/// Puts another byte wherever a delimiter stands.
fn exchange_delimiter(bytes: &mut [u8], byte: u8, prng: &mut Prng) {
    let old = bytes[prng.pick_of(&[3, 104, 105])];
    bytes.iter_mut().filter(|own| **own == old).for_each(|own| *own = byte);
}

/// Adds up to six segments of all sorts, and at times a tail.
fn add_segments(bytes: &mut Vec<u8>, prng: &mut Prng) {
    let (separator, terminator) = (bytes[3], bytes[105]);
    let is_gentle = prng.chance(500);
    add_line_ends(bytes, prng);
    for _ in 0..prng.below(7) {
        add_name(bytes, is_gentle, prng);
        for _ in 0..prng.pick_of(&[0, 0, 1, 2, 3, 17]) {
            bytes.push(separator);
            add_element(bytes, is_gentle, prng);
        }
        bytes.push(terminator);
        add_line_ends(bytes, prng);
    }
    if prng.chance(250) {
        add_name(bytes, is_gentle, prng);
        if prng.chance(300) {
            bytes.push(separator);
            add_element(bytes, is_gentle, prng);
        }
        add_line_ends(bytes, prng);
    }
}

fn add_line_ends(bytes: &mut Vec<u8>, prng: &mut Prng) {
    for _ in 0..prng.pick_of(&[0, 0, 0, 1, 2, 3]) {
        bytes.push(prng.pick_of(&[13, 10]));
    }
}

/// A name of nought to four bytes; a good one, if gentle, in most cases.
fn add_name(bytes: &mut Vec<u8>, is_gentle: bool, prng: &mut Prng) {
    if prng.chance(if is_gentle { 950 } else { 500 }) {
        let name =
            prng.pick(&["GS", "ST", "BAK", "PO1", "N1", "IEA", "ISA", "A1", "99", "000", "ZZZ"]);
        bytes.extend_from_slice(name.as_bytes());
        return;
    }
    for _ in 0..prng.below(5) {
        let byte = if prng.chance(600) { prng.pick_of(b"AZ09") } else { some_byte(bytes, prng) };
        bytes.push(byte);
    }
}

fn add_element(bytes: &mut Vec<u8>, is_gentle: bool, prng: &mut Prng) {
    for _ in 0..prng.pick_of(&[0, 1, 1, 2, 3]) {
        let is_plain = prng.chance(if is_gentle { 990 } else { 850 });
        let byte = if is_plain { prng.pick_of(b"AZ09 az.-") } else { some_byte(bytes, prng) };
        bytes.push(byte);
    }
}
