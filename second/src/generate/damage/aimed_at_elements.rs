//! Damages aimed at 8 to 13.

use super::{Bench, Damage};
use crate::guide::{Label, Presence};
use crate::types::ElementType;

/// A must element that is empty.
pub(super) const AT_8: &[Damage] = &[Damage::OnPaper(empty_a_must), Damage::OnPaper(cut_elements)];

fn empty_a_must(bench: &mut Bench) {
    let found =
        bench.some_ruled(|rule, bytes| rule.presence == Presence::Must && !bytes.is_empty());
    let Some((mut piece, mut rule)) = found else {
        return;
    };
    if piece == 0 && bench.prng.chance(900) {
        piece = bench.some_later_piece();
        let rules = bench.guide.rules_of(bench.paper.pieces[piece].label);
        let musts: Vec<_> = rules.iter().filter(|own| own.presence == Presence::Must).collect();
        if musts.is_empty() {
            return;
        }
        rule = bench.prng.pick(&musts).clone();
    }
    bench.write(piece, rule.element, b"");
    if bench.prng.chance(500) {
        bench.paper.pieces[piece].trim();
    }
}

/// Ends a segment early.
fn cut_elements(bench: &mut Bench) {
    let index = bench.some_later_piece();
    let piece = &mut bench.paper.pieces[index];
    let left = bench.prng.between(1, piece.elements.len().max(2) - 1);
    piece.elements.truncate(left);
}

/// An unused element that is filled.
pub(super) const AT_9: &[Damage] = &[
    Damage::OnPaper(fill_an_unused),
    Damage::OnPaper(fill_an_unused),
    Damage::OnPaper(fill_far_behind),
    Damage::OnPaper(insert_an_element),
];

fn fill_an_unused(bench: &mut Bench) {
    let index = bench.some_later_piece();
    let rules = bench.guide.rules_of(bench.paper.pieces[index].label);
    let last = rules.iter().map(|rule| rule.element).max().unwrap_or(0);
    let unused: Vec<usize> = (1..=last + 3)
        .filter(|&element| !rules.iter().any(|rule| rule.element == element))
        .collect();
    let element = bench.prng.pick_of(&unused);
    let length = bench.prng.pick_of(&[1, 1, 2, 10]);
    let value = if bench.prng.chance(100) {
        vec![b' '; length]
    } else {
        bench.scribe.text(length, bench.prng)
    };
    bench.write(index, element, &value);
}

/// Fills an element with a large number.
fn fill_far_behind(bench: &mut Bench) {
    let index = bench.some_later_piece();
    let element = bench.prng.pick_of(&[30, 31, 64, 65, 255, 256, 257, 1000, 3000]);
    let value: &[u8] = bench.prng.pick(&[b"A", b"A", b" ", b""]);
    bench.write(index, element, value);
}

fn insert_an_element(bench: &mut Bench) {
    let index = bench.some_later_piece();
    let count = bench.paper.pieces[index].elements.len();
    let at = bench.prng.between(1, count);
    let value: &[u8] = bench.prng.pick(&[b"A", b"", b"1", b" "]);
    bench.paper.pieces[index].elements.insert(at, value.to_vec());
}

/// An element of a wrong length.
pub(super) const AT_10: &[Damage] = &[
    Damage::OnPaper(lengthen),
    Damage::OnPaper(lengthen),
    Damage::OnPaper(lengthen_much),
    Damage::OnPaper(shorten),
    Damage::OnPaper(drop_digits),
];

/// Makes an element one byte too long, or as long as it may be.
fn lengthen(bench: &mut Bench) {
    let Some((piece, rule)) = bench.some_ruled(|_, bytes| !bytes.is_empty()) else {
        return;
    };
    if piece == 0 {
        return;
    }
    let mut value = bench.paper.pieces[piece].element(rule.element).to_vec();
    let filler = value.last().copied().unwrap_or(b'1');
    let filler = if rule.form.element_type == ElementType::R { b'1' } else { filler };
    let length = rule.form.greatest + usize::from(bench.prng.chance(800));
    if rule.form.element_type == ElementType::R {
        let digits = value.iter().filter(|byte| byte.is_ascii_digit()).count();
        value.resize(value.len() + length.saturating_sub(digits), filler);
    } else {
        value.resize(length.max(value.len()), filler);
    }
    bench.write(piece, rule.element, &value);
}

fn lengthen_much(bench: &mut Bench) {
    let Some((piece, rule)) = bench.some_ruled(|_, bytes| !bytes.is_empty()) else {
        return;
    };
    if piece == 0 {
        return;
    }
    let mut value = bench.paper.pieces[piece].element(rule.element).to_vec();
    let more = bench.prng.pick_of(&[2, 10, 48, 100, 256, 300, 5000]);
    value.resize(value.len() + more, b'0');
    bench.write(piece, rule.element, &value);
}

fn shorten(bench: &mut Bench) {
    let Some((piece, rule)) =
        bench.some_ruled(|rule, bytes| rule.form.least > 1 && !bytes.is_empty())
    else {
        return;
    };
    if piece == 0 {
        return;
    }
    let mut value = bench.paper.pieces[piece].element(rule.element).to_vec();
    value.truncate(rule.form.least - 1);
    bench.write(piece, rule.element, &value);
}

/// Leaves a decimal without digits.
fn drop_digits(bench: &mut Bench) {
    let found = bench.some_ruled(|rule, _| rule.form.element_type == ElementType::R);
    if let Some((piece, rule)) = found {
        let value: &[u8] = bench.prng.pick(&[b"-", b".", b"-.", b"ABC", b" ", b"--"]);
        bench.write(piece, rule.element, value);
    }
}

/// An element that is not of its type.
pub(super) const AT_11: &[Damage] = &[
    Damage::OnPaper(spoil_a_value),
    Damage::OnPaper(spoil_a_value),
    Damage::OnPaper(spoil_a_value),
    Damage::OnPaper(spoil_header_value),
    Damage::OnPaper(spoil_a_date),
    Damage::OnPaper(spoil_a_decimal),
];

/// Bad values of a type, of the same length as the good one.
fn spoiled(bench: &mut Bench, element_type: ElementType, value: &[u8]) -> Vec<u8> {
    let mut spoiled = value.to_vec();
    let place = bench.prng.below(spoiled.len());
    match element_type {
        ElementType::N0 | ElementType::Q => spoiled[place] = bench.prng.pick_of(b"A -.+a"),
        ElementType::Id => spoiled[place] = bench.prng.pick_of(b"a -.z_"),
        ElementType::An => spoiled.fill(b' '),
        ElementType::R => return bench.prng.pick(&BAD_DECIMALS).as_bytes().to_vec(),
        ElementType::D8 => return bench.prng.pick(&BAD_D8).as_bytes().to_vec(),
        ElementType::D6 => return bench.prng.pick(&BAD_D6).as_bytes().to_vec(),
        ElementType::Tm => return bench.prng.pick(&BAD_TIMES).as_bytes().to_vec(),
        ElementType::Spaces => spoiled[place] = bench.prng.pick_of(b"A0.a"),
    }
    spoiled
}

const BAD_DECIMALS: [&str; 14] = [
    "5-", "--5", "1.2.3", "+5", "1A", "- 5", "1,5", "1e5", "5 ", ".5.", "-5-", ".-5", "1 2", "0x1",
];
const BAD_D8: [&str; 19] = [
    "19000229", "20010229", "20050631", "20050431", "18991231", "21000101", "20051301", "20050001",
    "20050100", "20050132", "2005062A", "00000000", "99999999", "        ", "2005 101", "20051131",
    "20050931", "20040230", "-2005011",
];
const BAD_D6: [&str; 10] = [
    "010229", "050631", "051301", "050001", "050100", "050132", "05062A", "000000", "999999",
    "000230",
];
const BAD_TIMES: [&str; 8] = ["2400", "0960", "2360", "9999", "09A0", "-100", "09 0", "    "];

fn spoil_a_value(bench: &mut Bench) {
    let Some((piece, rule)) = bench.some_ruled(|_, bytes| !bytes.is_empty()) else {
        return;
    };
    if rule.presence == Presence::Free {
        return;
    }
    let value = bench.paper.pieces[piece].element(rule.element).to_vec();
    let value = spoiled(bench, rule.form.element_type, &value);
    bench.write(piece, rule.element, &value);
}

/// Spoils a value of ISA, and keeps its length.
fn spoil_header_value(bench: &mut Bench) {
    bench.touched = 0;
    let element = bench.prng.pick_of(&[1, 2, 4, 6, 8, 9, 9, 10, 10, 12, 13, 14, 15]);
    let Some(rule) = bench.guide.isa.iter().find(|rule| rule.element == element) else {
        return;
    };
    let value = bench.paper.pieces[0].element(element).to_vec();
    if !value.is_empty() {
        let value = spoiled(bench, rule.form.element_type, &value);
        bench.write(0, element, &value);
    }
}

fn spoil_a_date(bench: &mut Bench) {
    let found = bench
        .some_ruled(|rule, bytes| rule.form.element_type == ElementType::D8 && !bytes.is_empty());
    if let Some((piece, rule)) = found {
        let value = bench.prng.pick(&BAD_D8);
        bench.write(piece, rule.element, value.as_bytes());
    }
}

fn spoil_a_decimal(bench: &mut Bench) {
    let found = bench.some_ruled(|rule, _| rule.form.element_type == ElementType::R);
    if let Some((piece, rule)) = found {
        let value = bench.prng.pick(&BAD_DECIMALS);
        bench.write(piece, rule.element, value.as_bytes());
    }
}

/// An element that is no code of its list, or a wrong pair of BAK01 and BAK02.
pub(super) const AT_12: &[Damage] = &[
    Damage::OnPaper(change_a_code),
    Damage::OnPaper(change_a_code),
    Damage::OnPaper(change_a_code),
    Damage::OnPaper(change_bak_pair),
    Damage::OnPaper(change_header_code),
];

fn change_a_code(bench: &mut Bench) {
    let found = bench.some_ruled(|rule, bytes| !rule.form.codes.is_empty() && !bytes.is_empty());
    let Some((piece, rule)) = found else {
        return;
    };
    let length = if piece == 0 {
        bench.paper.pieces[0].element(rule.element).len()
    } else {
        bench.prng.between(rule.form.least, rule.form.greatest)
    };
    let value: Vec<u8> = match bench.prng.below(4) {
        0 => b"ZZZZZZZ"[..length.min(7)].to_vec(),
        1 => b"AAAAAAA"[..length.min(7)].to_vec(),
        _ => (0..length).map(|_| crate::generate::scribe::capital_or_digit(bench.prng)).collect(),
    };
    bench.write(piece, rule.element, &value);
}

fn change_bak_pair(bench: &mut Bench) {
    let Some(piece) = bench.some_named(&[b"BAK"]) else {
        return;
    };
    let (bak01, bak02) = bench.prng.pick_of(&[
        ("00", "AE"),
        ("04", "AC"),
        ("01", "AC"),
        ("AC", "00"),
        ("00", "AD"),
        ("00", "RJ"),
        ("06", "AE"),
        ("04", "ZZ"),
    ]);
    bench.write(piece, 1, bak01.as_bytes());
    bench.write(piece, 2, bak02.as_bytes());
}

fn change_header_code(bench: &mut Bench) {
    bench.touched = 0;
    let changes = [
        (1, "01"),
        (3, "01"),
        (5, "01"),
        (7, "14"),
        (11, "V"),
        (12, "00402"),
        (14, "1"),
        (15, "X"),
    ];
    let (element, code) = bench.prng.pick_of(&changes);
    bench.write(0, element, code.as_bytes());
}

/// A broken pair rule, or a needed row that is missing.
pub(super) const AT_13: &[Damage] = &[
    Damage::OnPaper(break_a_pair),
    Damage::OnPaper(break_a_pair),
    Damage::OnPaper(drop_needed_row),
];

fn break_a_pair(bench: &mut Bench) {
    let found = bench.rows_where(|row| !row.pairs.is_empty());
    if found.is_empty() {
        return;
    }
    let index = bench.prng.pick_of(&found);
    bench.touched = index;
    let label = bench.paper.pieces[index].label;
    let (a, b) = bench.prng.pick_of(bench.guide.pairs_of(label));
    if let Some(rule) = bench.guide.rules_of(label).iter().find(|rule| rule.element == a) {
        let value = bench.scribe.value(&rule.form, bench.prng);
        bench.write(index, a, &value);
        bench.write(index, b, b"");
        bench.paper.pieces[index].trim();
    }
}

/// Asks for a needed row in a set that mostly does not have it.
fn drop_needed_row(bench: &mut Bench) {
    if bench.guide.needed.is_empty() {
        return break_a_pair(bench);
    }
    let at = bench.prng.below(bench.guide.needed.len());
    let (code, row) = bench.guide.needed[at];
    let Some(bak) = bench.some_named(&[b"BAK"]) else {
        return;
    };
    bench.write(bak, 2, code);
    while let Some(start) = bench.paper.pieces[bak..]
        .iter()
        .take_while(|piece| !piece.is(b"SE"))
        .position(|piece| piece.label == Label::Row(row))
    {
        let end = bench.paper.end_of_unit(bak + start, bench.guide);
        bench.paper.pieces.drain(bak + start..end);
    }
    bench.perhaps_settle(800);
}
