//! Element values: of each type and of each length that a rule allows, the limits included.

use crate::bytes::{class, Delimiters};
use crate::generate::prng::Prng;
use crate::types::{days_of, ElementType, Form};

/// How long values are.
#[derive(Clone, Copy, Debug, PartialEq, Eq)]
pub enum Brevity {
    /// As short as the rule allows; codes and dates as they come.
    Least,
    /// Of all lengths, mostly short, at times the least or the greatest.
    Mixed,
}

/// Writes element values that keep the delimiters out.
#[derive(Clone, Copy, Debug)]
pub struct Scribe {
    /// The delimiters of the interchange.
    pub delimiters: Delimiters,
    /// How long values are.
    pub brevity: Brevity,
}

impl Scribe {
    /// A value that keeps the form.
    pub fn value(&self, form: &Form, prng: &mut Prng) -> Vec<u8> {
        if !form.codes.is_empty() {
            return self.code(&form.codes, prng);
        }
        match form.element_type {
            ElementType::N0 | ElementType::Q => {
                let length = self.length(form, prng);
                (0..length).map(|_| digit(prng)).collect()
            }
            ElementType::Id => {
                let length = self.length(form, prng);
                (0..length).map(|_| capital_or_digit(prng)).collect()
            }
            ElementType::An => self.text(self.length(form, prng), prng),
            ElementType::R => self.decimal(self.length(form, prng), prng),
            ElementType::D8 => {
                let year = year(prng);
                date(prng, year)
            }
            ElementType::D6 => {
                let year = 2000 + prng.below(100);
                date(prng, year)[2..].to_vec()
            }
            ElementType::Tm => time(prng),
            ElementType::Spaces => vec![b' '; form.least],
        }
    }

    fn code(&self, codes: &[Vec<u8>], prng: &mut Prng) -> Vec<u8> {
        let shortest = codes.iter().map(Vec::len).min().unwrap_or(0);
        let eligible: Vec<&Vec<u8>> = codes
            .iter()
            .filter(|code| self.brevity == Brevity::Mixed || code.len() == shortest)
            .collect();
        prng.pick(&eligible).clone()
    }

    /// A length within the limits, often at one of them.
    fn length(&self, form: &Form, prng: &mut Prng) -> usize {
        let usual = form.greatest.min(form.least + 11);
        match (self.brevity, prng.below(100)) {
            (Brevity::Least, _) | (_, 0..=14) => form.least,
            (_, 15..=19) => form.greatest,
            (_, 20..=21) => form.greatest.saturating_sub(1).max(form.least),
            _ => prng.between(form.least, usual),
        }
    }

    /// Text without delimiters, with one byte at least that is no space.
    pub fn text(&self, length: usize, prng: &mut Prng) -> Vec<u8> {
        let taste = prng.below(10);
        let mut bytes: Vec<u8> = (0..length).map(|_| self.text_byte(taste, prng)).collect();
        if !bytes.is_empty() && bytes.iter().all(|&byte| byte == b' ') {
            let at = prng.below(bytes.len());
            bytes[at] = capital_or_digit(prng);
        }
        bytes
    }

    fn text_byte(&self, taste: usize, prng: &mut Prng) -> u8 {
        let byte = match (taste, prng.below(10)) {
            (0..=4, _) => capital_or_digit(prng),
            (5, _) => 32 + prng.below(95) as u8,
            (6, 0..=6) => b' ',
            (_, 0..=5) => b'a' + prng.below(26) as u8,
            (_, 6) => b' ',
            (_, 7) => self.mark(prng),
            _ => capital_or_digit(prng),
        };
        if self.is_delimiter(byte) {
            b'0'
        } else {
            byte
        }
    }

    /// A byte of class 5 that is no delimiter.
    pub fn mark(&self, prng: &mut Prng) -> u8 {
        loop {
            let byte = 33 + prng.below(94) as u8;
            if class(byte) == 5 && !self.is_delimiter(byte) {
                return byte;
            }
        }
    }

    fn is_delimiter(&self, byte: u8) -> bool {
        let Delimiters { separator, component, terminator } = self.delimiters;
        [separator, component, terminator].contains(&byte)
    }

    /// A decimal with so many digits, at times with a minus or a point.
    fn decimal(&self, digits: usize, prng: &mut Prng) -> Vec<u8> {
        let mut bytes: Vec<u8> = (0..digits).map(|_| digit(prng)).collect();
        if prng.chance(500) && !self.is_delimiter(b'.') {
            let at = prng.between(0, bytes.len());
            bytes.insert(at, b'.');
        }
        if prng.chance(150) && !self.is_delimiter(b'-') {
            bytes.insert(0, b'-');
        }
        bytes
    }
}

/// Delimiters: mostly the usual ones, else any three of class 5.
pub fn delimiters(prng: &mut Prng) -> Delimiters {
    if prng.chance(750) {
        return Delimiters { separator: b'*', component: b'>', terminator: b'~' };
    }
    let mut marks: Vec<u8> = (33..=126).filter(|&byte| class(byte) == 5).collect();
    let mut take = || {
        let at = prng.below(marks.len());
        marks.swap_remove(at)
    };
    Delimiters { separator: take(), component: take(), terminator: take() }
}

/// A digit.
pub fn digit(prng: &mut Prng) -> u8 {
    b'0' + prng.below(10) as u8
}

/// A byte of class 1 or 2.
pub fn capital_or_digit(prng: &mut Prng) -> u8 {
    match prng.below(36) as u8 {
        number @ 0..=9 => b'0' + number,
        number => b'A' + number - 10,
    }
}

/// A year of 1900 to 2099, often one at a limit.
fn year(prng: &mut Prng) -> usize {
    match prng.below(10) {
        0 => 1900,
        1 => 2099,
        2 => 2000,
        3 => prng.between(1900, 2099),
        _ => prng.between(2004, 2008),
    }
}

/// A day of this year, often the first or the last of a month.
fn date(prng: &mut Prng, year: usize) -> Vec<u8> {
    let month = prng.between(1, 12);
    let days = days_of(year as u32, month as u32) as usize;
    let random = prng.between(1, days);
    let day = prng.pick_of(&[1, days, random, random]);
    format!("{year:04}{month:02}{day:02}").into_bytes()
}

fn time(prng: &mut Prng) -> Vec<u8> {
    let random = (prng.below(24), prng.below(60));
    let (hours, minutes) = prng.pick_of(&[(0, 0), (23, 59), random, random, random]);
    format!("{hours:02}{minutes:02}").into_bytes()
}
