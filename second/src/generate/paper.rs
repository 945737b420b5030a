//! An interchange as pieces that can be changed and rendered.

use crate::bytes::Delimiters;
use crate::generate::prng::Prng;
use crate::guide::{Envelope, Guide, Label};
use crate::natural::Natural;

/// A segment that is being written.
#[derive(Clone, Debug)]
pub struct Piece {
    /// What it was written as.
    pub label: Label,
    /// Its elements, from element 0, the name.
    pub elements: Vec<Vec<u8>>,
    /// The bytes 13 and 10 after its terminator.
    pub gap: Vec<u8>,
}

impl Piece {
    /// True if it has this name.
    pub fn is(&self, name: &[u8]) -> bool {
        self.elements.first().is_some_and(|own| own == name)
    }

    /// The bytes of an element; empty if absent.
    pub fn element(&self, number: usize) -> &[u8] {
        self.elements.get(number).map_or(&[], Vec::as_slice)
    }

    /// Sets an element, with empty ones before it where needed.
    pub fn set(&mut self, number: usize, bytes: &[u8]) {
        if self.elements.len() <= number {
            self.elements.resize(number + 1, Vec::new());
        }
        self.elements[number] = bytes.to_vec();
    }

    /// Its length when rendered, with terminator and line ends.
    pub fn length(&self) -> usize {
        self.gap.len() + self.elements.iter().map(|element| element.len() + 1).sum::<usize>()
    }

    /// Drops empty elements from the end.
    pub fn trim(&mut self) {
        while self.elements.len() > 1 && self.elements.last().is_some_and(Vec::is_empty) {
            self.elements.pop();
        }
    }
}

/// An interchange that is being written.
#[derive(Clone, Debug)]
pub struct Paper {
    /// Its delimiters.
    pub delimiters: Delimiters,
    /// Its segments.
    pub pieces: Vec<Piece>,
    /// In how many of a thousand cases a total is written with leading zeros.
    pub leading_zeros: usize,
}

impl Paper {
    /// The bytes of the interchange.
    pub fn render(&self) -> Vec<u8> {
        let mut bytes = Vec::new();
        for piece in &self.pieces {
            for (number, element) in piece.elements.iter().enumerate() {
                if number > 0 {
                    bytes.push(self.delimiters.separator);
                }
                bytes.extend_from_slice(element);
            }
            bytes.push(self.delimiters.terminator);
            bytes.extend_from_slice(&piece.gap);
        }
        bytes
    }

    /// The length of the rendered interchange.
    pub fn length(&self) -> usize {
        self.pieces.iter().map(Piece::length).sum()
    }

    /// The index after the unit that begins at this index: a loop with all that stands in it, a set
    /// from ST to SE, a group from GS to GE, or a single segment.
    pub fn end_of_unit(&self, start: usize, guide: &Guide) -> usize {
        let after = |name: &[u8]| {
            let end = self.pieces[start..].iter().position(|piece| piece.is(name));
            end.map_or(self.pieces.len(), |end| start + end + 1)
        };
        match self.pieces[start].label {
            Label::Envelope(Envelope::Gs) => after(b"GE"),
            Label::Envelope(_) => start + 1,
            Label::Row(1) => after(b"SE"),
            Label::Row(number) => {
                let depth = depth_of(guide, number);
                let inner = self.pieces[start + 1..].iter().take_while(
                    |piece| matches!(piece.label, Label::Row(row) if depth_of(guide, row) > depth),
                );
                start + 1 + inner.count()
            }
        }
    }

    /// Makes control numbers, counts and sums right, as the names of the pieces ask for it.
    pub fn settle(&mut self, guide: &Guide, prng: &mut Prng) {
        self.settle_lines(guide, prng);
        self.settle_sets(prng);
        self.settle_envelope(prng);
    }

    /// Makes PO102 the sum of the ACK02 of each line, where it is not, if the guide holds sums.
    pub fn settle_lines(&mut self, guide: &Guide, prng: &mut Prng) {
        if !guide.holds_sums {
            return;
        }
        let lines = self.indices(b"PO1");
        for (position, &po1) in lines.iter().enumerate() {
            let next = lines.get(position + 1).copied().unwrap_or(self.pieces.len());
            let end = (po1..next).find(|&index| self.pieces[index].is(b"CTT")).unwrap_or(next);
            let acks: Vec<usize> =
                (po1..end).filter(|&index| self.pieces[index].is(b"ACK")).collect();
            if self.sum_of(&acks, 2).to_string().len() > 9 {
                acks.iter().for_each(|&ack| self.pieces[ack].set(2, b"1"));
            }
            self.settle_number(po1, 2, &self.sum_of(&acks, 2), 9, prng);
        }
    }

    /// Makes CTT and SE of each set right.
    fn settle_sets(&mut self, prng: &mut Prng) {
        let (mut start, mut lines) = (0, Vec::new());
        for index in 0..self.pieces.len() {
            match self.pieces[index].element(0) {
                b"ST" => (start, lines) = (index, Vec::new()),
                b"PO1" => lines.push(index),
                b"CTT" => self.settle_ctt(index, &lines, prng),
                b"SE" => {
                    self.settle_number(index, 1, &Natural::count(index - start + 1), 10, prng);
                    let control = self.pieces[start].element(2).to_vec();
                    self.pieces[index].set(2, &control);
                }
                _ => {}
            }
        }
    }

    fn settle_ctt(&mut self, ctt: usize, lines: &[usize], prng: &mut Prng) {
        self.settle_number(ctt, 1, &Natural::count(lines.len()), 6, prng);
        let sum = self.sum_of(lines, 2);
        if self.pieces[ctt].element(2).is_empty() {
            return;
        }
        if sum.to_string().len() > 10 {
            self.pieces[ctt].set(2, b"");
            self.pieces[ctt].trim();
        } else {
            self.settle_number(ctt, 2, &sum, 10, prng);
        }
    }

    /// Makes GE and IEA right.
    fn settle_envelope(&mut self, prng: &mut Prng) {
        let (mut groups, mut sets, mut start) = (0, 0, 0);
        for index in 0..self.pieces.len() {
            match self.pieces[index].element(0) {
                b"GS" => (groups, sets, start) = (groups + 1, 0, index),
                b"ST" => sets += 1,
                b"GE" => {
                    self.settle_number(index, 1, &Natural::count(sets), 6, prng);
                    let control = self.pieces[start].element(6).to_vec();
                    self.pieces[index].set(2, &control);
                }
                b"IEA" => {
                    self.settle_number(index, 1, &Natural::count(groups), 5, prng);
                    let control = self.pieces[0].element(13).to_vec();
                    self.pieces[index].set(2, &control);
                }
                _ => {}
            }
        }
    }

    /// Writes a number where another one stands, at times with leading zeros.
    fn settle_number(
        &mut self,
        piece: usize,
        element: usize,
        number: &Natural,
        greatest: usize,
        prng: &mut Prng,
    ) {
        if Natural::read(self.pieces[piece].element(element)).as_ref() == Some(number) {
            return;
        }
        let digits = number.to_string();
        let length = digits.len();
        let zeros = if prng.chance(self.leading_zeros) && length < greatest {
            prng.pick_of(&[1, greatest - length])
        } else {
            0
        };
        self.pieces[piece].set(element, format!("{}{digits}", "0".repeat(zeros)).as_bytes());
    }

    fn sum_of(&self, pieces: &[usize], element: usize) -> Natural {
        let values = pieces.iter().map(|&index| Natural::read(self.pieces[index].element(element)));
        Natural::sum(values.map(|value| Some(value.unwrap_or_default()))).unwrap_or_default()
    }

    /// The indices of the pieces with this name.
    pub fn indices(&self, name: &[u8]) -> Vec<usize> {
        (0..self.pieces.len()).filter(|&index| self.pieces[index].is(name)).collect()
    }
}

/// In how many loops a row stands.
pub fn depth_of(guide: &Guide, row: usize) -> usize {
    guide.row(row).map_or(0, |row| row.depth)
}
