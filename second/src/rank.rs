//! Faults, their order, and verdicts (rule book, sections 12, 13 and 16).

use crate::natural::Natural;
use crate::segments::Interchange;
use std::fmt;

/// A fault that an interchange meets. Layer and place follow from it.
#[derive(Clone, Copy, Debug, PartialEq, Eq)]
pub struct Fault {
    /// The number of the refusal, 1 to 23.
    pub number: u8,
    /// The number of the segment, from 1; 0 for faults of no segment.
    pub segment: usize,
    /// The number of the element.
    pub element: usize,
}

impl Fault {
    /// The layer: 1 bytes, 2 structure, 3 elements, 4 totals, 5 register, 6 results.
    pub fn layer(&self) -> u8 {
        match self.number {
            0..=5 => 1,
            6..=7 => 2,
            8..=13 => 3,
            14..=17 => 4,
            18..=22 => 5,
            _ => 6,
        }
    }

    /// The place: 0 for 1, 22 and 23; the length of the input for 7; else that of the element.
    pub fn place(&self, input: &[u8], interchange: Option<&Interchange>) -> usize {
        match self.number {
            1 | 22 | 23 => 0,
            7 => input.len(),
            _ => interchange.map_or(0, |found| found.place(self.segment, self.element)),
        }
    }
}

/// The first of the faults of layers 1 to 4: by segment, layer, element, number.
pub fn first_of_layers_1_to_4(faults: &[Fault]) -> Option<Fault> {
    faults
        .iter()
        .copied()
        .min_by_key(|fault| (fault.segment, fault.layer(), fault.element, fault.number))
}

/// The first of the faults 18 to 21: by segment and element.
pub fn first_of_register(faults: &[Fault]) -> Option<Fault> {
    faults.iter().copied().min_by_key(|fault| (fault.segment, fault.element))
}

/// What an accepted interchange totals.
#[derive(Clone, Debug, Default, PartialEq, Eq)]
pub struct Totals {
    /// The number of segments.
    pub segments: usize,
    /// The number of sets.
    pub sets: usize,
    /// The number of PO1 segments.
    pub lines: usize,
    /// The sum of all PO102.
    pub sum: Natural,
}

/// The answer of a reading or a lodging.
#[derive(Clone, Debug, PartialEq, Eq)]
pub enum Verdict {
    /// Accepted, with the totals of the whole interchange.
    Accepted(Totals),
    /// Refused, with one fault and its place.
    Refused(Fault, usize),
}

/// The verdict line, without the byte 10 that ends it.
impl fmt::Display for Verdict {
    fn fmt(&self, f: &mut fmt::Formatter<'_>) -> fmt::Result {
        match self {
            Verdict::Accepted(totals) => write!(
                f,
                "ACCEPTED {} {} {} {}",
                totals.segments, totals.sets, totals.lines, totals.sum
            ),
            Verdict::Refused(fault, place) => write!(
                f,
                "REFUSED {} {} {} {} {}",
                fault.number,
                fault.layer(),
                fault.segment,
                fault.element,
                place
            ),
        }
    }
}
