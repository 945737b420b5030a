//! Segments, elements and their places (rule book, sections 4 and 5).

use crate::bytes::{class, delimiters, header_faults, is_line_end, Delimiters};
use crate::rank::Fault;

/// A run of bytes of the input: from `start` up to, not including, `end`.
#[derive(Clone, Copy, Debug, PartialEq, Eq)]
pub struct Span {
    /// Place of the first byte.
    pub start: usize,
    /// Place after the last byte.
    pub end: usize,
}

/// One segment.
#[derive(Clone, Debug, PartialEq, Eq)]
pub struct Segment {
    /// The segment's bytes, without the terminator. `span.end` is the place of the terminator.
    pub span: Span,
    /// False for a last segment that no terminator follows.
    pub terminated: bool,
    /// The elements, from element 0 on.
    pub elements: Vec<Span>,
}

/// An input without faults 1 to 3, taken apart into segments and elements.
#[derive(Clone, Debug)]
pub struct Interchange<'a> {
    /// The whole input.
    pub input: &'a [u8],
    /// Its delimiters.
    pub delimiters: Delimiters,
    /// Its segments. Segment number k is at index k − 1.
    pub segments: Vec<Segment>,
}

impl<'a> Interchange<'a> {
    /// Takes the input apart. None if it meets one of the faults 1 to 3.
    pub fn take_apart(input: &'a [u8]) -> Option<Self> {
        if !header_faults(input).is_empty() {
            return None;
        }
        let delimiters = delimiters(input)?;
        let segments = find_spans(input, delimiters.terminator)
            .into_iter()
            .map(|(span, terminated)| Segment {
                span,
                terminated,
                elements: part(input, span, delimiters.separator),
            })
            .collect();
        Some(Interchange { input, delimiters, segments })
    }

    /// The segment of this number, from 1.
    pub fn segment(&self, number: usize) -> Option<&Segment> {
        self.segments.get(number.checked_sub(1)?)
    }

    /// The bytes of an element. Empty if there is no such segment or element.
    pub fn element(&self, segment: usize, element: usize) -> &'a [u8] {
        self.segment(segment)
            .and_then(|found| found.elements.get(element))
            .map_or(&[], |span| &self.input[span.start..span.end])
    }

    /// True if the element stands in its segment and has one byte at least.
    pub fn is_filled(&self, segment: usize, element: usize) -> bool {
        !self.element(segment, element).is_empty()
    }

    /// The greatest element number of the segment.
    pub fn last_element(&self, segment: usize) -> usize {
        self.segment(segment).map_or(0, |found| found.elements.len().saturating_sub(1))
    }

    /// The place of an element: of its first byte, or of the terminator if the segment ends before.
    pub fn place(&self, segment: usize, element: usize) -> usize {
        match self.segment(segment) {
            None => self.input.len(),
            Some(found) => found.elements.get(element).map_or(found.span.end, |span| span.start),
        }
    }

    /// The answer of the call "element": place and bytes, or none if absent or empty.
    pub fn answer(&self, segment: usize, element: usize) -> Option<(usize, &'a [u8])> {
        let bytes = self.element(segment, element);
        (!bytes.is_empty()).then(|| (self.place(segment, element), bytes))
    }

    /// All faults 4 and 5 of the input.
    pub fn faults(&self) -> Vec<Fault> {
        let mut faults = self.faults_4();
        faults.extend(self.faults_5());
        faults
    }

    fn faults_4(&self) -> Vec<Fault> {
        let mut faults = Vec::new();
        for (index, segment) in self.segments.iter().enumerate() {
            for (element, span) in segment.elements.iter().enumerate() {
                let is_exception = index == 0 && element == 16;
                if !is_exception && self.has_foreign_byte(*span) {
                    faults.push(Fault { number: 4, segment: index + 1, element });
                }
            }
        }
        faults
    }

    fn has_foreign_byte(&self, span: Span) -> bool {
        self.input[span.start..span.end]
            .iter()
            .any(|&byte| class(byte) == 0 || byte == self.delimiters.component)
    }

    fn faults_5(&self) -> Vec<Fault> {
        (1..=self.segments.len())
            .filter(|&number| {
                let unterminated = self.segment(number).is_some_and(|found| !found.terminated);
                unterminated || !is_good_name(self.element(number, 0))
            })
            .map(|segment| Fault { number: 5, segment, element: 0 })
            .collect()
    }
}

/// A good name has two or three bytes, each of class 1 or 2.
pub fn is_good_name(name: &[u8]) -> bool {
    (2..=3).contains(&name.len()) && name.iter().all(|&byte| matches!(class(byte), 1 | 2))
}

/// The spans of all segments, each with whether a terminator follows it.
fn find_spans(input: &[u8], terminator: u8) -> Vec<(Span, bool)> {
    let mut spans = Vec::new();
    let mut start = 0;
    while start < input.len() {
        let length = input[start..].iter().position(|&byte| byte == terminator);
        let end = length.map_or(input.len(), |length| start + length);
        spans.push((Span { start, end }, length.is_some()));
        let skipped = input.iter().skip(end + 1).take_while(|&&byte| is_line_end(byte)).count();
        start = end + 1 + skipped;
    }
    spans
}

/// Parts a segment at its separators.
fn part(input: &[u8], span: Span, separator: u8) -> Vec<Span> {
    let separators = (span.start..span.end).filter(|&place| input[place] == separator);
    let mut elements = Vec::new();
    let mut start = span.start;
    for place in separators {
        elements.push(Span { start, end: place });
        start = place + 1;
    }
    elements.push(Span { start, end: span.end });
    elements
}
