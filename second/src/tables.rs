//! Result tables (rule book, section 14).

use crate::derive::{is_loop, BracketKind, Placement};
use crate::guide::Label;
use crate::segments::Interchange;

/// One row of the segment table.
#[derive(Clone, Copy, Debug, PartialEq, Eq)]
pub struct SegmentRow {
    /// The place of the segment's first byte.
    pub place: usize,
    /// The number of its bytes without the terminator.
    pub length: usize,
    /// The number of its row; 0 for the envelope.
    pub row: usize,
    /// The number of its innermost loop; 0 if it stands in none.
    pub in_loop: usize,
}

/// One row of the loop table.
#[derive(Clone, Copy, Debug, PartialEq, Eq)]
pub struct LoopRow {
    /// The number of the segment that opens it.
    pub opening: usize,
    /// The number of its last segment.
    pub last: usize,
    /// The number of the loop that it stands in directly; 0 if none.
    pub outer: usize,
    /// The number of the row that opens it.
    pub row: usize,
}

/// Both tables.
#[derive(Clone, Debug, Default, PartialEq, Eq)]
pub struct Tables {
    /// A row for each segment.
    pub segments: Vec<SegmentRow>,
    /// A row for each loop.
    pub loops: Vec<LoopRow>,
}

/// The tables of an interchange that has a derivation.
pub fn tables(interchange: &Interchange, placement: &Placement) -> Tables {
    let numbers = loop_numbers(placement);
    let number_of = |bracket: Option<usize>| bracket.map_or(0, |index| numbers[index]);
    let segments = interchange
        .segments
        .iter()
        .zip(&placement.labels)
        .zip(&placement.innermost)
        .map(|((segment, label), innermost)| SegmentRow {
            place: segment.span.start,
            length: segment.span.end - segment.span.start,
            row: row_number(*label),
            in_loop: number_of(*innermost),
        })
        .collect();
    let loops = placement
        .brackets
        .iter()
        .filter_map(|bracket| match bracket.kind {
            BracketKind::Loop(row) => Some(LoopRow {
                opening: bracket.opening,
                last: *placement.segments_of(bracket).end(),
                outer: number_of(bracket.outer),
                row,
            }),
            _ => None,
        })
        .collect();
    Tables { segments, loops }
}

/// The loop number of each bracket, counted from 1; 0 for groups and sets.
fn loop_numbers(placement: &Placement) -> Vec<usize> {
    let mut count = 0;
    placement
        .brackets
        .iter()
        .map(|bracket| {
            count += usize::from(is_loop(bracket.kind));
            if is_loop(bracket.kind) {
                count
            } else {
                0
            }
        })
        .collect()
}

fn row_number(label: Label) -> usize {
    match label {
        Label::Envelope(_) => 0,
        Label::Row(number) => number,
    }
}
