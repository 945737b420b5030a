//! Faults of totals, 14 to 17 (rule book, section 11), and the totals of the verdict.

use crate::derive::{is_group, is_set, Bracket, BracketKind, Placement};
use crate::guide::{Envelope, Guide, Label};
use crate::natural::Natural;
use crate::rank::{Fault, Totals};
use crate::segments::Interchange;
use std::collections::HashSet;

/// An interchange with its placement under a guide.
#[derive(Clone, Copy)]
pub struct Placed<'a> {
    /// The guide.
    pub guide: &'a Guide,
    /// The segments.
    pub interchange: &'a Interchange<'a>,
    /// Their rows, sets, groups and loops.
    pub placement: &'a Placement,
}

impl<'a> Placed<'a> {
    /// The numbers of the segments with this name that a bracket encloses.
    pub fn named(&self, name: &'a [u8], within: &Bracket) -> impl Iterator<Item = usize> + 'a {
        let Placed { guide, placement, .. } = *self;
        placement.segments_of(within).filter(move |&segment| {
            placement.label(segment).is_some_and(|label| guide.name_of(label) == name)
        })
    }

    /// The numbers of all segments of the envelope of this kind.
    fn enveloping(&self, envelope: Envelope) -> impl Iterator<Item = usize> + 'a {
        let labels = &self.placement.labels;
        (1..=labels.len()).filter(move |&segment| labels[segment - 1] == Label::Envelope(envelope))
    }

    /// All sets.
    pub fn sets(&self) -> impl Iterator<Item = &'a Bracket> {
        self.placement.brackets_of(is_set)
    }

    /// All groups.
    fn groups(&self) -> impl Iterator<Item = &'a Bracket> {
        self.placement.brackets_of(is_group)
    }

    /// The sets of a group.
    fn sets_of(&self, group: &Bracket) -> impl Iterator<Item = &'a Bracket> {
        let members = self.placement.segments_of(group);
        self.sets().filter(move |set| members.contains(&set.opening))
    }

    /// The sum of an element of some segments. None if one of them is no number.
    fn sum(&self, segments: impl Iterator<Item = usize>, element: usize) -> Option<Natural> {
        Natural::sum(
            segments.map(|segment| Natural::read(self.interchange.element(segment, element))),
        )
    }

    /// All faults 14 to 17 of the placed segments.
    pub fn faults(&self) -> Vec<Fault> {
        let mut faults = self.faults_14();
        faults.extend(self.faults_15());
        faults.extend(self.faults_16());
        faults.extend(self.faults_17());
        faults
    }

    /// Control numbers: SE02 and ST02, GE02 and GS06, IEA02 and ISA13.
    fn faults_14(&self) -> Vec<Fault> {
        let mut pairs = Vec::new();
        for set in self.sets() {
            pairs.extend(self.named(b"SE", set).map(|trailer| (set.opening, 2, trailer)));
        }
        for group in self.groups() {
            pairs.extend(self.named(b"GE", group).map(|trailer| (group.opening, 6, trailer)));
        }
        pairs.extend(self.enveloping(Envelope::Iea).map(|trailer| (1, 13, trailer)));
        pairs
            .into_iter()
            .filter(|&(header, element, trailer)| {
                self.interchange.element(header, element) != self.interchange.element(trailer, 2)
            })
            .map(|(_, _, segment)| Fault { number: 14, segment, element: 2 })
            .collect()
    }

    /// Counts and sums: CTT01, CTT02, SE01, GE01, IEA01.
    fn faults_15(&self) -> Vec<Fault> {
        let mut faults = Vec::new();
        for set in self.sets() {
            for ctt in self.named(b"CTT", set) {
                let lines = Natural::count(self.named(b"PO1", set).count());
                let sum = self.sum(self.named(b"PO1", set), 2);
                faults.extend(self.fault_15(ctt, 1, Some(lines)));
                faults.extend(self.fault_15(ctt, 2, sum));
            }
            for se in self.named(b"SE", set) {
                faults.extend(self.fault_15(se, 1, Some(Natural::count(se - set.opening + 1))));
            }
        }
        for group in self.groups() {
            for ge in self.named(b"GE", group) {
                let sets = Natural::count(self.sets_of(group).count());
                faults.extend(self.fault_15(ge, 1, Some(sets)));
            }
        }
        for iea in self.enveloping(Envelope::Iea) {
            faults.extend(self.fault_15(iea, 1, Some(Natural::count(self.groups().count()))));
        }
        faults
    }

    /// Fault 15 if the element's value is not the one that was counted. An element or a sum that is
    /// no number has met a fault of layer 3 before, and is not compared.
    fn fault_15(&self, segment: usize, element: usize, counted: Option<Natural>) -> Option<Fault> {
        let stated = Natural::read(self.interchange.element(segment, element))?;
        (stated != counted?).then_some(Fault { number: 15, segment, element })
    }

    /// ACK sums: the fault stands at the segment after the PO1 loop.
    fn faults_16(&self) -> Vec<Fault> {
        if !self.guide.holds_sums {
            return Vec::new();
        }
        let is_line = |kind| match kind {
            BracketKind::Loop(row) => self.guide.name_of(Label::Row(row)) == b"PO1",
            _ => false,
        };
        self.placement.brackets_of(is_line).filter_map(|line| self.fault_16(line)).collect()
    }

    fn fault_16(&self, line: &Bracket) -> Option<Fault> {
        let segment = line.last? + 1;
        let ordered = Natural::read(self.interchange.element(line.opening, 2))?;
        let acknowledged = self.sum(self.named(b"ACK", line), 2)?;
        (ordered != acknowledged).then_some(Fault { number: 16, segment, element: 0 })
    }

    /// Repeated values: ST02 in a group, PO101 in a set.
    fn faults_17(&self) -> Vec<Fault> {
        let mut faults = Vec::new();
        for group in self.groups() {
            faults.extend(self.repeated(self.named(b"ST", group), 2));
        }
        for set in self.sets() {
            faults.extend(self.repeated(self.named(b"PO1", set), 1));
        }
        faults
    }

    /// Fault 17 at each of the segments whose element is that of a segment before it.
    fn repeated(&self, segments: impl Iterator<Item = usize>, element: usize) -> Vec<Fault> {
        let mut before = HashSet::new();
        segments
            .filter(|&segment| !before.insert(self.interchange.element(segment, element)))
            .map(|segment| Fault { number: 17, segment, element })
            .collect()
    }

    /// The totals of the whole interchange.
    pub fn totals(&self) -> Totals {
        let lines: Vec<usize> = self.sets().flat_map(|set| self.named(b"PO1", set)).collect();
        Totals {
            segments: self.interchange.segments.len(),
            sets: self.sets().count(),
            lines: lines.len(),
            sum: self.sum(lines.into_iter(), 2).unwrap_or_default(),
        }
    }
}
