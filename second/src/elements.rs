//! Faults of elements, 8 to 13 (rule book, section 10).

use crate::derive::{is_set, Placement};
use crate::guide::{ElementRule, Guide, Kind, Label, Presence};
use crate::rank::Fault;
use crate::segments::Interchange;

/// All faults 8 to 13 of the placed segments.
pub fn faults(guide: &Guide, interchange: &Interchange, placement: &Placement) -> Vec<Fault> {
    let mut faults = Vec::new();
    for (index, &label) in placement.labels.iter().enumerate() {
        let segment = index + 1;
        faults.extend(faults_of_rules(guide.rules_of(label), interchange, segment));
        faults.extend(faults_of_unused(guide.rules_of(label), interchange, segment));
        faults.extend(faults_of_pairs(guide, label, interchange, segment));
        faults.extend(fault_of_kind(guide, label, interchange, segment));
        faults.extend(fault_of_need(guide, label, interchange, placement, segment));
    }
    faults
}

/// Faults 8, 10, 11 and 12 of the elements that have a rule.
fn faults_of_rules(rules: &[ElementRule], interchange: &Interchange, segment: usize) -> Vec<Fault> {
    let mut faults = Vec::new();
    for rule in rules {
        let bytes = interchange.element(segment, rule.element);
        let numbers = match (rule.presence, bytes.is_empty()) {
            (Presence::Free, _) | (Presence::May, true) => Vec::new(),
            (Presence::Must, true) => vec![8],
            (Presence::Must | Presence::May, false) => rule.form.faults(bytes),
        };
        let element = rule.element;
        faults.extend(numbers.into_iter().map(|number| Fault { number, segment, element }));
    }
    faults
}

/// Faults 9: filled elements without a rule.
fn faults_of_unused(
    rules: &[ElementRule],
    interchange: &Interchange,
    segment: usize,
) -> Vec<Fault> {
    (1..=interchange.last_element(segment))
        .filter(|&element| interchange.is_filled(segment, element))
        .filter(|&element| !rules.iter().any(|rule| rule.element == element))
        .map(|element| Fault { number: 9, segment, element })
        .collect()
}

/// Faults 13 of the pair rules.
fn faults_of_pairs(
    guide: &Guide,
    label: Label,
    interchange: &Interchange,
    segment: usize,
) -> Vec<Fault> {
    guide
        .pairs_of(label)
        .iter()
        .filter(|&&(a, b)| interchange.is_filled(segment, a) && !interchange.is_filled(segment, b))
        .map(|&(_, b)| Fault { number: 13, segment, element: b })
        .collect()
}

/// Fault 12 of a BAK whose BAK01 and BAK02 are a wrong pair.
fn fault_of_kind(
    guide: &Guide,
    label: Label,
    interchange: &Interchange,
    segment: usize,
) -> Option<Fault> {
    let (bak01, bak02) = (interchange.element(segment, 1), interchange.element(segment, 2));
    let is_wrong = guide.name_of(label) == b"BAK"
        && !bak01.is_empty()
        && !bak02.is_empty()
        && guide.kind(bak01, bak02) == Kind::Wrong;
    is_wrong.then_some(Fault { number: 12, segment, element: 2 })
}

/// Fault 13 of an SE whose set lacks the row that its BAK02 needs.
fn fault_of_need(
    guide: &Guide,
    label: Label,
    interchange: &Interchange,
    placement: &Placement,
    segment: usize,
) -> Option<Fault> {
    if guide.name_of(label) != b"SE" {
        return None;
    }
    let set = &placement.brackets[placement.bracket_of(segment, is_set)?];
    let mut members = placement.segments_of(set);
    let bak = members.clone().find(|&member| {
        placement.label(member).is_some_and(|label| guide.name_of(label) == b"BAK")
    })?;
    let needed = guide.needed_row(interchange.element(bak, 2))?;
    let is_there = members.any(|member| placement.label(member) == Some(Label::Row(needed)));
    (!is_there).then_some(Fault { number: 13, segment, element: 0 })
}
