//! Test of the search against the other wording of the rule book (section 7): "A judge can place
//! one segment after the other". Both must place every list of marks alike, under B, under M, and
//! under lawful guides drawn at random.

use crate::derive::{Mark, Placement, Tree};
use crate::generate::prng::Prng;
use crate::guide::{Envelope, Guide, Label, Row};
use crate::{guide_b, guide_m};

/// The set or an open loop: its rows, the current one, and how often that was used.
struct Level {
    rows: Vec<usize>,
    current: usize,
    uses: u64,
}

/// Where a judge stands that places one segment after the other.
enum Place {
    Start,
    AfterIsa,
    AfterGs,
    InSet(Vec<Level>),
    AfterSe,
    AfterGe,
    End,
}

struct OneByOne<'a> {
    guide: &'a Guide,
    place: Place,
    groups: usize,
    sets: usize,
}

impl<'a> OneByOne<'a> {
    fn new(guide: &'a Guide) -> Self {
        OneByOne { guide, place: Place::Start, groups: 0, sets: 0 }
    }

    /// The label of the next segment, or none: 6.
    fn take(&mut self, mark: &Mark) -> Option<Label> {
        if let Place::InSet(levels) = &mut self.place {
            let row = take_in_set(self.guide, levels, mark)?;
            if self.guide.row(row).is_some_and(|row| row.name == b"SE") {
                self.place = Place::AfterSe;
            }
            return Some(Label::Row(row));
        }
        match (&self.place, mark.name) {
            (Place::Start, b"ISA") => self.go(Place::AfterIsa, Envelope::Isa),
            (Place::AfterIsa | Place::AfterGe, b"GS") if self.groups < 99 => {
                (self.groups, self.sets) = (self.groups + 1, 0);
                self.go(Place::AfterGs, Envelope::Gs)
            }
            (Place::AfterGs | Place::AfterSe, b"ST") if self.sets < 256 => {
                self.sets += 1;
                let rows = rows_inside(self.guide, None);
                self.place = Place::InSet(vec![Level { rows, current: 0, uses: 1 }]);
                Some(Label::Row(1))
            }
            (Place::AfterSe, b"GE") => self.go(Place::AfterGe, Envelope::Ge),
            (Place::AfterGe, b"IEA") => self.go(Place::End, Envelope::Iea),
            _ => None,
        }
    }

    fn go(&mut self, place: Place, envelope: Envelope) -> Option<Label> {
        self.place = place;
        Some(Label::Envelope(envelope))
    }
}

/// The rows directly inside the loop of a row, or those of the set.
fn rows_inside(guide: &Guide, opening: Option<usize>) -> Vec<usize> {
    let (start, depth) = match opening {
        None => (0, 0),
        Some(number) => (number, guide.rows[number - 1].depth + 1),
    };
    let inside = guide.rows[start..].iter().take_while(|row| row.depth >= depth);
    inside.filter(|row| row.depth == depth).map(|row| row.number).collect()
}

/// The four steps of the rule book, from the innermost level on.
fn take_in_set(guide: &Guide, levels: &mut Vec<Level>, mark: &Mark) -> Option<usize> {
    loop {
        let level = levels.last_mut()?;
        let taken = take_at_level(guide, level, mark)?;
        let Some(number) = taken else {
            levels.pop();
            continue;
        };
        let rows = rows_inside(guide, Some(number));
        if !rows.is_empty() {
            levels.push(Level { rows, current: 0, uses: 0 });
        }
        return Some(number);
    }
}

/// Some row that takes the mark; or none, if the level ends; or nothing at all: 6.
fn take_at_level(guide: &Guide, level: &mut Level, mark: &Mark) -> Option<Option<usize>> {
    let row = |position: usize| -> &Row { &guide.rows[level.rows[position] - 1] };
    let current = row(level.current);
    if level.uses < current.greatest && current.matches(mark.name, mark.first) {
        level.uses += 1;
        return Some(Some(level.rows[level.current]));
    }
    if level.uses < current.least {
        return None;
    }
    for position in level.current + 1..level.rows.len() {
        if row(position).matches(mark.name, mark.first) {
            (level.current, level.uses) = (position, 1);
            return Some(Some(level.rows[position]));
        }
        if row(position).least > 0 {
            return None;
        }
    }
    Some(None)
}

/// A name and a first element.
type OwnMark = (Vec<u8>, Vec<u8>);

/// A mark that some row or the envelope can match, or at times none.
fn some_mark(guide: &Guide, prng: &mut Prng) -> OwnMark {
    let envelope = ["ISA", "GS", "GE", "IEA", "GE", "GS", "XX"];
    if prng.chance(200) {
        let name = envelope[prng.below(envelope.len())];
        return (name.as_bytes().to_vec(), b"X".to_vec());
    }
    let row = &guide.rows[prng.below(guide.rows.len())];
    let code = if row.placing.is_empty() || prng.chance(50) {
        b"X".to_vec()
    } else {
        row.placing[prng.below(row.placing.len())].clone()
    };
    (row.name.clone(), code)
}

/// A list of marks that mostly goes on for long, placed one by one: the marks, the labels of those
/// that are taken, and whether IEA was the last of them.
fn some_marks(guide: &Guide, prng: &mut Prng) -> (Vec<OwnMark>, Vec<Label>, bool) {
    let (mut marks, mut labels) = (Vec::new(), Vec::new());
    let mut judge = OneByOne::new(guide);
    let length = prng.between(1, 60);
    while marks.len() < length {
        let blind = prng.chance(10);
        let tries = if blind { 1 } else { 60 };
        let mut taken = None;
        let mut mark = (Vec::new(), Vec::new());
        for _ in 0..tries {
            mark = some_mark(guide, prng);
            taken = judge.take(&Mark { name: &mark.0, first: &mark.1 });
            if taken.is_some() {
                break;
            }
            judge = replay(guide, &marks);
        }
        marks.push(mark);
        match taken {
            Some(label) => labels.push(label),
            None => break,
        }
    }
    (marks, labels, matches!(judge.place, Place::End))
}

/// A judge that has placed these marks. A mark that no row takes may have ended loops before.
fn replay<'a>(guide: &'a Guide, marks: &[OwnMark]) -> OneByOne<'a> {
    let mut judge = OneByOne::new(guide);
    for (name, first) in marks {
        judge.take(&Mark { name, first });
    }
    judge
}

/// Places some lists of marks in both ways.
fn compare(guide: &Guide, lists: usize, prng: &mut Prng) {
    let tree = Tree::new(guide.clone());
    for _ in 0..lists {
        let (marks, labels, ended) = some_marks(guide, prng);
        let placement: Placement =
            tree.place(marks.iter().map(|(name, first)| Mark { name, first }));
        assert_eq!(placement.labels, labels, "{:?}", guide.rows);
        let untaken = (labels.len() < marks.len()).then_some(labels.len() + 1);
        assert_eq!(placement.untaken, untaken);
        assert_eq!(placement.complete, ended && untaken.is_none());
    }
}

/// The guide with small uses, so that their limits are met often.
fn with_small_uses(mut guide: Guide, prng: &mut Prng) -> Guide {
    for row in guide.rows.iter_mut().filter(|row| row.greatest > 1) {
        row.least = prng.between(0, 2) as u64;
        row.greatest = row.least.max(1) + prng.below(3) as u64;
    }
    guide
}

/// A guide with a random tree of rows between BAK and SE. It need not be lawful.
fn some_guide(prng: &mut Prng) -> Guide {
    let mut guide = Guide::from_table("", "00401", "004010");
    let mut rows = vec![plain_row(b"ST", 0), plain_row(b"BAK", 0)];
    let mut depth = 0;
    for _ in 0..prng.between(1, 8) {
        let mut row = plain_row(prng.pick(&[b"AA", b"BB", b"CC"]), depth);
        row.least = prng.pick_of(&[0, 0, 1, 1, 2]);
        row.greatest = row.least.max(1) + prng.below(3) as u64;
        if prng.chance(600) {
            row.placing = vec![vec![prng.pick_of(b"UVW")]];
        }
        rows.push(row);
        depth = prng.between(0, (depth + 1).min(4));
    }
    rows.push(plain_row(b"SE", 0));
    rows[2].depth = 0;
    for index in 0..rows.len() {
        rows[index].number = index + 1;
        let limit = index.checked_sub(1).map_or(0, |before| rows[before].depth + 1);
        rows[index].depth = if index < 3 { 0 } else { rows[index].depth.min(limit) };
    }
    guide.rows = rows;
    guide
}

fn plain_row(name: &[u8], depth: usize) -> Row {
    Row {
        number: 0,
        name: name.to_vec(),
        placing: Vec::new(),
        least: 1,
        greatest: 1,
        depth,
        opens: false,
        rules: Vec::new(),
        pairs: Vec::new(),
    }
}

/// Item 3 of the guide law.
fn has_no_two_ways(guide: &Guide) -> bool {
    let pairs: Vec<_> = Tree::new(guide.clone()).successors().into_iter().collect();
    let both = |one: &Row, other: &Row| {
        one.name == other.name
            && (one.placing.is_empty()
                || other.placing.is_empty()
                || one.placing.iter().any(|code| other.placing.contains(code)))
    };
    pairs.iter().all(|(before, one)| {
        pairs.iter().filter(|(also, other)| also == before && other != one).all(
            |(_, other)| match (one, other) {
                (Label::Row(one), Label::Row(other)) => {
                    !both(&guide.rows[one - 1], &guide.rows[other - 1])
                }
                _ => true,
            },
        )
    })
}

#[test]
fn b_and_m_place_alike_in_both_ways() {
    let mut prng = Prng::new(7);
    for guide in [guide_b::guide(), guide_m::guide()] {
        compare(&guide, 500, &mut prng);
        for _ in 0..100 {
            compare(&with_small_uses(guide.clone(), &mut prng), 20, &mut prng);
        }
    }
}

#[test]
fn lawful_guides_place_alike_in_both_ways() {
    let mut prng = Prng::new(11);
    let mut lawful = 0;
    for _ in 0..3000 {
        let guide = some_guide(&mut prng);
        if has_no_two_ways(&guide) {
            lawful += 1;
            compare(&guide, 20, &mut prng);
        }
    }
    assert!(lawful > 100, "only {lawful} lawful guides");
}
