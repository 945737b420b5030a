//! Derivations (rule book, section 7), by search.
//!
//! The envelope and the guide are one tree. What may still come after some segments is a list of
//! **pending** items: "this node, from `least` to `greatest` times more", "this segment, once", or
//! "the end of a bracket". A bracket is a group, a set or a loop. To take one more segment is to
//! try every way through the pending items; each way leaves new pending items. Nothing prefers one
//! way to another: all ways are kept, as long as what is pending can still be finished. So what is
//! kept after k segments is the set of all beginnings of derivations of the first k marks.
//!
//! Two things that the rule book says of lawful guides are asserted and not used: that there is at
//! most one derivation, and that row and brackets of a segment follow from the marks up to its own.

use crate::guide::{Envelope, Guide, Label};

/// What encloses segments.
#[derive(Clone, Copy, Debug, PartialEq, Eq, Hash)]
pub enum BracketKind {
    /// A group, from GS to GE.
    Group,
    /// A set, from ST to SE.
    Set,
    /// A loop that the row of this number opens.
    Loop(usize),
}

/// A group, a set or a loop of an interchange.
#[derive(Clone, Copy, Debug, PartialEq, Eq)]
pub struct Bracket {
    /// What it is.
    pub kind: BracketKind,
    /// The number of its first segment.
    pub opening: usize,
    /// The number of its last segment. None if it does not end before the last placed segment.
    pub last: Option<usize>,
    /// The index of the bracket that it stands in directly.
    pub outer: Option<usize>,
}

/// The mark of a segment: its name and its first element.
#[derive(Clone, Copy, Debug)]
pub struct Mark<'a> {
    /// Element 0.
    pub name: &'a [u8],
    /// Element 1; empty if absent.
    pub first: &'a [u8],
}

/// How the segments of an interchange are placed.
#[derive(Clone, Debug, Default)]
pub struct Placement {
    /// The label of each placed segment. Segment number k is at index k − 1.
    pub labels: Vec<Label>,
    /// The index of the innermost bracket of each placed segment.
    pub innermost: Vec<Option<usize>>,
    /// All brackets, in the order of their first segments.
    pub brackets: Vec<Bracket>,
    /// The number of the first segment that no row takes, if there is one: fault 6.
    pub untaken: Option<usize>,
    /// True if the marks have a derivation.
    pub complete: bool,
}

impl Placement {
    /// The label of a segment, by its number. None if it is not placed.
    pub fn label(&self, segment: usize) -> Option<Label> {
        self.labels.get(segment.checked_sub(1)?).copied()
    }

    /// The index of the bracket with this kind in which a segment stands.
    pub fn bracket_of(
        &self,
        segment: usize,
        is_sought: impl Fn(BracketKind) -> bool,
    ) -> Option<usize> {
        let mut at = *self.innermost.get(segment.checked_sub(1)?)?;
        while let Some(index) = at {
            if is_sought(self.brackets[index].kind) {
                return Some(index);
            }
            at = self.brackets[index].outer;
        }
        None
    }

    /// The numbers of the placed segments that a bracket encloses.
    pub fn segments_of(&self, bracket: &Bracket) -> std::ops::RangeInclusive<usize> {
        bracket.opening..=bracket.last.unwrap_or(self.labels.len())
    }

    /// All brackets of one kind.
    pub fn brackets_of(
        &self,
        is_sought: impl Fn(BracketKind) -> bool + Copy,
    ) -> impl Iterator<Item = &Bracket> {
        self.brackets.iter().filter(move |bracket| is_sought(bracket.kind))
    }
}

/// True for a loop.
pub fn is_loop(kind: BracketKind) -> bool {
    matches!(kind, BracketKind::Loop(_))
}

/// True for a set.
pub fn is_set(kind: BracketKind) -> bool {
    kind == BracketKind::Set
}

/// True for a group.
pub fn is_group(kind: BracketKind) -> bool {
    kind == BracketKind::Group
}

/// A node of the tree of envelope and guide. One use of it is its own segment, if it takes one, and
/// then its inner nodes in order, each between its least and its greatest use.
#[derive(Clone, Debug)]
struct Node {
    least: u64,
    greatest: u64,
    takes: Option<Label>,
    bracket: Option<BracketKind>,
    inner: Vec<usize>,
    /// One use of it can be finished by some segments.
    finishable: bool,
}

/// Something that is still to come.
#[derive(Clone, Copy, Debug, PartialEq, Eq, Hash)]
enum Item {
    /// This segment.
    Take(Label),
    /// From `least` to `greatest` uses of the node.
    Times { node: usize, least: u64, greatest: u64 },
    /// The end of the innermost bracket.
    End,
}

/// All that is still to come. The next item is the last of the list.
type Pending = Vec<Item>;

/// What happens to brackets before a segment is taken.
#[derive(Clone, Copy, Debug, PartialEq, Eq)]
enum Deed {
    Open(BracketKind),
    Close,
}

/// One way to take a segment.
struct Way {
    label: Label,
    deeds: Vec<Deed>,
    pending: Pending,
}

/// One or more beginnings of derivations that leave the same items pending.
struct Beginning {
    pending: Pending,
    /// In how many ways it is reached.
    ways: u64,
}

/// The tree of envelope and guide, in which derivations are sought.
#[derive(Clone, Debug)]
pub struct Tree {
    guide: Guide,
    nodes: Vec<Node>,
    root: Vec<usize>,
}

impl Tree {
    /// The tree of a guide.
    pub fn new(guide: Guide) -> Tree {
        let mut tree = Tree { guide, nodes: Vec::new(), root: Vec::new() };
        let isa = tree.add(1, 1, Some(Label::Envelope(Envelope::Isa)), None, Vec::new());
        let rows = tree.add_rows(0, tree.guide.rows.len(), 0);
        let set = tree.add(1, 256, None, Some(BracketKind::Set), rows);
        let ge = tree.add(1, 1, Some(Label::Envelope(Envelope::Ge)), None, Vec::new());
        let gs = Some(Label::Envelope(Envelope::Gs));
        let group = tree.add(1, 99, gs, Some(BracketKind::Group), vec![set, ge]);
        let iea = tree.add(1, 1, Some(Label::Envelope(Envelope::Iea)), None, Vec::new());
        tree.root = vec![isa, group, iea];
        tree
    }

    /// The guide of the tree.
    pub fn guide(&self) -> &Guide {
        &self.guide
    }

    /// Adds the rows with the indices from `start` up to `end` that stand at this depth, with the
    /// rows inside them. Answers their nodes.
    fn add_rows(&mut self, start: usize, end: usize, depth: usize) -> Vec<usize> {
        let mut nodes = Vec::new();
        let mut index = start;
        while index < end {
            let after = (index + 1..end)
                .find(|&later| self.guide.rows[later].depth <= depth)
                .unwrap_or(end);
            let inner = self.add_rows(index + 1, after, depth + 1);
            let row = &self.guide.rows[index];
            let bracket = (!inner.is_empty()).then_some(BracketKind::Loop(row.number));
            let (least, greatest, label) = (row.least, row.greatest, Label::Row(row.number));
            nodes.push(self.add(least, greatest, Some(label), bracket, inner));
            index = after;
        }
        nodes
    }

    fn add(
        &mut self,
        least: u64,
        greatest: u64,
        takes: Option<Label>,
        bracket: Option<BracketKind>,
        inner: Vec<usize>,
    ) -> usize {
        let finishable = inner.iter().all(|&node| {
            let Node { least, greatest, .. } = self.nodes[node];
            self.can_finish(&Item::Times { node, least, greatest })
        });
        self.nodes.push(Node { least, greatest, takes, bracket, inner, finishable });
        self.nodes.len() - 1
    }

    /// True if some segments finish the item. Each row matches some mark, so a segment always can.
    fn can_finish(&self, item: &Item) -> bool {
        match *item {
            Item::Take(_) | Item::End => true,
            Item::Times { node, least, greatest } => {
                least <= greatest && (least == 0 || self.nodes[node].finishable)
            }
        }
    }

    /// True if no segment is needed to finish the item.
    fn is_finished(item: &Item) -> bool {
        match *item {
            Item::Take(_) => false,
            Item::Times { least, .. } => least == 0,
            Item::End => true,
        }
    }

    /// All of the nodes, in order, as pending items.
    fn push_nodes(&self, nodes: &[usize], pending: &mut Pending) {
        pending.extend(nodes.iter().rev().map(|&node| {
            let Node { least, greatest, .. } = self.nodes[node];
            Item::Times { node, least, greatest }
        }));
    }

    /// What is pending before the first segment.
    fn start(&self) -> Pending {
        let mut pending = Pending::new();
        self.push_nodes(&self.root, &mut pending);
        pending
    }

    /// What is pending after one use of a node has begun: its segment, its inner nodes, its end, and
    /// the further uses.
    fn begin(&self, rest: &[Item], node: usize, least: u64, greatest: u64) -> Pending {
        let found = &self.nodes[node];
        let mut pending = Pending::with_capacity(rest.len() + found.inner.len() + 3);
        pending.extend_from_slice(rest);
        pending.push(Item::Times { node, least: least.saturating_sub(1), greatest: greatest - 1 });
        pending.extend(found.bracket.map(|_| Item::End));
        self.push_nodes(&found.inner, &mut pending);
        pending.extend(found.takes.map(Item::Take));
        pending
    }

    /// Finds all ways to take a segment for which `fits` holds. A way is kept only if what it leaves
    /// pending can be finished.
    fn find_ways(
        &self,
        pending: &[Item],
        fits: &dyn Fn(Label) -> bool,
        deeds: &mut Vec<Deed>,
        found: &mut Vec<Way>,
    ) {
        let Some((next, rest)) = pending.split_last() else {
            return;
        };
        match *next {
            Item::Take(label) => {
                if fits(label) && rest.iter().all(|item| self.can_finish(item)) {
                    found.push(Way { label, deeds: deeds.clone(), pending: rest.to_vec() });
                }
            }
            Item::End => {
                deeds.push(Deed::Close);
                self.find_ways(rest, fits, deeds, found);
                deeds.pop();
            }
            Item::Times { node, least, greatest } => {
                let possible = self.nodes[node].takes.is_none_or(fits);
                if greatest > 0 && possible {
                    let begun = self.begin(rest, node, least, greatest);
                    let opened = self.nodes[node].bracket.map(Deed::Open);
                    deeds.extend(opened);
                    self.find_ways(&begun, fits, deeds, found);
                    deeds.truncate(deeds.len() - usize::from(opened.is_some()));
                }
                if least == 0 {
                    self.find_ways(rest, fits, deeds, found);
                }
            }
        }
    }

    /// Places the segments with these marks, as far as the marks begin a derivation.
    pub fn place<'a>(&self, marks: impl Iterator<Item = Mark<'a>>) -> Placement {
        let mut placement = Placement::default();
        let mut beginnings = vec![Beginning { pending: self.start(), ways: 1 }];
        for (index, mark) in marks.enumerate() {
            let Some((label, deeds, next)) = self.advance(&beginnings, &mark) else {
                placement.untaken = Some(index + 1);
                return placement;
            };
            enter(&mut placement, label, &deeds);
            beginnings = next;
        }
        let derivations: u64 = beginnings
            .iter()
            .filter(|beginning| beginning.pending.iter().all(Tree::is_finished))
            .map(|beginning| beginning.ways)
            .sum();
        assert!(derivations <= 1, "two derivations of the same marks");
        placement.complete = derivations == 1;
        placement
    }

    /// All beginnings of derivations with one mark more, and the label and the deeds of its segment,
    /// in which they all agree. None if there is no such beginning.
    fn advance(
        &self,
        beginnings: &[Beginning],
        mark: &Mark,
    ) -> Option<(Label, Vec<Deed>, Vec<Beginning>)> {
        let fits = |label| self.guide.matches(label, mark.name, mark.first);
        let mut placed: Option<(Label, Vec<Deed>)> = None;
        let mut next: Vec<Beginning> = Vec::new();
        for beginning in beginnings {
            let mut found = Vec::new();
            self.find_ways(&beginning.pending, &fits, &mut Vec::new(), &mut found);
            for way in found {
                let (label, deeds) = placed.get_or_insert_with(|| (way.label, way.deeds.clone()));
                assert!(*label == way.label, "two rows for the same segment");
                assert!(*deeds == way.deeds, "two loops for the same segment");
                match next.iter_mut().find(|known| known.pending == way.pending) {
                    Some(known) => known.ways = known.ways.saturating_add(beginning.ways),
                    None => next.push(Beginning { pending: way.pending, ways: beginning.ways }),
                }
            }
        }
        placed.map(|(label, deeds)| (label, deeds, next))
    }

    /// All pairs of labels of which the second may directly follow the first. To keep the search
    /// finite, each greatest use is cut to two or to the least use. For tests.
    #[cfg(test)]
    pub(crate) fn successors(&self) -> std::collections::HashSet<(Label, Label)> {
        let mut small = self.clone();
        for node in &mut small.nodes {
            node.greatest = node.greatest.min(node.least.max(2));
        }
        let mut pairs = std::collections::HashSet::new();
        let mut seen = std::collections::HashSet::new();
        let mut open: Vec<(Option<Label>, Pending)> = vec![(None, small.start())];
        while let Some((before, pending)) = open.pop() {
            let mut found = Vec::new();
            small.find_ways(&pending, &|_| true, &mut Vec::new(), &mut found);
            for way in found {
                pairs.extend(before.map(|before| (before, way.label)));
                if seen.insert((way.label, way.pending.clone())) {
                    open.push((Some(way.label), way.pending));
                }
            }
        }
        pairs
    }
}

/// Enters one more segment in the placement.
fn enter(placement: &mut Placement, label: Label, deeds: &[Deed]) {
    let last = placement.labels.len();
    let mut innermost = placement.innermost.last().copied().flatten();
    for deed in deeds {
        match deed {
            Deed::Open(kind) => {
                let opening = last + 1;
                let outer = innermost;
                placement.brackets.push(Bracket { kind: *kind, opening, last: None, outer });
                innermost = Some(placement.brackets.len() - 1);
            }
            Deed::Close => {
                if let Some(index) = innermost {
                    placement.brackets[index].last = Some(last);
                    innermost = placement.brackets[index].outer;
                }
            }
        }
    }
    placement.labels.push(label);
    placement.innermost.push(innermost);
}

#[cfg(test)]
mod tests {
    use super::*;
    use crate::{guide_b, guide_m};
    use std::collections::HashSet;

    /// The pairs of the tables "After / May come" of section 9, by row numbers; 0 is GE.
    fn printed(table: &[(usize, &[usize])]) -> HashSet<(Label, Label)> {
        let label = |row| match row {
            0 => Label::Envelope(Envelope::Ge),
            _ => Label::Row(row),
        };
        table
            .iter()
            .flat_map(|&(before, after)| {
                after.iter().map(move |&after| (label(before), label(after)))
            })
            .collect()
    }

    fn inside_sets(guide: Guide) -> HashSet<(Label, Label)> {
        let pairs = Tree::new(guide).successors();
        pairs.into_iter().filter(|(before, _)| matches!(before, Label::Row(_))).collect()
    }

    #[test]
    fn segments_follow_each_other_under_b_as_the_book_says() {
        let table: [(usize, &[usize]); 13] = [
            (1, &[2]),
            (2, &[3]),
            (3, &[4]),
            (4, &[5]),
            (5, &[6]),
            (6, &[7]),
            (7, &[8, 9, 10]),
            (8, &[9, 10]),
            (9, &[10]),
            (10, &[11, 10, 7, 12]),
            (11, &[11, 10, 7, 12]),
            (12, &[13]),
            (13, &[1, 0]),
        ];
        assert_eq!(inside_sets(guide_b::guide()), printed(&table));
    }

    #[test]
    fn segments_follow_each_other_under_m_as_the_book_says() {
        let table: [(usize, &[usize]); 12] = [
            (1, &[2]),
            (2, &[3, 4]),
            (3, &[4]),
            (4, &[5, 7]),
            (5, &[6]),
            (6, &[6, 5, 7]),
            (7, &[7, 8]),
            (8, &[9]),
            (9, &[9, 10]),
            (10, &[10, 8, 11, 12]),
            (11, &[12]),
            (12, &[1, 0]),
        ];
        assert_eq!(inside_sets(guide_m::guide()), printed(&table));
    }

    /// Item 3 of the guide law: no mark is matched by two rows that may follow the same row.
    #[test]
    fn both_guides_have_no_two_ways() {
        for guide in [guide_b::guide(), guide_m::guide()] {
            let pairs: Vec<_> = inside_sets(guide.clone()).into_iter().collect();
            for (before, one) in &pairs {
                for (also, other) in &pairs {
                    if before == also && one != other {
                        assert_ne!(guide.name_of(*one), guide.name_of(*other));
                    }
                }
            }
        }
    }
}
