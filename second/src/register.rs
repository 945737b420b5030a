//! The register as a plain ledger: lodging and finding (rule book, section 15).

use crate::derive::{Bracket, Tree};
use crate::guide::Kind;
use crate::judge::Study;
use crate::rank::{first_of_register, Fault, Verdict};
use crate::segments::Interchange;
use crate::tables::Tables;
use crate::totals::Placed;

/// What PO101, PO102, PO103, PO106 and PO107 of a line hold.
#[derive(Clone, Debug, PartialEq, Eq)]
pub struct Line {
    /// The five elements, in this order.
    pub parts: [Vec<u8>; 5],
}

/// The element numbers of the parts of a line.
const LINE_ELEMENTS: [usize; 5] = [1, 2, 3, 6, 7];

/// An original in the ledger.
#[derive(Clone, Debug, PartialEq, Eq)]
pub struct Original {
    /// The 15 bytes of ISA06.
    pub sender: Vec<u8>,
    /// BAK03.
    pub order: Vec<u8>,
    /// The lines, in the order of the PO1 segments.
    pub lines: Vec<Line>,
}

/// The plain account of what was accepted.
#[derive(Clone, Debug, Default)]
pub struct Ledger {
    /// All originals.
    pub originals: Vec<Original>,
    /// All control numbers: sender and ISA13.
    pub controls: Vec<(Vec<u8>, Vec<u8>)>,
}

/// The numbers of rows of the three tables.
#[derive(Clone, Copy, Debug, PartialEq, Eq)]
pub struct Sizes {
    /// Rows of the orders table.
    pub orders: u64,
    /// Rows of the lines table.
    pub lines: u64,
    /// Rows of the control numbers table.
    pub controls: u64,
}

/// A register: a ledger with the sizes of its tables.
#[derive(Clone, Debug)]
pub struct Register {
    /// The sizes of the tables.
    pub sizes: Sizes,
    /// What was accepted.
    pub ledger: Ledger,
}

/// A set of the interchange that is lodged.
struct Acknowledgment {
    /// The number of its BAK segment.
    bak: usize,
    kind: Kind,
    order: Vec<u8>,
    /// The lines, each with the number of its PO1 segment.
    lines: Vec<(usize, Line)>,
}

/// What the register rules ask of an interchange.
#[derive(Default)]
struct Lodged {
    sender: Vec<u8>,
    control: Vec<u8>,
    sets: Vec<Acknowledgment>,
}

impl Lodged {
    fn of(study: &Study, tree: &Tree) -> Lodged {
        let Some(placed) = study.placed(tree) else {
            return Lodged::default();
        };
        Lodged {
            sender: placed.interchange.element(1, 6).to_vec(),
            control: placed.interchange.element(1, 13).to_vec(),
            sets: placed.sets().filter_map(|set| acknowledgment(&placed, set)).collect(),
        }
    }

    /// The originals among the sets, in order.
    fn originals(&self) -> impl Iterator<Item = Original> + '_ {
        let originals = self.sets.iter().filter(|set| set.kind == Kind::Original);
        originals.map(|set| set.original(&self.sender))
    }
}

impl Acknowledgment {
    fn original(&self, sender: &[u8]) -> Original {
        Original {
            sender: sender.to_vec(),
            order: self.order.clone(),
            lines: self.lines.iter().map(|(_, line)| line.clone()).collect(),
        }
    }
}

impl Ledger {
    /// The original of an order.
    pub fn find(&self, sender: &[u8], order: &[u8]) -> Option<&Original> {
        find_original(&self.originals, sender, order)
    }

    /// The number of lines of all originals.
    pub fn line_count(&self) -> u64 {
        self.originals.iter().map(|original| original.lines.len() as u64).sum()
    }
}

fn find_original<'a>(
    originals: &'a [Original],
    sender: &[u8],
    order: &[u8],
) -> Option<&'a Original> {
    originals.iter().find(|original| original.sender == sender && original.order == order)
}

impl Register {
    /// Opens an empty register with tables of these sizes.
    pub fn open(sizes: Sizes) -> Register {
        Register { sizes, ledger: Ledger::default() }
    }

    /// The original of an order, or none.
    pub fn find(&self, sender: &[u8], order: &[u8]) -> Option<&Original> {
        self.ledger.find(sender, order)
    }

    /// Lodges an interchange. If it is refused, nothing changes.
    pub fn lodge(
        &mut self,
        tree: &Tree,
        input: &[u8],
        segment_rows: u64,
        loop_rows: u64,
    ) -> (Verdict, Option<Tables>) {
        let study = Study::new(tree, input);
        let lodged = Lodged::of(&study, tree);
        let fault = study
            .first_fault()
            .or_else(|| first_of_register(&self.faults(&lodged)))
            .or_else(|| self.fault_of_room(&lodged))
            .or_else(|| study.fault_of_results(segment_rows, loop_rows));
        if let Some(fault) = fault {
            return (study.refusal(fault), None);
        }
        self.ledger.originals.extend(lodged.originals());
        self.ledger.controls.push((lodged.sender, lodged.control));
        (study.acceptance(tree), Some(study.tables()))
    }

    /// All faults 18 to 21.
    fn faults(&self, lodged: &Lodged) -> Vec<Fault> {
        let mut faults = Vec::new();
        let mut known = self.ledger.controls.iter();
        if known.any(|(sender, number)| *sender == lodged.sender && *number == lodged.control) {
            faults.push(Fault { number: 18, segment: 1, element: 13 });
        }
        let mut earlier = self.ledger.originals.clone();
        for set in &lodged.sets {
            faults.extend(faults_of_set(&earlier, &lodged.sender, set));
            if set.kind == Kind::Original {
                earlier.push(set.original(&lodged.sender));
            }
        }
        faults
    }

    /// Fault 22 if the register has too few rows.
    fn fault_of_room(&self, lodged: &Lodged) -> Option<Fault> {
        let new: Vec<Original> = lodged.originals().collect();
        let new_lines: u64 = new.iter().map(|original| original.lines.len() as u64).sum();
        let ledger = &self.ledger;
        let too_few = (ledger.originals.len() + new.len()) as u64 > self.sizes.orders
            || ledger.line_count() + new_lines > self.sizes.lines
            || ledger.controls.len() as u64 + 1 > self.sizes.controls;
        too_few.then_some(Fault { number: 22, segment: 0, element: 0 })
    }
}

/// Faults 19, 20 and 21 of one set.
fn faults_of_set(earlier: &[Original], sender: &[u8], set: &Acknowledgment) -> Vec<Fault> {
    let original = find_original(earlier, sender, &set.order);
    let at_bak = |number| vec![Fault { number, segment: set.bak, element: 3 }];
    match (set.kind, original) {
        (Kind::Original, Some(_)) => at_bak(19),
        (Kind::FollowUp, None) => at_bak(20),
        (Kind::FollowUp, Some(original)) => {
            set.lines.iter().filter_map(|line| fault_21(original, line)).collect()
        }
        (Kind::Original, None) | (Kind::Wrong, _) => Vec::new(),
    }
}

/// Fault 21 of a line that the original does not have, or has otherwise.
fn fault_21(original: &Original, (segment, line): &(usize, Line)) -> Option<Fault> {
    let segment = *segment;
    match original.lines.iter().find(|known| known.parts[0] == line.parts[0]) {
        None => Some(Fault { number: 21, segment, element: 1 }),
        Some(known) => (1..LINE_ELEMENTS.len())
            .find(|&part| known.parts[part] != line.parts[part])
            .map(|part| Fault { number: 21, segment, element: LINE_ELEMENTS[part] }),
    }
}

/// What the register rules ask of a set.
fn acknowledgment(placed: &Placed, set: &Bracket) -> Option<Acknowledgment> {
    let bak = placed.named(b"BAK", set).next()?;
    let interchange = placed.interchange;
    Some(Acknowledgment {
        bak,
        kind: placed.guide.kind(interchange.element(bak, 1), interchange.element(bak, 2)),
        order: interchange.element(bak, 3).to_vec(),
        lines: placed.named(b"PO1", set).map(|po1| (po1, line(interchange, po1))).collect(),
    })
}

fn line(interchange: &Interchange, po1: usize) -> Line {
    Line { parts: LINE_ELEMENTS.map(|element| interchange.element(po1, element).to_vec()) }
}
