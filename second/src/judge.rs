//! Reading (rule book, sections 1 and 13).

use crate::bytes::header_faults;
use crate::derive::{Mark, Placement, Tree};
use crate::elements;
use crate::rank::{first_of_layers_1_to_4, Fault, Verdict};
use crate::segments::Interchange;
use crate::tables::{tables, Tables};
use crate::totals::Placed;

/// An input with all that is found in it under a guide.
pub struct Study<'a> {
    /// The input.
    pub input: &'a [u8],
    /// The segments, if the input meets none of the faults 1 to 3.
    pub interchange: Option<Interchange<'a>>,
    /// How the segments are placed.
    pub placement: Placement,
    /// Every fault of layers 1 to 4, in no order.
    pub faults: Vec<Fault>,
}

impl<'a> Study<'a> {
    /// Studies an input: every fault of layers 1 to 4 is listed.
    pub fn new(tree: &Tree, input: &'a [u8]) -> Study<'a> {
        let mut faults = header_faults(input);
        let interchange = Interchange::take_apart(input);
        let mut placement = Placement::default();
        if let Some(found) = &interchange {
            placement = tree.place(marks(found));
            faults.extend(found.faults());
            faults.extend(structure_fault(found, &placement));
            faults.extend(elements::faults(tree.guide(), found, &placement));
            let placed = Placed { guide: tree.guide(), interchange: found, placement: &placement };
            faults.extend(placed.faults());
        }
        Study { input, interchange, placement, faults }
    }

    /// The first fault of layers 1 to 4. None if the interchange is regular.
    pub fn first_fault(&self) -> Option<Fault> {
        first_of_layers_1_to_4(&self.faults)
    }

    /// The refusal with this fault.
    pub fn refusal(&self, fault: Fault) -> Verdict {
        Verdict::Refused(fault, fault.place(self.input, self.interchange.as_ref()))
    }

    /// Fault 23 if the result tables have too few rows.
    pub fn fault_of_results(&self, segment_rows: u64, loop_rows: u64) -> Option<Fault> {
        let tables = self.tables();
        let too_few =
            tables.segments.len() as u64 > segment_rows || tables.loops.len() as u64 > loop_rows;
        too_few.then_some(Fault { number: 23, segment: 0, element: 0 })
    }

    /// The result tables.
    pub fn tables(&self) -> Tables {
        let found = self.interchange.as_ref();
        found.map(|found| tables(found, &self.placement)).unwrap_or_default()
    }

    /// The verdict that accepts.
    pub fn acceptance(&self, tree: &Tree) -> Verdict {
        let totals = self.placed(tree).map(|placed| placed.totals());
        Verdict::Accepted(totals.unwrap_or_default())
    }

    /// The segments with their placement, if the input meets none of the faults 1 to 3.
    pub fn placed<'s>(&'s self, tree: &'s Tree) -> Option<Placed<'s>> {
        let interchange = self.interchange.as_ref()?;
        Some(Placed { guide: tree.guide(), interchange, placement: &self.placement })
    }
}

/// The marks of all segments.
fn marks<'a>(interchange: &'a Interchange<'a>) -> impl Iterator<Item = Mark<'a>> {
    (1..=interchange.segments.len()).map(|segment| Mark {
        name: interchange.element(segment, 0),
        first: interchange.element(segment, 1),
    })
}

/// Fault 6 or 7.
fn structure_fault(interchange: &Interchange, placement: &Placement) -> Option<Fault> {
    if let Some(segment) = placement.untaken {
        return Some(Fault { number: 6, segment, element: 0 });
    }
    let after_last = interchange.segments.len() + 1;
    (!placement.complete).then_some(Fault { number: 7, segment: after_last, element: 0 })
}

/// Makes one reading with result tables of these sizes.
pub fn read(
    tree: &Tree,
    input: &[u8],
    segment_rows: u64,
    loop_rows: u64,
) -> (Verdict, Option<Tables>) {
    let study = Study::new(tree, input);
    match study.first_fault().or_else(|| study.fault_of_results(segment_rows, loop_rows)) {
        Some(fault) => (study.refusal(fault), None),
        None => (study.acceptance(tree), Some(study.tables())),
    }
}

/// The first fault of layer 1 alone, or the number of segments.
pub fn read_bytes(input: &[u8]) -> Result<usize, Verdict> {
    let interchange = Interchange::take_apart(input);
    let mut faults = header_faults(input);
    faults.extend(interchange.iter().flat_map(Interchange::faults));
    match first_of_layers_1_to_4(&faults) {
        Some(fault) => Err(Verdict::Refused(fault, fault.place(input, interchange.as_ref()))),
        None => Ok(interchange.map_or(0, |found| found.segments.len())),
    }
}

/// The first fault of layers 1 and 2 alone, or the number of segments.
pub fn read_structure(tree: &Tree, input: &[u8]) -> Result<usize, Verdict> {
    let study = Study::new(tree, input);
    let lower: Vec<Fault> = study.faults.iter().copied().filter(|fault| fault.number <= 7).collect();
    match first_of_layers_1_to_4(&lower) {
        Some(fault) => Err(study.refusal(fault)),
        None => Ok(study.interchange.map_or(0, |found| found.segments.len())),
    }
}
