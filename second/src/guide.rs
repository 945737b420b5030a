//! What a guide is (rule book, section 7), the envelope (section 8), and the reading of the tables
//! of section 9, which are kept as the text that the rule book prints.

use crate::types::{ElementType, Form};

/// Whether an element has to be filled.
#[derive(Clone, Copy, Debug, PartialEq, Eq)]
pub enum Presence {
    /// It has to be filled.
    Must,
    /// It may be filled.
    May,
    /// Nothing is judged of it: ISA16.
    Free,
}

/// The rule of one element. An element without a rule is unused.
#[derive(Clone, Debug, PartialEq, Eq)]
pub struct ElementRule {
    /// The element's number.
    pub element: usize,
    /// Must or may.
    pub presence: Presence,
    /// Type, lengths and codes.
    pub form: Form,
}

/// If the first element is filled, so is the second.
pub type PairRule = (usize, usize);

/// One row of a guide.
#[derive(Clone, Debug, PartialEq, Eq)]
pub struct Row {
    /// Its number, from 1.
    pub number: usize,
    /// The segment name.
    pub name: Vec<u8>,
    /// The codes that place it. Empty: none.
    pub placing: Vec<Vec<u8>>,
    /// The least use.
    pub least: u64,
    /// The greatest use.
    pub greatest: u64,
    /// In how many loops it stands.
    pub depth: usize,
    /// The table says that it opens a loop.
    pub opens: bool,
    /// The element rules.
    pub rules: Vec<ElementRule>,
    /// The pair rules.
    pub pairs: Vec<PairRule>,
}

impl Row {
    /// True if the row matches the mark: this name with this first element.
    pub fn matches(&self, name: &[u8], first: &[u8]) -> bool {
        self.name == name
            && (self.placing.is_empty() || self.placing.iter().any(|code| code == first))
    }
}

/// The kind of a set.
#[derive(Clone, Copy, Debug, PartialEq, Eq)]
pub enum Kind {
    /// An original acknowledgment of an order.
    Original,
    /// A later acknowledgment of the same order.
    FollowUp,
    /// No allowed pair of BAK01 and BAK02.
    Wrong,
}

/// The segments of the envelope.
#[derive(Clone, Copy, Debug, PartialEq, Eq, Hash)]
pub enum Envelope {
    /// Header of the interchange.
    Isa,
    /// Header of a group.
    Gs,
    /// Trailer of a group.
    Ge,
    /// Trailer of the interchange.
    Iea,
}

impl Envelope {
    /// The segment name.
    pub fn name(self) -> &'static [u8] {
        match self {
            Envelope::Isa => b"ISA",
            Envelope::Gs => b"GS",
            Envelope::Ge => b"GE",
            Envelope::Iea => b"IEA",
        }
    }
}

/// What a segment is placed as: a segment of the envelope, or a row of the guide.
#[derive(Clone, Copy, Debug, PartialEq, Eq, Hash)]
pub enum Label {
    /// A segment of the envelope.
    Envelope(Envelope),
    /// The row of this number.
    Row(usize),
}

/// A guide.
#[derive(Clone, Debug)]
pub struct Guide {
    /// The rows, in order. Row number n is at index n − 1.
    pub rows: Vec<Row>,
    /// The kinds of pairs of BAK01 and BAK02 that the guide names.
    pub kinds: Vec<(&'static [u8], &'static [u8], Kind)>,
    /// The kind of each other pair.
    pub other_kind: Kind,
    /// For a BAK02, the number of the row that its set needs.
    pub needed: Vec<(&'static [u8], usize)>,
    /// Whether the ACK sums are held to PO102.
    pub holds_sums: bool,
    /// The element rules of ISA.
    pub isa: Vec<ElementRule>,
    /// The element rules of GS.
    pub gs: Vec<ElementRule>,
    /// The element rules of GE.
    pub ge: Vec<ElementRule>,
    /// The element rules of IEA.
    pub iea: Vec<ElementRule>,
}

impl Guide {
    /// A guide with the rows of a table and two versions. Kinds, needed rows and sums are to be
    /// added.
    pub fn from_table(table: &str, isa12: &str, gs08: &str) -> Guide {
        Guide {
            rows: table.lines().filter(|line| !line.trim().is_empty()).map(read_row).collect(),
            kinds: Vec::new(),
            other_kind: Kind::Original,
            needed: Vec::new(),
            holds_sums: false,
            isa: read_elements(&ISA.replace("ISA12", isa12)),
            gs: read_elements(&GS.replace("GS08", gs08)),
            ge: read_elements(GE),
            iea: read_elements(IEA),
        }
    }

    /// The row of this number.
    pub fn row(&self, number: usize) -> Option<&Row> {
        self.rows.get(number.checked_sub(1)?)
    }

    /// The segment name of a label.
    pub fn name_of(&self, label: Label) -> &[u8] {
        match label {
            Label::Envelope(envelope) => envelope.name(),
            Label::Row(number) => self.row(number).map_or(&[], |row| &row.name),
        }
    }

    /// True if a segment with this mark can be placed so. The envelope is matched by name alone.
    pub fn matches(&self, label: Label, name: &[u8], first: &[u8]) -> bool {
        match label {
            Label::Envelope(envelope) => envelope.name() == name,
            Label::Row(number) => self.row(number).is_some_and(|row| row.matches(name, first)),
        }
    }

    /// The element rules of a label.
    pub fn rules_of(&self, label: Label) -> &[ElementRule] {
        match label {
            Label::Envelope(Envelope::Isa) => &self.isa,
            Label::Envelope(Envelope::Gs) => &self.gs,
            Label::Envelope(Envelope::Ge) => &self.ge,
            Label::Envelope(Envelope::Iea) => &self.iea,
            Label::Row(number) => self.row(number).map_or(&[], |row| &row.rules),
        }
    }

    /// The pair rules of a label.
    pub fn pairs_of(&self, label: Label) -> &[PairRule] {
        match label {
            Label::Envelope(_) => &[],
            Label::Row(number) => self.row(number).map_or(&[], |row| &row.pairs),
        }
    }

    /// The kind of a pair of BAK01 and BAK02.
    pub fn kind(&self, bak01: &[u8], bak02: &[u8]) -> Kind {
        self.kinds
            .iter()
            .find(|(first, second, _)| *first == bak01 && *second == bak02)
            .map_or(self.other_kind, |&(_, _, kind)| kind)
    }

    /// The number of the row that a set with this BAK02 needs.
    pub fn needed_row(&self, bak02: &[u8]) -> Option<usize> {
        self.needed.iter().find(|(code, _)| *code == bak02).map(|&(_, row)| row)
    }
}

const ISA: &str =
    "01! {00}; 02! SPACES 10; 03! {00}; 04! SPACES 10; 05! {ZZ}; 06! AN 15; 07! {ZZ}; \
    08! AN 15; 09! D6; 10! TM; 11! {U}; 12! {ISA12}; 13! N0 9; 14! {0}; 15! {P T}; 16? AN 1";
const GS: &str =
    "01! {PR}; 02! AN 2–15; 03! AN 2–15; 04! D8; 05! TM; 06! N0 1–9; 07! {X}; 08! {GS08}";
const GE: &str = "01! N0 1–6; 02! N0 1–9";
const IEA: &str = "01! N0 1–5; 02! N0 9";

/// Reads a line of a table: `| Row | Name | Use | Elements | Pair rules |`.
///
/// The tables are constants of this crate. A line that cannot be read is a mistake in the source,
/// and stops the program at its start.
fn read_row(line: &str) -> Row {
    let cells: Vec<&str> = line.trim().split('|').map(str::trim).collect();
    let [_, number, name, uses, elements, pairs, _] = cells[..] else {
        panic!("no row of five cells: {line}");
    };
    let depth = name.matches('·').count();
    let name = name.trim_start_matches(['·', ' ']);
    let (name, opens) = match name.strip_suffix(", opens a loop") {
        Some(name) => (name, true),
        None => (name, false),
    };
    let (name, placing) = match name.split_once(" [") {
        Some((name, codes)) => (name, read_codes(codes.trim_end_matches(']'))),
        None => (name, Vec::new()),
    };
    let (least, greatest) = read_range(uses);
    Row {
        number: read_number(number) as usize,
        name: name.as_bytes().to_vec(),
        placing,
        least,
        greatest,
        depth,
        opens,
        rules: read_elements(elements),
        pairs: read_pairs(pairs),
    }
}

/// Reads `01! {BY SE}; 02 AN 1–35`. A `?` in the place of `!` means free.
fn read_elements(cell: &str) -> Vec<ElementRule> {
    cell.split(';').map(str::trim).filter(|text| !text.is_empty()).map(read_element).collect()
}

fn read_element(text: &str) -> ElementRule {
    let Some((number, form)) = text.split_once(' ') else {
        panic!("no element rule: {text}");
    };
    let presence = match number.as_bytes().last() {
        Some(b'!') => Presence::Must,
        Some(b'?') => Presence::Free,
        _ => Presence::May,
    };
    ElementRule {
        element: read_number(number.trim_end_matches(['!', '?'])) as usize,
        presence,
        form: read_form(form),
    }
}

/// Reads `{BY SE}`, `AN 1–35`, `ID 2` or `D8`.
pub fn read_form(text: &str) -> Form {
    if let Some(codes) = text.strip_prefix('{') {
        return Form::of_codes(read_codes(codes.trim_end_matches('}')));
    }
    let (name, range) = text.split_once(' ').unwrap_or((text, ""));
    let (element_type, fixed) = match name {
        "N0" => (ElementType::N0, None),
        "Q" => (ElementType::Q, None),
        "ID" => (ElementType::Id, None),
        "AN" => (ElementType::An, None),
        "R" => (ElementType::R, None),
        "D8" => (ElementType::D8, Some(8)),
        "D6" => (ElementType::D6, Some(6)),
        "TM" => (ElementType::Tm, Some(4)),
        "SPACES" => (ElementType::Spaces, None),
        _ => panic!("no type: {text}"),
    };
    let (least, greatest) = fixed.map_or_else(|| read_range(range), |length| (length, length));
    Form { element_type, least: least as usize, greatest: greatest as usize, codes: Vec::new() }
}

fn read_codes(text: &str) -> Vec<Vec<u8>> {
    text.split_whitespace().map(|code| code.as_bytes().to_vec()).collect()
}

/// Reads `1–100,000` or `2`.
fn read_range(text: &str) -> (u64, u64) {
    match text.split_once('–') {
        Some((least, greatest)) => (read_number(least), read_number(greatest)),
        None => (read_number(text), read_number(text)),
    }
}

fn read_number(text: &str) -> u64 {
    match text.trim().replace(',', "").parse() {
        Ok(number) => number,
        Err(_) => panic!("no number: {text}"),
    }
}

/// Reads `02↔03, 06↔07`: one rule each way.
fn read_pairs(cell: &str) -> Vec<PairRule> {
    let mut pairs = Vec::new();
    for text in cell.split(',').map(str::trim).filter(|text| !text.is_empty()) {
        let Some((one, other)) = text.split_once('↔') else {
            panic!("no pair rule: {text}");
        };
        let (one, other) = (read_number(one) as usize, read_number(other) as usize);
        pairs.push((one, other));
        pairs.push((other, one));
    }
    pairs
}

#[cfg(test)]
mod tests {
    use super::*;
    use crate::{guide_b, guide_m};

    /// The tables of this crate are those of the rule book, if it lies beside the crate.
    #[test]
    fn the_tables_are_printed_in_the_rule_book() {
        let path = concat!(env!("CARGO_MANIFEST_DIR"), "/../docs/RULES.md");
        let Ok(book) = std::fs::read_to_string(path) else {
            return;
        };
        for line in guide_b::TABLE.lines().chain(guide_m::TABLE.lines()) {
            assert!(book.lines().any(|printed| printed == line), "not in the rule book: {line}");
        }
    }

    #[test]
    fn rows_are_numbered_in_order_and_open_loops_where_rows_stand_inside() {
        for guide in [guide_b::guide(), guide_m::guide()] {
            for (index, row) in guide.rows.iter().enumerate() {
                assert_eq!(row.number, index + 1);
                let next_depth = guide.rows.get(index + 1).map_or(0, |next| next.depth);
                assert_eq!(row.opens, next_depth == row.depth + 1);
                assert!(next_depth <= row.depth + 1);
                assert!(row.least <= row.greatest && row.greatest >= 1);
            }
        }
    }

    #[test]
    fn some_cells_are_read_as_they_are_meant() {
        let b = guide_b::guide();
        assert_eq!((b.rows.len(), guide_m::guide().rows.len()), (13, 12));
        let po1 = b.row(7).unwrap();
        assert_eq!((po1.name.as_slice(), po1.least, po1.greatest), (&b"PO1"[..], 1, 100_000));
        assert_eq!(po1.pairs, vec![(8, 9), (9, 8)]);
        assert_eq!(b.row(11).unwrap().depth, 2);
        assert_eq!(b.row(4).unwrap().placing, vec![b"BT".to_vec()]);
        assert_eq!(
            po1.rules.iter().map(|rule| rule.element).collect::<Vec<_>>(),
            [1, 2, 3, 4, 6, 7, 8, 9]
        );
        assert_eq!(b.rules_of(Label::Envelope(Envelope::Isa)).len(), 16);
    }
}
