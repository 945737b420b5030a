//! Interchanges that are regular.

use crate::generate::large;
use crate::generate::paper::{Paper, Piece};
use crate::generate::prng::Prng;
use crate::generate::scribe::{delimiters, digit, Brevity, Scribe};
use crate::guide::{ElementRule, Envelope, Guide, Kind, Label, Presence, Row};

/// A line of an original: its PO1 and all that stands in its loop.
pub type LineUnit = Vec<Piece>;

/// An original that was written.
#[derive(Clone, Debug)]
pub struct Known {
    /// Its sender.
    pub sender: Vec<u8>,
    /// Its order number.
    pub order: Vec<u8>,
    /// Its lines.
    pub lines: Vec<LineUnit>,
}

/// How a set is to be written.
#[derive(Clone, Debug)]
pub enum Task {
    /// An original with this order number.
    Original(Vec<u8>),
    /// A follow-up of this order number with these lines.
    FollowUp(Vec<u8>, Vec<LineUnit>),
}

/// What bytes 13 and 10 are written between segments.
#[derive(Clone, Copy, Debug)]
enum LineEnds {
    None,
    Feed,
    ReturnAndFeed,
    AnyRun,
}

/// Writes regular interchanges under a guide.
pub struct Writer<'a> {
    /// The guide.
    pub guide: &'a Guide,
    /// Random numbers.
    pub prng: &'a mut Prng,
    /// Writes values.
    pub scribe: Scribe,
    /// Rows that are to be used in each loop or set, once at least.
    pub forced: Vec<usize>,
    line_ends: LineEnds,
    /// ST02 of the group, to keep them different.
    set_numbers: Vec<Vec<u8>>,
    /// PO101 of the set, to keep them different.
    line_numbers: Vec<Vec<u8>>,
}

/// A regular interchange. A few of them are large.
pub fn file(prng: &mut Prng, guide: &Guide) -> Vec<u8> {
    if prng.chance(12) {
        return large::valid_file(prng, guide);
    }
    Writer::mixed(guide, prng).usual().render()
}

impl<'a> Writer<'a> {
    /// A writer of values of all lengths, with any delimiters and any line ends.
    pub fn mixed(guide: &'a Guide, prng: &'a mut Prng) -> Writer<'a> {
        let scribe = Scribe { delimiters: delimiters(prng), brevity: Brevity::Mixed };
        let line_ends = match prng.below(10) {
            0..=4 => LineEnds::None,
            5 => LineEnds::Feed,
            6..=7 => LineEnds::ReturnAndFeed,
            _ => LineEnds::AnyRun,
        };
        Writer::new(guide, prng, scribe, line_ends)
    }

    /// A writer of values that are as short as possible.
    pub fn brief(guide: &'a Guide, prng: &'a mut Prng) -> Writer<'a> {
        let scribe = Scribe { delimiters: delimiters(prng), brevity: Brevity::Least };
        Writer::new(guide, prng, scribe, LineEnds::None)
    }

    fn new(
        guide: &'a Guide,
        prng: &'a mut Prng,
        scribe: Scribe,
        line_ends: LineEnds,
    ) -> Writer<'a> {
        let (forced, set_numbers, line_numbers) = (Vec::new(), Vec::new(), Vec::new());
        Writer { guide, prng, scribe, forced, line_ends, set_numbers, line_numbers }
    }

    /// An interchange of usual size: some groups and sets, follow-ups after originals.
    pub fn usual(&mut self) -> Paper {
        let mut known: Vec<Known> = Vec::new();
        let mut paper = self.start();
        for _ in 0..self.few(1) {
            self.open_group(&mut paper);
            for _ in 0..self.few(1) {
                let task = self.next_task(&known);
                known.extend(self.write_set(&mut paper, &task));
            }
            self.close_group(&mut paper);
        }
        self.finish(&mut paper);
        paper
    }

    /// An interchange with one original.
    pub fn with_one_original(&mut self) -> Paper {
        let header = self.start();
        self.with_tasks(header, &[Task::Original(b"A".to_vec())]).0
    }

    /// An interchange with this header and these sets, mostly in one group, and its originals.
    pub fn with_tasks(&mut self, header: Paper, tasks: &[Task]) -> (Paper, Vec<Known>) {
        let mut paper = header;
        let mut known = Vec::new();
        self.open_group(&mut paper);
        for (number, task) in tasks.iter().enumerate() {
            if number > 0 && self.prng.chance(150) {
                self.close_group(&mut paper);
                self.open_group(&mut paper);
            }
            known.extend(self.write_set(&mut paper, task));
        }
        self.close_group(&mut paper);
        self.finish(&mut paper);
        (paper, known)
    }

    /// A small number, mostly the least.
    fn few(&mut self, least: usize) -> usize {
        least
            + match self.prng.below(100) {
                0..=69 => 0,
                70..=89 => 1,
                90..=96 => 2,
                _ => self.prng.between(3, 5),
            }
    }

    /// An original, or a follow-up of one of the known originals.
    fn next_task(&mut self, known: &[Known]) -> Task {
        if self.pair(Kind::FollowUp).is_some() && !known.is_empty() && self.prng.chance(350) {
            let original = &known[self.prng.below(known.len())];
            let lines = self.some_lines(&original.lines);
            return Task::FollowUp(original.order.clone(), lines);
        }
        let rule = self.rule_of(b"BAK", 3).cloned();
        Task::Original(rule.map_or_else(Vec::new, |rule| self.scribe.value(&rule.form, self.prng)))
    }

    /// Some of the lines, one at least, at times in another order.
    pub fn some_lines(&mut self, lines: &[LineUnit]) -> Vec<LineUnit> {
        let mut chosen: Vec<LineUnit> =
            lines.iter().filter(|_| self.prng.chance(800)).cloned().collect();
        if chosen.is_empty() {
            chosen.extend(lines.first().cloned());
        }
        if self.prng.chance(300) {
            chosen.reverse();
        }
        chosen
    }

    /// BAK01 and BAK02 of this kind, if the guide names them.
    fn pair(&self, kind: Kind) -> Option<(Vec<u8>, Vec<u8>)> {
        let found = self.guide.kinds.iter().find(|(_, _, own)| *own == kind);
        found.map(|(bak01, bak02, _)| (bak01.to_vec(), bak02.to_vec()))
    }

    /// The rule of an element, by the segment name.
    fn rule_of(&self, name: &[u8], element: usize) -> Option<&'a ElementRule> {
        let row = self.guide.rows.iter().find(|row| row.name == name)?;
        row.rules.iter().find(|rule| rule.element == element)
    }

    /// The header.
    pub fn start(&mut self) -> Paper {
        let mut header = self.envelope(Envelope::Isa);
        header.set(6, &self.partner());
        header.set(8, &self.partner());
        header.set(16, &[self.scribe.delimiters.component]);
        let leading_zeros = if self.scribe.brevity == Brevity::Least { 0 } else { 80 };
        Paper { delimiters: self.scribe.delimiters, pieces: vec![header], leading_zeros }
    }

    /// A sender or receiver of 15 bytes.
    fn partner(&mut self) -> Vec<u8> {
        if self.prng.chance(500) {
            let length = self.prng.between(1, 15);
            let mut bytes = self.scribe.text(length, self.prng);
            bytes.resize(15, b' ');
            return bytes;
        }
        self.scribe.text(15, self.prng)
    }

    /// Writes GS.
    pub fn open_group(&mut self, paper: &mut Paper) {
        self.set_numbers.clear();
        let piece = self.envelope(Envelope::Gs);
        paper.pieces.push(piece);
    }

    /// Writes GE.
    pub fn close_group(&mut self, paper: &mut Paper) {
        let piece = self.envelope(Envelope::Ge);
        paper.pieces.push(piece);
    }

    /// Writes IEA and makes the totals right.
    pub fn finish(&mut self, paper: &mut Paper) {
        let piece = self.envelope(Envelope::Iea);
        paper.pieces.push(piece);
        paper.settle(self.guide, self.prng);
        if self.scribe.brevity == Brevity::Mixed {
            self.add_empty_elements(paper);
        }
        for piece in &mut paper.pieces {
            piece.gap = gap(self.line_ends, self.prng);
        }
    }

    /// Adds empty elements at the end of some segments. They make no difference.
    fn add_empty_elements(&mut self, paper: &mut Paper) {
        for piece in paper.pieces.iter_mut().skip(1) {
            if self.prng.chance(15) {
                let more = self.prng.pick_of(&[1, 1, 2, 3, 40]);
                piece.elements.resize(piece.elements.len() + more, Vec::new());
            }
        }
    }

    fn envelope(&mut self, envelope: Envelope) -> Piece {
        let label = Label::Envelope(envelope);
        let mut elements = vec![envelope.name().to_vec()];
        for rule in self.guide.rules_of(label) {
            elements.push(self.scribe.value(&rule.form, self.prng));
        }
        Piece { label, elements, gap: Vec::new() }
    }

    /// Adds lines at the end of the last set, until the interchange has this length or more.
    pub fn add_lines(&mut self, paper: &mut Paper, length: usize) {
        let rows = &self.guide.rows;
        let lines = paper.indices(b"PO1");
        let (Some(&last), Some(at)) =
            (lines.last(), rows.iter().position(|row| row.name == b"PO1"))
        else {
            return;
        };
        let inside = rows[at + 1..].iter().take_while(|row| row.depth > rows[at].depth).count();
        let inside = &rows[at + 1..at + 1 + inside];
        let rest = paper.pieces.split_off(paper.end_of_unit(last, self.guide));
        let mut missing =
            length.saturating_sub(paper.length() + rest.iter().map(Piece::length).sum::<usize>());
        while missing > 0 {
            let start = paper.pieces.len();
            let piece = self.piece(&rows[at]);
            paper.pieces.push(piece);
            let task = Task::Original(Vec::new());
            self.write_rows(paper, inside, rows[at].depth + 1, &task, b"");
            let added: usize = paper.pieces[start..].iter().map(Piece::length).sum();
            missing = missing.saturating_sub(added);
        }
        paper.pieces.extend(rest);
    }

    /// Writes one set. Answers the original, if it is one.
    pub fn write_set(&mut self, paper: &mut Paper, task: &Task) -> Option<Known> {
        self.line_numbers.clear();
        let start = paper.pieces.len();
        let bak = self.bak_elements(task);
        let rows = &self.guide.rows;
        self.write_rows(paper, rows, 0, task, bak.1.as_slice());
        self.complete_set(paper, start, &bak, task);
        paper.settle_lines(self.guide, self.prng);
        let Task::Original(order) = task else {
            return None;
        };
        let sender = paper.pieces[0].element(6).to_vec();
        Some(Known { sender, order: order.clone(), lines: self.line_units(paper, start) })
    }

    /// BAK01 and BAK02 of the set.
    fn bak_elements(&mut self, task: &Task) -> (Vec<u8>, Vec<u8>) {
        let kind = match task {
            Task::Original(_) => Kind::Original,
            Task::FollowUp(..) => Kind::FollowUp,
        };
        self.pair(kind).unwrap_or_else(|| {
            let mut value = |element| {
                let rule = self.rule_of(b"BAK", element).cloned();
                rule.map_or_else(Vec::new, |rule| self.scribe.value(&rule.form, self.prng))
            };
            (value(1), value(2))
        })
    }

    /// Writes the elements that hang together: ST02, BAK01 to BAK03.
    fn complete_set(
        &mut self,
        paper: &mut Paper,
        start: usize,
        bak: &(Vec<u8>, Vec<u8>),
        task: &Task,
    ) {
        let number =
            self.fresh(paper.pieces[start].element(2).to_vec(), |own| &mut own.set_numbers);
        paper.pieces[start].set(2, &number);
        let (Task::Original(order) | Task::FollowUp(order, _)) = task;
        if let Some(piece) = paper.pieces.get_mut(start + 1) {
            piece.set(1, &bak.0);
            piece.set(2, &bak.1);
            piece.set(3, order);
        }
    }

    /// The value, or one near it that is none of those before it. Remembers it.
    fn fresh(
        &mut self,
        mut value: Vec<u8>,
        known: impl Fn(&mut Self) -> &mut Vec<Vec<u8>>,
    ) -> Vec<u8> {
        while known(self).contains(&value) {
            if value.len() < 9 {
                value.push(digit(self.prng));
            } else {
                let at = self.prng.below(9);
                value[at] = digit(self.prng);
            }
        }
        known(self).push(value.clone());
        value
    }

    /// The lines of the set that begins at this index.
    fn line_units(&self, paper: &Paper, start: usize) -> Vec<LineUnit> {
        (start..paper.pieces.len())
            .filter(|&index| paper.pieces[index].is(b"PO1"))
            .map(|index| paper.pieces[index..paper.end_of_unit(index, self.guide)].to_vec())
            .collect()
    }

    /// Writes the rows at one depth, each as often as it is to be used, with the rows inside.
    fn write_rows(
        &mut self,
        paper: &mut Paper,
        rows: &'a [Row],
        depth: usize,
        task: &Task,
        bak02: &[u8],
    ) {
        let mut index = 0;
        while index < rows.len() {
            let row = &rows[index];
            let inner = rows[index + 1..].iter().take_while(|inner| inner.depth > depth).count();
            let inside = &rows[index + 1..index + 1 + inner];
            match (task, row.name.as_slice()) {
                (Task::FollowUp(_, lines), b"PO1") => {
                    paper.pieces.extend(lines.iter().flatten().cloned());
                }
                _ => {
                    for _ in 0..self.uses(row, bak02) {
                        let piece = self.piece(row);
                        paper.pieces.push(piece);
                        self.write_rows(paper, inside, depth + 1, task, bak02);
                    }
                }
            }
            index += 1 + inner;
        }
    }

    /// How often to use a row: mostly the least number, at times some more.
    fn uses(&mut self, row: &Row, bak02: &[u8]) -> u64 {
        let is_needed = self.guide.needed_row(bak02) == Some(row.number);
        let is_forced = self.forced.contains(&row.number);
        let least = row.least.max(u64::from(is_needed || is_forced));
        if self.scribe.brevity == Brevity::Least || row.greatest == least {
            return least;
        }
        let more = match self.prng.below(100) {
            0..=49 => 0,
            50..=79 => 1,
            80..=91 => 2,
            92..=98 => self.prng.between(3, 5) as u64,
            _ => self.prng.between(6, 15) as u64,
        };
        (least + more).min(row.greatest)
    }

    /// One segment of a row.
    pub fn piece(&mut self, row: &Row) -> Piece {
        let mut piece = Piece {
            label: Label::Row(row.number),
            elements: vec![row.name.clone()],
            gap: Vec::new(),
        };
        for rule in &row.rules {
            let is_filled = rule.presence == Presence::Must
                || (self.scribe.brevity == Brevity::Mixed && self.prng.chance(350));
            if is_filled {
                let value = self.element(row, rule);
                piece.set(rule.element, &value);
            }
        }
        self.keep_pairs(row, &mut piece);
        piece
    }

    /// The value of an element; quantities and line numbers are chosen with care.
    fn element(&mut self, row: &Row, rule: &ElementRule) -> Vec<u8> {
        match (row.name.as_slice(), rule.element) {
            (b"PO1" | b"ACK", 2) => self.quantity(),
            (b"PO1", 1) => {
                let value = if self.prng.chance(500) {
                    (self.line_numbers.len() + 1).to_string().into_bytes()
                } else {
                    self.scribe.value(&rule.form, self.prng)
                };
                self.fresh(value, |own| &mut own.line_numbers)
            }
            _ => self.scribe.value(&rule.form, self.prng),
        }
    }

    /// A quantity: mostly small, at times the greatest, at times with leading zeros.
    fn quantity(&mut self) -> Vec<u8> {
        if self.scribe.brevity == Brevity::Least {
            return vec![b'0' + self.prng.below(2) as u8];
        }
        let number = match self.prng.below(100) {
            0..=9 => 0,
            10..=79 => self.prng.below(100),
            80..=92 => self.prng.below(100_000),
            93..=95 => 999_999_999,
            _ => self.prng.below(1_000_000_000),
        };
        let digits = number.to_string();
        let zeros = if self.prng.chance(60) { self.prng.below(10 - digits.len()) } else { 0 };
        format!("{}{digits}", "0".repeat(zeros)).into_bytes()
    }

    /// Fills what the pair rules ask for.
    fn keep_pairs(&mut self, row: &Row, piece: &mut Piece) {
        for &(a, b) in &row.pairs {
            if !piece.element(a).is_empty() && piece.element(b).is_empty() {
                if let Some(rule) = row.rules.iter().find(|rule| rule.element == b) {
                    let value = self.scribe.value(&rule.form, self.prng);
                    piece.set(b, &value);
                }
            }
        }
    }
}

fn gap(line_ends: LineEnds, prng: &mut Prng) -> Vec<u8> {
    match line_ends {
        LineEnds::None => Vec::new(),
        LineEnds::Feed => vec![10],
        LineEnds::ReturnAndFeed => vec![13, 10],
        LineEnds::AnyRun => {
            let length = if prng.chance(20) { prng.between(3, 40) } else { prng.below(3) };
            (0..length).map(|_| prng.pick_of(&[13, 10])).collect()
        }
    }
}
