//! Lists of lodgings and findings.

use crate::bytes::Delimiters;
use crate::calls::Call;
use crate::derive::Tree;
use crate::generate::damage;
use crate::generate::prng::Prng;
use crate::generate::scribe::delimiters;
use crate::generate::valid::{Known, LineUnit, Task, Writer};
use crate::guide::{Guide, Kind};
use crate::judge::Study;
use crate::rank::Verdict;
use crate::register::{Register, Sizes};

/// A list of calls, with the sizes of the register that it is made for.
pub struct CallList {
    /// The sizes of the register's tables.
    pub sizes: Sizes,
    /// The calls.
    pub calls: Vec<Call>,
}

/// Rows enough for each list.
const MANY: Sizes = Sizes { orders: 1000, lines: 10_000, controls: 1000 };

/// What the calls of a list are about.
struct World<'a> {
    tree: &'a Tree,
    prng: Prng,
    delimiters: Delimiters,
    senders: Vec<Vec<u8>>,
    orders: Vec<Vec<u8>>,
    /// A register with many rows, in which all interchanges are lodged.
    trial: Register,
    /// The originals of the interchanges that were accepted there.
    accepted: Vec<Known>,
    /// The originals of the others.
    refused: Vec<Known>,
    /// All interchanges that were lodged, accepted or not.
    lodged: Vec<Vec<u8>>,
    /// The control number that was used last.
    control: usize,
}

/// List number `index` of this seed.
pub fn list(seed: u64, index: u64, tree: &Tree) -> CallList {
    let mut world = World::new(Prng::for_file(seed, 7, index), tree);
    let count = world.prng.between(3, 16);
    let calls: Vec<Call> = (0..count).map(|_| world.call()).collect();
    let sizes = world.sizes(&calls);
    CallList { sizes, calls }
}

impl<'a> World<'a> {
    fn new(mut prng: Prng, tree: &'a Tree) -> World<'a> {
        let delimiters = delimiters(&mut prng);
        let names: [&[u8]; 5] = [b"ACME", b"ACME2", b" ACME", b"acme", b"ACMEACMEACMEACM"];
        let numbers: [&[u8]; 10] = [
            b"A17",
            b"A17 ",
            b" A17",
            b"a17",
            b"017",
            b"17",
            b"1234567890123456789012",
            b"X",
            b"X1",
            b"PO-1/2",
        ];
        let some = |from: &[&[u8]], count: usize, prng: &mut Prng| -> Vec<Vec<u8>> {
            (0..count).map(|_| from[prng.below(from.len())].to_vec()).collect()
        };
        let mut senders = some(&names, 2, &mut prng);
        senders.iter_mut().for_each(|sender| sender.resize(15, b' '));
        let count = prng.between(3, 9);
        let orders = some(&numbers, count, &mut prng);
        let control = prng.below(100);
        World {
            tree,
            prng,
            delimiters,
            senders,
            orders,
            trial: Register::open(MANY),
            accepted: Vec::new(),
            refused: Vec::new(),
            lodged: Vec::new(),
            control,
        }
    }

    fn guide(&self) -> &'a Guide {
        self.tree.guide()
    }

    fn call(&mut self) -> Call {
        if self.prng.chance(300) {
            return self.find();
        }
        let input = self.input();
        self.lodged.push(input.clone());
        let (segment_rows, loop_rows) = self.rows(&input);
        Call::Lodge { segment_rows, loop_rows, input }
    }

    /// A finding: mostly of an order that was written.
    fn find(&mut self) -> Call {
        let (sender, order) = self.some_order();
        let trimmed = sender.iter().rev().skip_while(|&&byte| byte == b' ').count();
        let (sender, order) = match self.prng.below(20) {
            0 => (sender[..trimmed].to_vec(), order),
            1 => (Vec::new(), order),
            2 => (sender, Vec::new()),
            3 => ([sender, b" ".to_vec()].concat(), order),
            4 => (sender, [order, b" ".to_vec()].concat()),
            5 => (sender, vec![b'A'; 23]),
            6 => (vec![0; 15], vec![255; 3]),
            _ => (sender, order),
        };
        Call::Find { sender, order }
    }

    /// A sender and an order number, mostly of an original that was accepted.
    fn some_order(&mut self) -> (Vec<u8>, Vec<u8>) {
        if !self.accepted.is_empty() && self.prng.chance(600) {
            let original = &self.accepted[self.prng.below(self.accepted.len())];
            return (original.sender.clone(), original.order.clone());
        }
        let sender = self.senders[self.prng.below(self.senders.len())].clone();
        (sender, self.orders[self.prng.below(self.orders.len())].clone())
    }

    /// An interchange: new, damaged, or one that was lodged before.
    fn input(&mut self) -> Vec<u8> {
        if !self.lodged.is_empty() && self.prng.chance(120) {
            return self.lodged[self.prng.below(self.lodged.len())].clone();
        }
        if self.prng.chance(60) {
            return damage::file(&mut Prng::new(self.prng.draw()), self.guide());
        }
        self.written()
    }

    /// A new interchange of some sender with one to three sets.
    fn written(&mut self) -> Vec<u8> {
        let sender = self.senders[self.prng.below(self.senders.len())].clone();
        let control = self.next_control();
        let count = self.prng.pick_of(&[1, 1, 1, 2, 2, 3]);
        let tasks: Vec<Task> = (0..count).map(|_| self.task(&sender)).collect();
        let mut prng = Prng::new(self.prng.draw());
        let mut writer = Writer::mixed(self.guide(), &mut prng);
        writer.scribe.delimiters = self.delimiters;
        let mut header = writer.start();
        header.pieces[0].set(6, &sender);
        header.pieces[0].set(13, format!("{control:09}").as_bytes());
        let (paper, known) = writer.with_tasks(header, &tasks);
        let input = paper.render();
        match self.trial.lodge(self.tree, &input, 4096, 4096).0 {
            Verdict::Accepted(_) => self.accepted.extend(known),
            Verdict::Refused(..) => self.refused.extend(known),
        }
        input
    }

    /// A new control number, or at times one that was used.
    fn next_control(&mut self) -> usize {
        if self.prng.chance(120) {
            return self.control.saturating_sub(self.prng.below(3));
        }
        self.control += 1;
        self.control
    }

    /// An original, or a follow-up of an order that was written.
    fn task(&mut self, sender: &[u8]) -> Task {
        let has_follow_ups = self.guide().kinds.iter().any(|(_, _, kind)| *kind == Kind::FollowUp);
        if !has_follow_ups || self.prng.chance(400) {
            return Task::Original(self.order_number(sender));
        }
        let originals = if self.prng.chance(900) { &self.accepted } else { &self.refused };
        let of_sender: Vec<&Known> =
            originals.iter().filter(|known| known.sender == sender).collect();
        let Some(original) = of_sender.get(self.prng.below(of_sender.len())).copied() else {
            return Task::Original(self.order_number(sender));
        };
        let (number, lines) = (original.order.clone(), original.lines.clone());
        let number = if self.prng.chance(40) { self.order_number(sender) } else { number };
        let lines = self.follow_up_lines(lines);
        Task::FollowUp(number, lines)
    }

    /// An order number, mostly one of which the sender has no original.
    fn order_number(&mut self, sender: &[u8]) -> Vec<u8> {
        let is_free = |order: &Vec<u8>| self.trial.find(sender, order).is_none();
        let free: Vec<&Vec<u8>> = self.orders.iter().filter(|order| is_free(order)).collect();
        if !free.is_empty() && self.prng.chance(750) {
            return self.prng.pick(&free).clone();
        }
        self.orders[self.prng.below(self.orders.len())].clone()
    }

    /// Some of the lines, at times in another order, at times one of them changed.
    fn follow_up_lines(&mut self, lines: Vec<LineUnit>) -> Vec<LineUnit> {
        let mut chosen: Vec<LineUnit> =
            lines.iter().filter(|_| self.prng.chance(800)).cloned().collect();
        if chosen.is_empty() {
            chosen = lines;
        }
        if self.prng.chance(300) {
            chosen.reverse();
        }
        if self.prng.chance(400) && !chosen.is_empty() {
            let at = self.prng.below(chosen.len());
            change_line(&mut chosen[at], &mut self.prng);
        }
        chosen
    }

    /// Rows of the result tables: mostly many, at times just enough or one too few.
    fn rows(&mut self, input: &[u8]) -> (u64, u64) {
        let tables = Study::new(self.tree, input).tables();
        let (segments, loops) = (tables.segments.len() as u64, tables.loops.len() as u64);
        match self.prng.below(20) {
            0 => (segments, loops),
            1 => (segments.saturating_sub(1), loops),
            2 => (segments, loops.saturating_sub(1)),
            3 => (0, 0),
            4 => (segments, 0),
            5 => (u64::from(u32::MAX), loops),
            _ => (4096, 4096),
        }
    }

    /// Sizes of the register: mostly many rows, at times just enough or too few for these calls.
    fn sizes(&mut self, calls: &[Call]) -> Sizes {
        let mut trial = Register::open(MANY);
        for call in calls {
            call.run(self.tree, &mut trial);
        }
        let mut sizes = Sizes {
            orders: trial.ledger.originals.len() as u64,
            lines: trial.ledger.line_count(),
            controls: trial.ledger.controls.len() as u64,
        };
        match self.prng.below(10) {
            0 => sizes.orders = sizes.orders.saturating_sub(1),
            1 => sizes.lines = sizes.lines.saturating_sub(1),
            2 => sizes.controls = sizes.controls.saturating_sub(1),
            3 => sizes.lines /= 2,
            4 => sizes.orders /= 2,
            5 => {}
            6 if self.prng.chance(200) => sizes.controls = 0,
            _ => sizes = MANY,
        }
        sizes
    }
}

/// Changes something of a line: one of the five elements that are compared, or another one.
fn change_line(line: &mut LineUnit, prng: &mut Prng) {
    let Some(po1) = line.first_mut() else {
        return;
    };
    let padded = |bytes: &[u8]| [b"0", bytes].concat();
    match prng.below(9) {
        0 => po1.set(1, prng.pick(&[&b"NEW"[..], b"1", b"2", b"01"])),
        1 if po1.element(2).len() < 9 => po1.set(2, &padded(po1.element(2))),
        2 => {
            let other: &[u8] = if po1.element(3) == b"EA" { b"UN" } else { b"EA" };
            po1.set(3, other);
        }
        3 => po1.set(6, prng.pick(&[&b"IB"[..], b"EN", b"UK", b"UP"])),
        4 => {
            let mut text = po1.element(7).to_vec();
            text.push(b'A');
            po1.set(7, &text[text.len().saturating_sub(40)..]);
        }
        5 => po1.set(4, b"17"),
        6 => change_quantity(line, prng),
        7 => {
            po1.set(3, b"UN");
            po1.set(7, b"OTHER");
        }
        _ => po1.set(4, b""),
    }
}

/// Changes the quantities of a line, and keeps their sum right.
fn change_quantity(line: &mut LineUnit, prng: &mut Prng) {
    let digits = prng.below(1000).to_string();
    for piece in line.iter_mut() {
        if piece.is(b"PO1") {
            piece.set(2, digits.as_bytes());
        }
    }
    let acks: Vec<usize> = (0..line.len()).filter(|&index| line[index].is(b"ACK")).collect();
    for (number, &ack) in acks.iter().enumerate() {
        line[ack].set(2, if number == 0 { digits.as_bytes() } else { b"0" });
    }
}
