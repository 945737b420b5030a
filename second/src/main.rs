//! The program of the second judge. See `README.md` for its modes.

#![forbid(unsafe_code)]

use second::calls::{read_sizes, write_sizes, Call};
use second::derive::Tree;
use second::generate::{self, FileKind};
use second::judge::{read, read_bytes, read_structure};
use second::register::{Register, Sizes};
use second::{guide_b, guide_m, hex};
use std::io::{self, BufRead, BufWriter, Write};
use std::process::ExitCode;

/// Rows of each result table in a reading.
const ROWS: u64 = 4096;

const USAGE: &str = "usage:
  second judge B|M
  second bytes
  second structure B|M
  second tables B|M
  second calls B|M [ORDERS LINES CONTROLS]
  second generate valid|damaged|bytes SEED COUNT B|M
  second generate-calls SEED COUNT B|M
  second count";

/// Why the program ends before its time.
enum Stop {
    /// The arguments are no mode of the program.
    Usage,
    /// A line of the input cannot be read.
    Line(usize),
    /// Reading or writing failed.
    Io(io::Error),
}

impl From<io::Error> for Stop {
    fn from(error: io::Error) -> Stop {
        Stop::Io(error)
    }
}

fn main() -> ExitCode {
    let arguments: Vec<String> = std::env::args().skip(1).collect();
    let words: Vec<&str> = arguments.iter().map(String::as_str).collect();
    let mut out = BufWriter::new(io::stdout().lock());
    let result = run(&words, &mut out).and_then(|()| Ok(out.flush()?));
    match result {
        Ok(()) => ExitCode::SUCCESS,
        Err(Stop::Io(error)) if error.kind() == io::ErrorKind::BrokenPipe => ExitCode::SUCCESS,
        Err(stop) => {
            let _ = out.flush();
            eprintln!("{}", describe(&stop));
            ExitCode::from(2)
        }
    }
}

fn describe(stop: &Stop) -> String {
    match stop {
        Stop::Usage => USAGE.to_string(),
        Stop::Line(number) => format!("line {number} cannot be read"),
        Stop::Io(error) => error.to_string(),
    }
}

fn run(words: &[&str], out: &mut impl Write) -> Result<(), Stop> {
    match *words {
        ["judge", guide] => judge(&tree(guide)?, out),
        ["bytes"] => bytes(out),
        ["structure", guide] => structure(&tree(guide)?, out),
        ["tables", guide] => tables(&tree(guide)?, out),
        ["calls", guide] => calls(&tree(guide)?, [0, 0, 0], out),
        ["calls", guide, orders, lines, controls] => {
            let sizes = [number(orders)?, number(lines)?, number(controls)?];
            calls(&tree(guide)?, sizes, out)
        }
        ["generate", kind, seed, count, guide] => {
            let kind = FileKind::named(kind).ok_or(Stop::Usage)?;
            generate_files(kind, number(seed)?, number(count)?, &tree(guide)?, out)
        }
        ["generate-calls", seed, count, guide] => {
            generate_calls(number(seed)?, number(count)?, &tree(guide)?, out)
        }
        ["count"] => count(out),
        _ => Err(Stop::Usage),
    }
}

fn tree(guide: &str) -> Result<Tree, Stop> {
    match guide {
        "B" => Ok(Tree::new(guide_b::guide())),
        "M" => Ok(Tree::new(guide_m::guide())),
        _ => Err(Stop::Usage),
    }
}

fn number(text: &str) -> Result<u64, Stop> {
    text.parse().map_err(|_| Stop::Usage)
}

/// Hands each line of standard input to `work`, with its number.
fn each_line(mut work: impl FnMut(usize, &[u8]) -> Result<(), Stop>) -> Result<(), Stop> {
    for (index, line) in io::stdin().lock().split(b'\n').enumerate() {
        let line = line?;
        work(index + 1, line.strip_suffix(b"\r").unwrap_or(&line))?;
    }
    Ok(())
}

/// Hands the interchange of each line to `work`.
fn each_interchange(mut work: impl FnMut(&[u8]) -> Result<(), Stop>) -> Result<(), Stop> {
    each_line(|number, line| work(&hex::read_or_dash(line).ok_or(Stop::Line(number))?))
}

fn judge(tree: &Tree, out: &mut impl Write) -> Result<(), Stop> {
    each_interchange(|input| Ok(writeln!(out, "{}", read(tree, input, ROWS, ROWS).0)?))
}

fn bytes(out: &mut impl Write) -> Result<(), Stop> {
    each_interchange(|input| {
        match read_bytes(input) {
            Ok(segments) => writeln!(out, "READ {segments}")?,
            Err(refusal) => writeln!(out, "{refusal}")?,
        }
        Ok(())
    })
}

fn structure(tree: &Tree, out: &mut impl Write) -> Result<(), Stop> {
    each_interchange(|input| {
        match read_structure(tree, input) {
            Ok(segments) => writeln!(out, "READ {segments}")?,
            Err(refusal) => writeln!(out, "{refusal}")?,
        }
        Ok(())
    })
}

fn tables(tree: &Tree, out: &mut impl Write) -> Result<(), Stop> {
    each_interchange(|input| {
        let (verdict, tables) = read(tree, input, ROWS, ROWS);
        writeln!(out, "{verdict}")?;
        let tables = tables.unwrap_or_default();
        for row in &tables.segments {
            writeln!(out, "S {} {} {} {}", row.place, row.length, row.row, row.in_loop)?;
        }
        for row in &tables.loops {
            writeln!(out, "L {} {} {} {}", row.opening, row.last, row.outer, row.row)?;
        }
        Ok(writeln!(out)?)
    })
}

/// Runs lists of calls. A line `== ORDERS LINES CONTROLS` opens a new register and is printed.
fn calls(tree: &Tree, sizes: [u64; 3], out: &mut impl Write) -> Result<(), Stop> {
    let [orders, lines, controls] = sizes;
    let mut register = Register::open(Sizes { orders, lines, controls });
    each_line(|number, line| {
        if let Some(sizes) = read_sizes(line) {
            register = Register::open(sizes);
            return Ok(writeln!(out, "{}", write_sizes(&sizes))?);
        }
        let call = Call::read(line).ok_or(Stop::Line(number))?;
        Ok(out.write_all(call.run(tree, &mut register).as_bytes())?)
    })
}

fn generate_files(
    kind: FileKind,
    seed: u64,
    count: u64,
    tree: &Tree,
    out: &mut impl Write,
) -> Result<(), Stop> {
    for index in 0..count {
        writeln!(out, "{}", hex::write(&generate::file(kind, seed, index, tree)))?;
    }
    Ok(())
}

fn generate_calls(seed: u64, count: u64, tree: &Tree, out: &mut impl Write) -> Result<(), Stop> {
    for index in 0..count {
        let list = generate::calls::list(seed, index, tree);
        writeln!(out, "{}", write_sizes(&list.sizes))?;
        for call in &list.calls {
            writeln!(out, "{call}")?;
        }
    }
    Ok(())
}

/// Counts verdict lines: `ACCEPTED=n 1=n 2=n … 23=n OTHER=n`.
fn count(out: &mut impl Write) -> Result<(), Stop> {
    let (mut accepted, mut refused, mut other) = (0u64, [0u64; 24], 0u64);
    each_line(|_, line| {
        let text = String::from_utf8_lossy(line);
        let mut words = text.split(' ');
        let refusal = (words.next(), words.next().and_then(|word| word.parse::<usize>().ok()));
        match refusal {
            (Some("ACCEPTED"), _) => accepted += 1,
            (Some("REFUSED"), Some(number @ 1..=23)) => refused[number] += 1,
            _ => other += 1,
        }
        Ok(())
    })?;
    write!(out, "ACCEPTED={accepted}")?;
    for (number, times) in refused.iter().enumerate().skip(1) {
        write!(out, " {number}={times}")?;
    }
    Ok(writeln!(out, " OTHER={other}")?)
}
