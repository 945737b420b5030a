//! Lists of calls, as text and run on a register (rule book, sections 1 and 15).

use crate::derive::Tree;
use crate::hex;
use crate::register::{Original, Register, Sizes};
use std::fmt;

/// One call of a list.
#[derive(Clone, Debug, PartialEq, Eq)]
pub enum Call {
    /// `lodge SEGROWS LOOPROWS HEX`
    Lodge {
        /// Rows of the segment table.
        segment_rows: u64,
        /// Rows of the loop table.
        loop_rows: u64,
        /// The interchange.
        input: Vec<u8>,
    },
    /// `find HEXSENDER HEXORDER`
    Find {
        /// The sender.
        sender: Vec<u8>,
        /// The order number.
        order: Vec<u8>,
    },
}

impl Call {
    /// Reads a call. No bytes can be written as nothing or as `-`.
    pub fn read(line: &[u8]) -> Option<Call> {
        let words: Vec<&[u8]> = line.split(|&byte| byte == b' ').collect();
        let bytes =
            |position: usize| hex::read_or_dash(words.get(position).copied().unwrap_or(b""));
        match *words.first()? {
            b"lodge" => Some(Call::Lodge {
                segment_rows: number(words.get(1)?)?,
                loop_rows: number(words.get(2)?)?,
                input: bytes(3)?,
            }),
            b"find" => Some(Call::Find { sender: bytes(1)?, order: bytes(2)? }),
            _ => None,
        }
    }

    /// Makes the call. Answers its lines, each ended by a byte 10.
    pub fn run(&self, tree: &Tree, register: &mut Register) -> String {
        match self {
            Call::Lodge { segment_rows, loop_rows, input } => {
                format!("{}\n", register.lodge(tree, input, *segment_rows, *loop_rows).0)
            }
            Call::Find { sender, order } => found(register.find(sender, order)),
        }
    }
}

impl fmt::Display for Call {
    fn fmt(&self, f: &mut fmt::Formatter<'_>) -> fmt::Result {
        match self {
            Call::Lodge { segment_rows, loop_rows, input } => {
                write!(f, "lodge {segment_rows} {loop_rows} {}", hex::write_or_dash(input))
            }
            Call::Find { sender, order } => {
                write!(f, "find {} {}", hex::write_or_dash(sender), hex::write_or_dash(order))
            }
        }
    }
}

/// A number of rows.
pub fn number(text: &[u8]) -> Option<u64> {
    std::str::from_utf8(text).ok()?.parse().ok()
}

/// Reads `== ORDERS LINES CONTROLS`, which begins a list.
pub fn read_sizes(line: &[u8]) -> Option<Sizes> {
    let words: Vec<&[u8]> = line.split(|&byte| byte == b' ').collect();
    match words[..] {
        [b"==", orders, lines, controls] => Some(Sizes {
            orders: number(orders)?,
            lines: number(lines)?,
            controls: number(controls)?,
        }),
        _ => None,
    }
}

/// The line that begins a list.
pub fn write_sizes(sizes: &Sizes) -> String {
    format!("== {} {} {}", sizes.orders, sizes.lines, sizes.controls)
}

/// `NONE`, or `FOUND n` and the n lines of the original.
fn found(original: Option<&Original>) -> String {
    let Some(original) = original else {
        return "NONE\n".to_string();
    };
    let mut text = format!("FOUND {}\n", original.lines.len());
    for line in &original.lines {
        let parts: Vec<String> = line.parts.iter().map(|part| hex::write_or_dash(part)).collect();
        text.push_str(&parts.join(" "));
        text.push('\n');
    }
    text
}

#[cfg(test)]
mod tests {
    use super::*;

    #[test]
    fn calls_are_read_as_they_are_written() {
        let calls = [
            Call::Lodge { segment_rows: 4, loop_rows: 0, input: b"AB".to_vec() },
            Call::Lodge { segment_rows: 0, loop_rows: 9, input: Vec::new() },
            Call::Find { sender: b"S".to_vec(), order: Vec::new() },
            Call::Find { sender: Vec::new(), order: b"O".to_vec() },
        ];
        for call in calls {
            assert_eq!(Call::read(call.to_string().as_bytes()), Some(call));
        }
        assert_eq!(Call::read(b"lodge 1 2 "), Call::read(b"lodge 1 2 -"));
        assert_eq!(Call::read(b"lodge 1 2"), Call::read(b"lodge 1 2 -"));
        assert_eq!(Call::read(b"find  41"), Call::read(b"find - 41"));
        assert_eq!(Call::read(b"lodge 1"), None);
        assert_eq!(Call::read(b"open 1"), None);
        let sizes = Sizes { orders: 1, lines: 2, controls: 3 };
        assert_eq!(read_sizes(write_sizes(&sizes).as_bytes()), Some(sizes));
    }
}
