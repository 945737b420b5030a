//! Bytes, their classes, the header and the delimiters (rule book, sections 2 and 3).

use crate::rank::Fault;

/// The least length of an interchange: that of its header.
pub const LEAST_LENGTH: usize = 106;
/// The greatest length of an interchange.
pub const GREATEST_LENGTH: usize = 65_536;
/// The places of the header at which the element separator stands.
pub const SEPARATOR_PLACES: [usize; 16] =
    [3, 6, 17, 20, 31, 34, 50, 53, 69, 76, 81, 83, 89, 99, 101, 103];

const SEPARATOR_PLACE: usize = 3;
const COMPONENT_PLACE: usize = 104;
const TERMINATOR_PLACE: usize = 105;

/// The class of a byte, 0 to 5.
pub fn class(byte: u8) -> u8 {
    match byte {
        b'A'..=b'Z' => 1,
        b'0'..=b'9' => 2,
        b' ' => 3,
        b'a'..=b'z' => 4,
        33..=126 => 5,
        _ => 0,
    }
}

/// True for bytes 13 and 10, which are skipped after a terminator.
pub fn is_line_end(byte: u8) -> bool {
    byte == 13 || byte == 10
}

/// The three delimiters of an interchange.
#[derive(Clone, Copy, Debug, PartialEq, Eq)]
pub struct Delimiters {
    /// Parts elements.
    pub separator: u8,
    /// Reserved for components, which no element has.
    pub component: u8,
    /// Ends segments.
    pub terminator: u8,
}

/// The delimiters that the header names, if the input is long enough to have a header.
pub fn delimiters(input: &[u8]) -> Option<Delimiters> {
    Some(Delimiters {
        separator: *input.get(SEPARATOR_PLACE)?,
        component: *input.get(COMPONENT_PLACE)?,
        terminator: *input.get(TERMINATOR_PLACE)?,
    })
}

/// All faults 1 to 3 of the input. After fault 1 nothing else is judged.
pub fn header_faults(input: &[u8]) -> Vec<Fault> {
    if !(LEAST_LENGTH..=GREATEST_LENGTH).contains(&input.len()) {
        return vec![Fault { number: 1, segment: 0, element: 0 }];
    }
    let Some(delimiters) = delimiters(input) else {
        return Vec::new();
    };
    let header = &input[..LEAST_LENGTH];
    let mut faults = Vec::new();
    if is_misshapen(header, &delimiters) {
        faults.push(Fault { number: 2, segment: 1, element: 0 });
    }
    if has_poor_delimiter(&delimiters) {
        faults.push(Fault { number: 3, segment: 1, element: 0 });
    }
    faults
}

/// The four ways to meet fault 2.
fn is_misshapen(header: &[u8], delimiters: &Delimiters) -> bool {
    let no_isa = !header.starts_with(b"ISA");
    let separator_missing =
        SEPARATOR_PLACES.iter().any(|&place| header[place] != delimiters.separator);
    let separator_elsewhere = header
        .iter()
        .enumerate()
        .any(|(place, &byte)| byte == delimiters.separator && !SEPARATOR_PLACES.contains(&place));
    let terminator_early = header[..TERMINATOR_PLACE].contains(&delimiters.terminator);
    no_isa || separator_missing || separator_elsewhere || terminator_early
}

/// Fault 3: a delimiter that is not of class 5.
fn has_poor_delimiter(delimiters: &Delimiters) -> bool {
    [delimiters.separator, delimiters.component, delimiters.terminator]
        .iter()
        .any(|&byte| class(byte) != 5)
}

#[cfg(test)]
mod tests {
    use super::*;

    #[test]
    fn each_byte_has_the_class_of_the_table() {
        for byte in 0..=255u8 {
            let expected = match byte {
                65..=90 => 1,
                48..=57 => 2,
                32 => 3,
                97..=122 => 4,
                33..=47 | 58..=64 | 91..=96 | 123..=126 => 5,
                _ => 0,
            };
            assert_eq!(class(byte), expected, "byte {byte}");
        }
    }
}
