//! Types of elements (rule book, section 6).

use crate::bytes::class;

/// A type of an element.
#[derive(Clone, Copy, Debug, PartialEq, Eq)]
pub enum ElementType {
    /// A natural number.
    N0,
    /// A quantity. Checked like N0.
    Q,
    /// A code.
    Id,
    /// Text.
    An,
    /// A decimal.
    R,
    /// A date, CCYYMMDD.
    D8,
    /// A date, YYMMDD.
    D6,
    /// A time, HHMM.
    Tm,
    /// Spaces only: ISA02 and ISA04.
    Spaces,
}

/// The form that an element must have: its type, its lengths, its codes.
#[derive(Clone, Debug, PartialEq, Eq)]
pub struct Form {
    /// The type.
    pub element_type: ElementType,
    /// The least length.
    pub least: usize,
    /// The greatest length.
    pub greatest: usize,
    /// The codes, if only some are allowed. Empty: any.
    pub codes: Vec<Vec<u8>>,
}

impl Form {
    /// A code list: an ID whose lengths are those of its shortest and its longest code.
    pub fn of_codes(codes: Vec<Vec<u8>>) -> Form {
        Form {
            element_type: ElementType::Id,
            least: codes.iter().map(Vec::len).min().unwrap_or(0),
            greatest: codes.iter().map(Vec::len).max().unwrap_or(0),
            codes,
        }
    }

    /// All faults 10, 11 and 12 of a filled element.
    pub fn faults(&self, element: &[u8]) -> Vec<u8> {
        let mut numbers = Vec::new();
        if !(self.least..=self.greatest).contains(&length_that_counts(self.element_type, element)) {
            numbers.push(10);
        }
        if !is_of_type(self.element_type, element) {
            numbers.push(11);
        }
        if !self.codes.is_empty() && !self.codes.iter().any(|code| code == element) {
            numbers.push(12);
        }
        numbers
    }
}

/// The number of digits for an R, the number of bytes for all others.
pub fn length_that_counts(element_type: ElementType, element: &[u8]) -> usize {
    match element_type {
        ElementType::R => element.iter().filter(|&&byte| class(byte) == 2).count(),
        _ => element.len(),
    }
}

/// True if the bytes are those of the type and keep what the table says further.
pub fn is_of_type(element_type: ElementType, element: &[u8]) -> bool {
    match element_type {
        ElementType::N0 | ElementType::Q => all_of(element, &[2]),
        ElementType::Id => all_of(element, &[1, 2]),
        ElementType::An => {
            all_of(element, &[1, 2, 3, 4, 5]) && element.iter().any(|&byte| byte != b' ')
        }
        ElementType::R => is_decimal(element),
        ElementType::D8 => is_date(element, 8),
        ElementType::D6 => is_date(element, 6),
        ElementType::Tm => is_time(element),
        ElementType::Spaces => element.iter().all(|&byte| byte == b' '),
    }
}

fn all_of(element: &[u8], classes: &[u8]) -> bool {
    element.iter().all(|&byte| classes.contains(&class(byte)))
}

/// Digits, one point at most, a minus only as the first byte, one digit at least.
fn is_decimal(element: &[u8]) -> bool {
    let allowed = element.iter().all(|&byte| class(byte) == 2 || byte == b'.' || byte == b'-');
    let points = element.iter().filter(|&&byte| byte == b'.').count();
    let later_minus = element.iter().skip(1).any(|&byte| byte == b'-');
    let has_digit = element.iter().any(|&byte| class(byte) == 2);
    allowed && points <= 1 && !later_minus && has_digit
}

/// The number that some digits stand for. None if one of them is no digit.
fn number(digits: &[u8]) -> Option<u32> {
    digits.iter().try_fold(0, |number: u32, &digit| {
        digit.is_ascii_digit().then(|| number * 10 + u32::from(digit - b'0'))
    })
}

/// A day of the calendar: of 1900 to 2099 in eight digits, or of 2000 to 2099 in six.
fn is_date(element: &[u8], length: usize) -> bool {
    if element.len() != length {
        return false;
    }
    let (year, rest) = element.split_at(length - 4);
    let (month, day) = rest.split_at(2);
    let (Some(year), Some(month), Some(day)) = (number(year), number(month), number(day)) else {
        return false;
    };
    let year = if length == 6 { 2000 + year } else { year };
    (1900..=2099).contains(&year) && day >= 1 && day <= days_of(year, month)
}

/// The number of days of a month; 0 if there is no such month.
pub fn days_of(year: u32, month: u32) -> u32 {
    match month {
        1 | 3 | 5 | 7 | 8 | 10 | 12 => 31,
        4 | 6 | 9 | 11 => 30,
        2 if is_leap(year) => 29,
        2 => 28,
        _ => 0,
    }
}

fn is_leap(year: u32) -> bool {
    year.is_multiple_of(4) && (!year.is_multiple_of(100) || year.is_multiple_of(400))
}

fn is_time(element: &[u8]) -> bool {
    if element.len() != 4 {
        return false;
    }
    let (hours, minutes) = element.split_at(2);
    matches!((number(hours), number(minutes)), (Some(0..=23), Some(0..=59)))
}
