//! Natural numbers of any size, for what is compared "by value".

use std::fmt;

/// A natural number. Its decimal digits, the last one first, without leading zeros.
#[derive(Clone, Debug, Default, PartialEq, Eq)]
pub struct Natural(Vec<u8>);

impl Natural {
    /// Reads digits as a number. None if there is no byte or one that is no digit.
    pub fn read(digits: &[u8]) -> Option<Natural> {
        if digits.is_empty() || !digits.iter().all(u8::is_ascii_digit) {
            return None;
        }
        let significant = digits.iter().skip_while(|&&digit| digit == b'0');
        let mut last_first: Vec<u8> = significant.map(|digit| digit - b'0').collect();
        last_first.reverse();
        Some(Natural(last_first))
    }

    /// The number of things counted.
    pub fn count(things: usize) -> Natural {
        Natural::read(things.to_string().as_bytes()).unwrap_or_default()
    }

    /// The sum of two numbers.
    pub fn plus(mut self, other: &Natural) -> Natural {
        let mut carry = 0;
        let mut index = 0;
        while index < other.0.len() || carry > 0 {
            if index == self.0.len() {
                self.0.push(0);
            }
            let digit = self.0[index] + other.0.get(index).copied().unwrap_or(0) + carry;
            self.0[index] = digit % 10;
            carry = digit / 10;
            index += 1;
        }
        self
    }

    /// The sum of all the numbers. None if one of them is none.
    pub fn sum(numbers: impl Iterator<Item = Option<Natural>>) -> Option<Natural> {
        let mut sum = Natural::default();
        for number in numbers {
            sum = sum.plus(&number?);
        }
        Some(sum)
    }
}

impl fmt::Display for Natural {
    fn fmt(&self, f: &mut fmt::Formatter<'_>) -> fmt::Result {
        if self.0.is_empty() {
            return f.write_str("0");
        }
        self.0.iter().rev().try_for_each(|digit| write!(f, "{digit}"))
    }
}

#[cfg(test)]
mod tests {
    use super::*;

    #[test]
    fn leading_zeros_do_not_matter() {
        assert_eq!(Natural::read(b"0000000010"), Natural::read(b"10"));
        assert_eq!(Natural::read(b"000"), Some(Natural::default()));
        assert_eq!(Natural::read(b""), None);
        assert_eq!(Natural::read(b"1A"), None);
    }

    #[test]
    fn sums_never_wrap() {
        let large = "9".repeat(60);
        let sum = Natural::read(large.as_bytes()).unwrap().plus(&Natural::count(1));
        assert_eq!(sum.to_string(), format!("1{}", "0".repeat(60)));
        assert_eq!(Natural::count(905).plus(&Natural::count(95)).to_string(), "1000");
        assert_eq!(Natural::default().to_string(), "0");
    }
}
