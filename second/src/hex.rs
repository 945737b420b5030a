//! Hexadecimal text.

/// The bytes in lower-case hexadecimal digits.
pub fn write(bytes: &[u8]) -> String {
    const DIGITS: &[u8; 16] = b"0123456789abcdef";
    let mut text = String::with_capacity(bytes.len() * 2);
    for &byte in bytes {
        text.push(DIGITS[usize::from(byte >> 4)] as char);
        text.push(DIGITS[usize::from(byte & 15)] as char);
    }
    text
}

/// The bytes that the digits stand for. None if the text is no such text.
pub fn read(text: &[u8]) -> Option<Vec<u8>> {
    if !text.len().is_multiple_of(2) {
        return None;
    }
    text.chunks_exact(2).map(|pair| Some(digit(pair[0])? << 4 | digit(pair[1])?)).collect()
}

/// As [`write`](write()), but no bytes are written as `-`.
pub fn write_or_dash(bytes: &[u8]) -> String {
    if bytes.is_empty() {
        "-".to_string()
    } else {
        write(bytes)
    }
}

/// As [`read`], but `-` too stands for no bytes.
pub fn read_or_dash(text: &[u8]) -> Option<Vec<u8>> {
    if text == b"-" {
        Some(Vec::new())
    } else {
        read(text)
    }
}

fn digit(byte: u8) -> Option<u8> {
    match byte {
        b'0'..=b'9' => Some(byte - b'0'),
        b'a'..=b'f' => Some(byte - b'a' + 10),
        b'A'..=b'F' => Some(byte - b'A' + 10),
        _ => None,
    }
}

#[cfg(test)]
mod tests {
    use super::*;

    #[test]
    fn what_is_written_is_read_again() {
        let bytes: Vec<u8> = (0..=255).collect();
        assert_eq!(read(write(&bytes).as_bytes()), Some(bytes));
        assert_eq!(read(b"0"), None);
        assert_eq!(read(b"0g"), None);
        assert_eq!(read_or_dash(write_or_dash(b"").as_bytes()), Some(Vec::new()));
    }
}
