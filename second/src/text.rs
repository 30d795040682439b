//! Numbers and bytes as the command language writes them.

/// Decimal digits only, leading zeros welcome, no more than `most`.
pub fn number(text: &[u8], most: u64) -> Option<u64> {
    if text.is_empty() {
        return None;
    }
    let mut value: u64 = 0;
    for &byte in text {
        if !byte.is_ascii_digit() {
            return None;
        }
        value = value.checked_mul(10)?.checked_add(u64::from(byte - b'0'))?;
    }
    (value <= most).then_some(value)
}

/// Pairs of hex digits with spaces and bars around the pairs, or a single
/// `-`, with spaces around it, for no bytes.
pub fn bytes(text: &[u8]) -> Option<Vec<u8>> {
    if text.iter().filter(|&&byte| byte != b' ').eq([b'-'].iter()) {
        return Some(Vec::new());
    }
    let mut found = Vec::with_capacity(text.len() / 2);
    let mut rest = text;
    loop {
        rest = match rest {
            [] => break,
            [b' ' | b'|', behind @ ..] => behind,
            [high, low, behind @ ..] => {
                found.push(digit(*high)? << 4 | digit(*low)?);
                behind
            }
            [_] => return None,
        };
    }
    (!found.is_empty()).then_some(found)
}

fn digit(byte: u8) -> Option<u8> {
    match byte {
        b'0'..=b'9' => Some(byte - b'0'),
        b'a'..=b'f' => Some(byte - b'a' + 10),
        b'A'..=b'F' => Some(byte - b'A' + 10),
        _ => None,
    }
}

/// Writes bytes in lower-case hex without spaces, `-` for none.
pub fn push_hex(out: &mut Vec<u8>, bytes: &[u8]) {
    const DIGITS: &[u8; 16] = b"0123456789abcdef";
    if bytes.is_empty() {
        out.push(b'-');
    }
    for &byte in bytes {
        out.push(DIGITS[usize::from(byte >> 4)]);
        out.push(DIGITS[usize::from(byte & 15)]);
    }
}
