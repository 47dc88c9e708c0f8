//! The words of a line. Each reader gives None for a malformed word.
pub type Word<'a> = &'a [u8];
pub type Bytes32 = [u8; 32];

fn nibble(digit: u8) -> Option<u8> {
    (digit as char).to_digit(16).map(|value| value as u8)
}

/// 1 to 64 hex digits of either case, padded with zeros on the left.
pub fn bytes32(word: Word) -> Option<Bytes32> {
    if word.is_empty() || word.len() > 64 {
        return None;
    }
    let mut value = [0; 32];
    for (place, digit) in word.iter().rev().enumerate() {
        value[31 - place / 2] |= nibble(*digit)? << (4 * (place % 2));
    }
    Some(value)
}

pub fn list(words: &[Word]) -> Option<Vec<Bytes32>> {
    words.iter().map(|word| bytes32(word)).collect()
}

/// `-` for none, else an even number of hex digits, first byte first.
pub fn bytes(word: Word) -> Option<Vec<u8>> {
    if word == b"-" {
        return Some(Vec::new());
    }
    if word.is_empty() || word.len() % 2 == 1 {
        return None;
    }
    word.chunks(2).map(|pair| Some(nibble(pair[0])? << 4 | nibble(pair[1])?)).collect()
}

/// 1 to 20 decimal digits.
fn decimal(word: Word) -> Option<i128> {
    if word.is_empty() || word.len() > 20 || !word.iter().all(u8::is_ascii_digit) {
        return None;
    }
    std::str::from_utf8(word).ok()?.parse().ok()
}

pub fn u64(word: Word) -> Option<u64> {
    decimal(word)?.try_into().ok()
}

pub fn u32(word: Word) -> Option<u32> {
    decimal(word)?.try_into().ok()
}

pub fn i32(word: Word) -> Option<i32> {
    match word.strip_prefix(b"-") {
        Some(digits) => (-decimal(digits)?).try_into().ok(),
        None => decimal(word)?.try_into().ok(),
    }
}
