//! Floats as 16 lowercase hex digits of their bits; a printed NaN is always the same.

pub fn hex(x: f64) -> String {
    let bits = if x.is_nan() {
        0x7ff8_0000_0000_0000
    } else {
        x.to_bits()
    };
    format!("{bits:016x}")
}

pub fn float(word: &str) -> Result<f64, String> {
    Ok(f64::from_bits(hex_number(word)?))
}

pub fn hex_number(word: &str) -> Result<u64, String> {
    let plain = word
        .bytes()
        .all(|b| b.is_ascii_digit() || (b'a'..=b'f').contains(&b));
    if word.len() != 16 || !plain {
        return Err(format!("not 16 lowercase hex digits: {word}"));
    }
    u64::from_str_radix(word, 16).map_err(|e| format!("{word}: {e}"))
}

pub fn number(word: &str) -> Result<usize, String> {
    let plain = word.bytes().all(|b| b.is_ascii_digit()) && (word == "0" || !word.starts_with('0'));
    if word.is_empty() || !plain {
        return Err(format!("not a decimal number: {word}"));
    }
    word.parse().map_err(|e| format!("{word}: {e}"))
}
