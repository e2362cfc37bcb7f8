//! Floats as 16 lowercase hex digits of their bits, a printed NaN always the same; other numbers decimal.

pub fn hex(x: f64) -> String {
    if x.is_nan() {
        return "7ff8000000000000".into();
    }
    format!("{:016x}", x.to_bits())
}

pub fn float(word: &str) -> Result<f64, String> {
    let plain = word
        .bytes()
        .all(|b| b.is_ascii_digit() || (b'a'..=b'f').contains(&b));
    if word.len() != 16 || !plain {
        return Err(format!("not 16 lowercase hex digits: {word}"));
    }
    let bits = u64::from_str_radix(word, 16).map_err(|e| format!("{word}: {e}"))?;
    Ok(f64::from_bits(bits))
}

pub fn number(word: &str) -> Result<u64, String> {
    let plain = word.bytes().all(|b| b.is_ascii_digit()) && (word == "0" || !word.starts_with('0'));
    if word.is_empty() || !plain {
        return Err(format!("not a decimal number: {word}"));
    }
    word.parse().map_err(|e| format!("{word}: {e}"))
}

pub const FEATURES: [&str; 2] = ["spherical", "diagonal"];
pub const DISTANCES: [&str; 6] = [
    "euclidean",
    "manhattan",
    "inter",
    "intra",
    "increase",
    "radius",
];

/// A choice's number: its name's place, or a number that has no name.
pub fn choice(word: &str, names: &[&str]) -> Result<u32, String> {
    if let Some(at) = names.iter().position(|n| *n == word) {
        return Ok(at as u32);
    }
    let n = u32::try_from(number(word)?).map_err(|_| format!("no such choice: {word}"))?;
    if (n as usize) < names.len() {
        return Err(format!("a number that has a name: {word}"));
    }
    Ok(n)
}

pub fn choice_name(n: u32, names: &[&str]) -> String {
    names
        .get(n as usize)
        .map_or(n.to_string(), |name| name.to_string())
}
