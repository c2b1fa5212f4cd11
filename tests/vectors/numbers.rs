//! Numbers and bytes as the files write them.

/// Words that stand for document 01's numbers.
const NAMES: [(&str, u128); 12] = [
    ("container", 0),
    ("ram", 1),
    ("mmio", 2),
    ("alias", 3),
    ("managed", 4),
    ("PLUG", 0),
    ("UNPLUG", 1),
    ("UNPLUG_ALL", 2),
    ("STATE", 3),
    ("NEXT", 1),
    ("WRITE", 2),
    ("INDIRECT", 4),
];

/// A decimal, a hex number, a power of two, or a name.
fn term(text: &str) -> Option<u128> {
    if let Some((_, value)) = NAMES.iter().find(|(name, _)| *name == text) {
        return Some(*value);
    }
    if let Some(digits) = text.strip_prefix("0x") {
        return u128::from_str_radix(digits, 16).ok();
    }
    if let Some(power) = text.strip_prefix("2^") {
        return 1u128.checked_shl(power.parse().ok()?);
    }
    text.parse().ok()
}

/// A sum or a difference of terms, as 2^64-1 or NEXT+WRITE.
pub fn number(text: &str) -> Result<u64, String> {
    let value = match (text.split_once('-'), text.split_once('+')) {
        (Some((a, b)), _) => term(a).zip(term(b)).and_then(|(a, b)| a.checked_sub(b)),
        (_, Some((a, b))) => term(a).zip(term(b)).and_then(|(a, b)| a.checked_add(b)),
        _ => term(text),
    };
    value.and_then(|v| u64::try_from(v).ok()).ok_or(format!("no number: {text}"))
}

/// Exactly so many numbers.
pub fn numbers<const N: usize>(words: &[&str]) -> Result<[u64; N], String> {
    let all: Result<Vec<u64>, String> = words.iter().map(|w| number(w)).collect();
    all?.try_into().map_err(|_| format!("{N} numbers are wanted, not: {}", words.join(" ")))
}

/// Fields by name, each at most once: `NAME NUMBER ..`. Those that are not named are none.
pub fn fields<const N: usize>(
    words: &[&str],
    names: [&str; N],
) -> Result<[Option<u64>; N], String> {
    let mut out = [None; N];
    for pair in words.chunks(2) {
        let at = names.iter().position(|name| *name == pair[0]);
        match (at, pair.get(1)) {
            (Some(i), Some(value)) if out[i].is_none() => out[i] = Some(number(value)?),
            _ => return Err(format!("no field, or there twice: {}", pair.join(" "))),
        }
    }
    Ok(out)
}

/// Fields by name, all of them.
pub fn all_fields<const N: usize>(words: &[&str], names: [&str; N]) -> Result<[u64; N], String> {
    let found = fields(words, names)?;
    match names.iter().zip(found).find(|(_, value)| value.is_none()) {
        Some((name, _)) => Err(format!("missing: {name}")),
        None => Ok(found.map(|value| value.unwrap_or(0))),
    }
}

/// Bytes in hex, in groups; a group `/` stands for nothing.
pub fn bytes(words: &[&str]) -> Result<Vec<u8>, String> {
    let digits: String = words.iter().filter(|w| **w != "/").copied().collect();
    let wrong = || format!("no bytes: {}", words.join(" "));
    if digits.len() % 2 != 0 || !digits.bytes().all(|b| b.is_ascii_hexdigit()) {
        return Err(wrong());
    }
    (0..digits.len() / 2)
        .map(|i| u8::from_str_radix(&digits[2 * i..2 * i + 2], 16).map_err(|_| wrong()))
        .collect()
}

pub fn hex(bytes: &[u8]) -> String {
    bytes.iter().map(|b| format!("{b:02x}")).collect()
}
