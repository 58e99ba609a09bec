//! Texts and bytes as words.

use std::ffi::CString;

fn escaped(bytes: &[u8], plain: impl Fn(u8) -> bool) -> String {
    let one = |&b: &u8| if plain(b) { (b as char).to_string() } else { format!("%{b:02X}") };
    bytes.iter().map(one).collect()
}

pub fn name(bytes: &[u8]) -> String {
    escaped(bytes, |b| (0x21..=0x7e).contains(&b) && b != b'%')
}

/// A text as a word. The word `null` means none, so that text is written otherwise.
pub fn text(bytes: &[u8]) -> String {
    if bytes == b"null" {
        return "%6Eull".to_string();
    }
    name(bytes)
}

/// A text between quotes, where blanks stay.
pub fn quoted(bytes: &[u8]) -> String {
    escaped(bytes, |b| (0x20..=0x7e).contains(&b) && b != b'%' && b != b'"')
}

pub fn hex(bytes: &[u8]) -> String {
    bytes.iter().map(|b| format!("{b:02X}")).collect()
}

pub fn unhex(word: &str) -> Result<Vec<u8>, String> {
    let pairs = word.as_bytes().chunks(2);
    pairs
        .map(|p| std::str::from_utf8(p).ok().filter(|p| p.len() == 2).and_then(|p| u8::from_str_radix(p, 16).ok()))
        .collect::<Option<_>>()
        .ok_or_else(|| format!("script error: no bytes: {word}"))
}

pub fn bytes(word: &str) -> Result<Vec<u8>, String> {
    let mut parts = word.split('%');
    let mut out = parts.next().unwrap_or("").as_bytes().to_vec();
    for part in parts {
        let code = part.get(..2).ok_or_else(|| format!("script error: no text: {word}"))?;
        out.extend(unhex(code)?);
        out.extend(&part.as_bytes()[2..]);
    }
    Ok(out)
}

pub fn decode(word: &str) -> Result<CString, String> {
    CString::new(bytes(word)?).map_err(|_| format!("script error: a zero byte: {word}"))
}
