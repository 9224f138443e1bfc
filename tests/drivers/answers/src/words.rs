//! Words of lines.
use crate::text::Text;
use faults::Fault;
use pkgpath::PkgPath;
use std::alloc::Global;

/// The word in front, and what stands behind the blank after it.
pub fn first_word(text: &str) -> (&str, &str) {
    match text.split_once(' ') {
        Some(cut) => cut,
        None => (text, ""),
    }
}

/// The number in front, and what stands behind it.
pub fn first_number(text: &str) -> Option<(u64, &str)> {
    let (word, rest) = first_word(text);
    Some((word.parse().ok()?, rest))
}

/// The place or the member's number in front, and what stands behind it.
pub fn first_place(text: &str) -> Option<(usize, &str)> {
    let (number, rest) = first_number(text)?;
    Some((usize::try_from(number).ok()?, rest))
}

/// The path in front, if there is one, and what stands behind it.
pub fn first_path<'a>(text: &'a str, out: &mut Text) -> Option<(PkgPath, &'a str)> {
    let (word, rest) = first_word(text);
    match PkgPath::parse(out.alloc(), word.as_bytes()) {
        Ok(path) => Some((path, rest)),
        Err(fault) => {
            if fault.number() == 1 {
                out.lose();
            }
            None
        }
    }
}

/// The bytes that the digits in front write, and what stands behind them; no bytes where they write
/// none.
pub fn first_bytes(alloc: Global, text: &str) -> (Vec<u8>, &str) {
    let (word, rest) = first_word(text);
    match hex::decode(alloc, word.as_bytes()) {
        Ok(bytes) => (bytes, rest),
        Err(_) => (Vec::new(alloc), rest),
    }
}
