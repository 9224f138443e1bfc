//! Letters of packages, and how many of each there are.
use crate::text::Text;
use engine::{Counts, Letter};

pub fn put_counts(counts: Counts, out: &mut Text) {
    out.put_number("I ", u64::from(counts.i));
    out.put_number(" B ", u64::from(counts.b));
    out.put_number(" Q ", u64::from(counts.q));
    out.put_number(" T ", u64::from(counts.t));
}

pub fn put_letter(letter: Letter, out: &mut Text) {
    out.put(match letter {
        Letter::I => "I",
        Letter::B => "B",
        Letter::Q => "Q",
        Letter::T => "T",
        Letter::Ignored => "-",
    });
}
