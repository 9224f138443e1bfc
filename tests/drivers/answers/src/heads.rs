//! The head of a row: a listing, and what members weigh.
use crate::text::Text;
use crate::words::{first_number, first_word};
use arrayvec::ArrayVec;
use ballots::Weights;
use listing::Tree;

/// The tree of the row's listing, in which each package is a unit by itself where the row begins
/// with `singles`.
pub fn tree(row: &[String], out: &mut Text) -> Option<Tree> {
    let text = listing(row, out);
    let is_single = match row.first() {
        Some(line) => first_word(line.as_str()).0 == "singles",
        None => false,
    };
    if is_single {
        Tree::parse_single(out.alloc(), text.as_slice()).ok()
    } else {
        Tree::parse(out.alloc(), text.as_slice()).ok()
    }
}

/// The listing of the row.
fn listing(row: &[String], out: &mut Text) -> Vec<u8> {
    let mut text = Text::new(out.alloc());
    for line in row {
        if let ("listing", rest) = first_word(line.as_str()) {
            text.put(rest);
            text.put("\n");
        }
    }
    if text.is_lost() {
        out.lose();
    }
    text.into_bytes()
}

/// What the members weigh.
pub fn weights(row: &[String]) -> Option<Weights> {
    let line = row.first()?;
    let (_, mut rest) = first_word(line.as_str());
    let mut weights: ArrayVec<u8, 9> = ArrayVec::new();
    for _member in 0..9 {
        rest = add_weight(&mut weights, rest);
    }
    Weights::new(weights.as_slice()).ok()
}

/// Adds the weight in front, if there is one, and gives what stands behind it.
fn add_weight<'a>(weights: &mut ArrayVec<u8, 9>, text: &'a str) -> &'a str {
    match first_number(text) {
        Some((weight, rest)) => {
            let _added = weights.try_push(u8::try_from(weight).unwrap_or(0));
            rest
        }
        None => text,
    }
}
