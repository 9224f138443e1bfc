//! Trees of listings, whose texts are in hexadecimal:
//!     tree TEXT           the digest of the listing's tree, and each package with its dependencies
//!                         by position, a mark if it is marked, and its group if that isn't its
//!                         path; or the number of the refusal, and its line
//!     single TEXT         the same where each path is a group of its own
ghost use Rattle.std.specs.Prelude.{◌<◌, length};

use crate::text::Text;
use crate::words::{first_bytes, first_word};
use faults::Fault;
use listing::Tree;

pub fn answer(line: &str, out: &mut Text) {
    let (question, rest) = first_word(line);
    let (text, _) = first_bytes(out.alloc(), rest);
    let answer = match question {
        "tree" => Tree::parse(out.alloc(), text.as_slice()),
        "single" => Tree::parse_single(out.alloc(), text.as_slice()),
        _ => return,
    };
    match answer {
        Ok(tree) => put_tree(&tree, out),
        Err(fault) => {
            out.put_number("", u64::from(fault.number()));
            out.put_number(" at ", fault.place().unwrap_or(0));
        }
    }
}

fn put_tree(tree: &Tree, out: &mut Text) {
    out.put_digits(&tree.digest());
    for position in 0..tree.len() {
        put_package(tree, position, out);
        put_group(tree, position, out);
    }
}

fn put_package(tree: &Tree, position: u32, out: &mut Text)
    requires { position < length tree.now }
{
    out.put("; ");
    out.put_bytes(tree.path(position).as_bytes());
    out.put(" ");
    out.put_bytes(tree.name(position).as_bytes());
    put_positions(" b", tree.build_deps(position), out);
    put_positions(" r", tree.run_deps(position), out);
}

fn put_positions(kind: &str, positions: &[u32], out: &mut Text) {
    for position in positions {
        out.put_number(kind, u64::from(*position));
    }
}

/// The mark, and the group of more than this path.
fn put_group(tree: &Tree, position: u32, out: &mut Text)
    requires { position < length tree.now }
{
    if tree.marked(position) {
        out.put(" !");
    }
    if tree.group(position) != tree.path(position) {
        out.put(" in ");
        out.put_bytes(tree.group(position).as_bytes());
    }
}
