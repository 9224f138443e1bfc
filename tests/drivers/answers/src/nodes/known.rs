//! What a node knows, and nodes that are opened again.
ghost use Rattle.std.specs.Prelude.{◌≡◌, ◌<◌, IfSome, length};

use crate::letters::{put_counts, put_letter};
use crate::nodes::network::Network;
use crate::nodes::opening::{left, open, put_unopened, sound};
use crate::nodes::stepping::log_len;
use crate::text::Text;
use claims::Claim;
use engine::Letter;
use listing::Tree;
use node::Node;
use pkgpath::PkgPath;
use stable_record::FaultDisk;

/// Tells what the node knows of the path, whether it has an open claim, and the counts.
pub fn put_known(node: &Node<'_, FaultDisk>, path: &PkgPath, out: &mut Text) {
    out.put_number("opened ", node.opened(path));
    out.put(", promised ");
    put_claim(node.promised(path), out);
    out.put(", voted ");
    put_claim(voted(node, path), out);
    out.put(if node.held(path).is_some() {
        ", held"
    } else {
        ", not held"
    });
    out.put(if node.open_claim().is_some() {
        ", a claim; "
    } else {
        ", no claim; "
    });
    put_counts(node.counts(), out);
}

fn voted(node: &Node<'_, FaultDisk>, path: &PkgPath) -> Option<Claim> {
    match node.voted(path) {
        Some((claim, _build)) => Some(*claim),
        None => None,
    }
}

fn put_claim(claim: Option<Claim>, out: &mut Text) {
    match claim {
        Some(claim) => {
            out.put_number("", claim.round);
            out.put_number(".", u64::from(claim.member));
        }
        None => out.put("none"),
    }
}

/// The node is opened again over its disk, after a crash that leaves what the word says, if one
/// does. Tells the length of its log, the counts and the letters.
pub fn open_again(network: &mut Network<'_>, at: usize, crash: Option<&str>, out: &mut Text) {
    let Some(disk) = network.taken_off(at) else {
        return out.put("no node");
    };
    let disk = match crash {
        Some(word) => disk.crash(left(word)),
        None => disk,
    };
    let Some(place) = network.nodes.get_mut(at) else {
        drop(disk);
        return out.put("no node");
    };
    let tree = network.tree;
    match open(
        place,
        network.alloc,
        tree,
        &network.weights,
        at,
        sound(disk),
    ) {
        Ok(()) => put_restored(place, tree, out),
        Err(unopened) => put_unopened(unopened, out),
    }
}

fn put_restored(place: &Option<Node<'_, FaultDisk>>, tree: &Tree, out: &mut Text)
    requires { IfSome place.now (λ n. n.node.member.division.tree ≡ tree.now) }
{
    if let Some(node) = place {
        out.put_number("log ", log_len(node));
        out.put("; ");
        put_counts(node.counts(), out);
        out.put("; ");
        put_letters(node, tree, out);
    }
}

fn put_letters(node: &Node<'_, FaultDisk>, tree: &Tree, out: &mut Text)
    requires { node.now.node.member.division.tree ≡ tree.now }
{
    for position in 0..tree.len() {
        put_letter(letter_at(node, tree, position), out);
    }
}

fn letter_at(node: &Node<'_, FaultDisk>, tree: &Tree, position: u32) -> Letter
    requires tree { node.now.node.member.division.tree ≡ tree.now }
    requires position { position < length tree.now }
{
    let _tree = tree;
    node.letter(position)
}
