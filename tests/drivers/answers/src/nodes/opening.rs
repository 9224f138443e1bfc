//! Nodes that are opened.
ghost use Rattle.std.specs.Prelude.{◌≡◌, ◌<◌, IfSome, OnOk, length};

use crate::nodes::stepping::refusal;
use crate::text::Text;
use ballots::Weights;
use listing::Tree;
use node::{Node, NodeFault};
use stable_record::{Failing, FaultDisk, Left, MemDisk};
use std::alloc::Global;

/// The disk, which never fails.
pub fn sound(disk: MemDisk) -> FaultDisk {
    FaultDisk::new(disk, Failing::Once(0))
}

/// The number of the refusal with which no node is opened and its cause; 0 where no node has this
/// number.
pub type Unopened = (u32, Option<u64>);

/// Tells why no node was opened.
pub fn put_unopened(unopened: Unopened, out: &mut Text) {
    match unopened {
        (0, _) => out.put("no node"),
        (1, _) => out.lose(),
        (number, cause) => out.put_refusal(number, cause),
    }
}

/// Opens the node with this number over what the disk has, and leaves it at the place. Where memory
/// runs out it is opened again.
pub fn open<'a>(
    place: &mut Option<Node<'a, FaultDisk>>,
    alloc: Global,
    tree: &'a Tree,
    weights: &Weights,
    at: usize,
    disk: FaultDisk,
) -> Result<(), Unopened>
    ensures { OnOk result
        (IfSome place.new (λ n. n.node.member.division.tree ≡ tree.entry.now)) }
{
    if at >= weights.len() {
        drop(disk);
        return Err((0, None));
    }
    match once(place, alloc, tree, weights, at as u8, disk) {
        Ok(()) => Ok(()),
        Err((NodeFault::Memory, disk)) => {
            match once(place, alloc, tree, weights, at as u8, disk) {
                Ok(()) => Ok(()),
                Err((fault, _disk)) => Err(refusal(&fault)),
            }
        }
        Err((fault, _disk)) => Err(refusal(&fault)),
    }
}

/// Opens the node with this number over what the disk has, and leaves it at the place.
pub fn once<'a>(
    place: &mut Option<Node<'a, FaultDisk>>,
    alloc: Global,
    tree: &'a Tree,
    weights: &Weights,
    me: u8,
    disk: FaultDisk,
) -> Result<(), (NodeFault, FaultDisk)>
    requires { me < length weights.now }
    ensures { OnOk result
        (IfSome place.new (λ n. n.node.member.division.tree ≡ tree.entry.now)) }
{
    match Node::open(alloc, disk, tree, weights, me) {
        Ok(node) => {
            place.insert(node);
            Ok(())
        }
        Err(refused) => Err(refused),
    }
}

/// The disk of the node at the place, which is no more.
pub fn disk_in(place: &mut Option<Node<'_, FaultDisk>>) -> Option<MemDisk> {
    match place.take() {
        Some(node) => Some(node.into_disk().into_inner()),
        None => None,
    }
}

/// What a crash may leave, by its word.
pub fn left(word: &str) -> Left {
    match word {
        "before" => Left::Before,
        "written" => Left::Written,
        _ => Left::Fill(word.parse().unwrap_or(0)),
    }
}

/// The five things that a crash is told to leave.
pub fn each_left(kind: u8) -> Left {
    match kind {
        0 => Left::Before,
        1 => Left::Written,
        2 => Left::Fill(0),
        3 => Left::Fill(1),
        _ => Left::Fill(255),
    }
}
