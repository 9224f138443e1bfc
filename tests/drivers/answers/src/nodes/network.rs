//! Nodes, and what they were asked.
use crate::nodes::opening::{Unopened, disk_in, open, sound};
use crate::nodes::past::Past;
use crate::nodes::stepping::{Answer, Asked, answered, log_len};
use crate::text::Text;
use ballots::Weights;
use listing::Tree;
use node::Node;
use stable_record::{FaultDisk, MemDisk};
use std::alloc::Global;

/// Nodes by number, and what they were asked.
#[derive(Drop)]
pub struct Network<'a> {
    pub tree: &'a Tree,
    pub weights: Weights,
    /// None of one that was not opened.
    pub nodes: Vec<Option<Node<'a, FaultDisk>>>,
    /// The node that was last opened for a trial.
    pub spare: Option<Node<'a, FaultDisk>>,
    pub past: Past,
    pub alloc: Global,
}

impl<'a> Network<'a> {
    /// Nodes that are to be opened yet.
    pub fn new(alloc: Global, tree: &'a Tree, weights: Weights) -> Network<'a> {
        Network {
            tree,
            weights,
            nodes: Vec::new(alloc),
            spare: None,
            past: Past::new(alloc),
            alloc,
        }
    }

    /// Opens each node over an empty disk.
    pub fn open_all(&mut self, out: &mut Text) {
        for at in 0..self.weights.len() {
            let disk = MemDisk::new(self.alloc, &[]);
            match (self.nodes.push(None), disk) {
                (Ok(()), Ok(disk)) => self.open(at, disk, out),
                _ => out.lose(),
            }
        }
    }

    /// Opens the node with this number over the disk, which never fails. Where that is refused
    /// there is no node.
    pub fn open(&mut self, at: usize, disk: MemDisk, out: &mut Text) {
        let opened = match self.nodes.get_mut(at) {
            Some(place) => {
                let disk = sound(disk);
                open(place, self.alloc, self.tree, &self.weights, at, disk)
            }
            None => Ok(()),
        };
        if let Err((1, _)) = opened {
            out.lose();
        }
    }

    /// Opens a node with this number over the disk, which never fails, for a trial.
    pub fn open_spare(&mut self, at: usize, disk: MemDisk) -> Result<(), Unopened> {
        let disk = sound(disk);
        open(
            &mut self.spare,
            self.alloc,
            self.tree,
            &self.weights,
            at,
            disk,
        )
    }

    /// The disk of the node, which is no more.
    pub fn taken_off(&mut self, at: usize) -> Option<MemDisk> {
        disk_in(self.nodes.get_mut(at)?)
    }

    /// Tells what the node answers when it is asked this. A step that it takes is kept.
    pub fn give(&mut self, at: usize, asked: Asked, out: &mut Text) {
        match self.step(at, &asked, out) {
            Some((answer, lengths)) => self.past.enter(at, asked, answer, lengths, out),
            None => out.put("no node"),
        }
    }

    /// What the node answers, and the length of its log before the step and after it.
    fn step(&mut self, at: usize, asked: &Asked, out: &mut Text) -> Option<(Answer, (u64, u64))> {
        match self.nodes.get_mut(at) {
            Some(Some(node)) => {
                let before = log_len(node);
                let answer = answered(node, asked, out);
                Some((answer, (before, log_len(node))))
            }
            _ => None,
        }
    }
}
