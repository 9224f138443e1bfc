// Answers of a tree that was read before.
use replay::{Refusal, run_of_trace, tree_of_text};
use std::alloc::Global;

pub fn trace(alloc: Global, listing: &[u8], trace: &[u8]) -> Result<Vec<u8>, Refusal> {
    let tree = tree_of_text(alloc, listing, false)?;
    run_of_trace(alloc, &tree, trace)
}
