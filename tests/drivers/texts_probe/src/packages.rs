// Lists of packages.
use faults::Memory;
use listing::Tree;
use package_record::Build;
use replay::{Entry, Refusal, audit, list_text, read_list, tree_of_text, verdict_text};
use std::alloc::Global;

// The verdict on copies of the list's entries.
pub fn copies(alloc: Global, listing: &[u8], list: &[u8]) -> Result<Vec<u8>, Refusal> {
    let tree = tree_of_text(alloc, listing, false)?;
    judged(alloc, &tree, list)
}

fn judged(alloc: Global, tree: &Tree, list: &[u8]) -> Result<Vec<u8>, Refusal> {
    let entries = read_list(alloc, list)?;
    let copies = copied(alloc, entries.as_slice());
    drop(entries);
    let copies = copies?;
    let verdict = audit(alloc, tree, copies.as_slice());
    drop(copies);
    let text = verdict_text(alloc, verdict?)?;
    Ok(text.into_bytes())
}

fn copied(alloc: Global, entries: &[Entry]) -> Result<Vec<Entry>, Memory> {
    let mut copies = Vec::new(alloc);
    for entry in entries {
        copies.push(entry.copy()?)?;
    }
    Ok(copies)
}

// The list of the packages of the build that the text is, or nothing where it is none.
pub fn build_list(alloc: Global, text: &[u8]) -> Result<Vec<u8>, Refusal> {
    match Build::parse(alloc, text) {
        Ok(build) => Ok(list_text(alloc, build.packages())?),
        Err(_) => Ok(Vec::new(alloc)),
    }
}
