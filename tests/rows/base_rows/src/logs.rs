//! Logs for tests.
use arrayvec::ArrayVec;
use stable_record::{Disk, Identity, Log, LogFault, MemDisk};
use std::alloc::Global;

/// A note that opens round 1 of the path `a/b`.
pub const NOTE: [u8; 14] = [1, 0, 3, 97, 47, 98, 0, 0, 0, 0, 0, 0, 0, 1];

/// The first of three members with equal weights.
pub fn who() -> Identity {
    let mut weights = ArrayVec::new();
    for _member in 0..3 {
        let _added = weights.try_push(1);
    }
    Identity {
        tree: [7; 32],
        weights,
        me: 0,
    }
}

/// The log in a file in memory, and its notes.
pub fn opened(alloc: Global, file: &[u8]) -> Result<(Log<MemDisk>, Vec<Vec<u8>>), LogFault> {
    let disk = MemDisk::new(alloc, file)?;
    match Log::open(alloc, disk, &who()) {
        Ok(log) => Ok(log),
        Err((fault, _disk)) => Err(fault),
    }
}

/// The file of a new log with these notes.
pub fn file_of(alloc: Global, notes: &[&[u8]]) -> Result<Vec<u8>, LogFault> {
    let (mut log, _none) = opened(alloc, &[])?;
    for note in notes {
        log.append(note)?;
    }
    Ok(log.into_disk().bytes().to_vec(alloc)?)
}

pub fn are_same(notes: &[Vec<u8>], want: &[&[u8]]) -> bool {
    notes.len() == want.len()
        && notes
            .iter()
            .zip(want)
            .all(|(note, bytes)| note.as_slice() == *bytes)
}
