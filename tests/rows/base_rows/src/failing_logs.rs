//! Logs over disks of which a call fails, and crashes after that.
use crate::logs::{NOTE, are_same, file_of, opened, who};
use stable_record::{Disk, Failing, FaultDisk, Left, Log, LogFault, MemDisk};
use std::alloc::Global;
use std::process::Abort;
use std::test::Fail;

const FIRST: [u8; 3] = [9, 9, 9];

const LEFT: [Left; 5] = [
    Left::Before,
    Left::Written,
    Left::Fill(0),
    Left::Fill(1),
    Left::Fill(255),
];

/// The call that failed in a run that opens a log and appends one note.
#[derive(Clone, Copy, Debug, PartialEq, Eq)]
enum Met {
    Nothing,
    AtOpen,
    AtAppend,
}

/// Opens a file on a disk that fails, and appends a note. Returns the call that failed, and the
/// disk.
fn run(alloc: Global, file: &[u8], failing: Failing) -> Result<(Met, MemDisk), LogFault> {
    let disk = FaultDisk::new(MemDisk::new(alloc, file)?, failing);
    let mut log = match Log::open(alloc, disk, &who()) {
        Ok((log, _notes)) => log,
        Err((LogFault::Device, disk)) => return Ok((Met::AtOpen, disk.into_inner())),
        Err((fault, _disk)) => return Err(fault),
    };
    match log.append(&NOTE) {
        Ok(()) => Ok((Met::Nothing, log.into_disk().into_inner())),
        Err(LogFault::Device) => match log.append(&NOTE) {
            Err(LogFault::MustReopen) => Ok((Met::AtAppend, log.into_disk().into_inner())),
            _ => Err(LogFault::Full),
        },
        Err(fault) => Err(fault),
    }
}

/// Checks that after each crash the notes are as they were, with the new one or without it. Returns
/// the call that failed.
fn crashes(
    rt: &impl Abort,
    alloc: Global,
    file: &[u8],
    before: &[&[u8]],
    failing: Failing,
) -> Result<Met, Fail> {
    for left in LEFT {
        let (met, disk) = run(alloc, file, failing)?;
        let disk = disk.crash(left);
        let (_log, notes) = opened(alloc, disk.bytes())?;
        let is_before = are_same(&notes, before);
        let with_note = notes.len() == before.len() + 1
            && notes
                .last()
                .is_some_and(|note| note.as_slice() == &NOTE[..]);
        match met {
            Met::Nothing => assert!(rt; with_note, "{left:?}"),
            Met::AtOpen => assert!(rt; is_before, "{failing:?} {left:?}"),
            Met::AtAppend => assert!(rt; is_before || with_note, "{failing:?} {left:?}"),
        }
    }
    Ok(run(alloc, file, failing)?.0)
}

/// Counts the calls of a run. Each of them fails once, and, in another run, from there on.
fn calls(rt: &impl Abort, alloc: Global, file: &[u8], before: &[&[u8]]) -> Result<u64, Fail> {
    for call in 1..100 {
        let from = crashes(rt, alloc, file, before, Failing::From(call))?;
        let once = crashes(rt, alloc, file, before, Failing::Once(call))?;
        assert_eq!(rt; from, once);
        if once == Met::Nothing {
            return Ok(call - 1);
        }
    }
    Ok(100)
}

#[test]
fn each_call_may_fail(rt: HostRuntime) -> Result<(), Fail> {
    let alloc = rt.alloc();
    // A log is opened with a sync and a read, and a note takes two writes and two syncs.
    let mut file = file_of(alloc, &[&FIRST])?;
    assert_eq!(rt; calls(&rt, alloc, &file, &[&FIRST])?, 6);
    // Bytes after the closed gate are cut off, followed by a sync.
    file.extend_from_slice(&[1; 30])?;
    assert_eq!(rt; calls(&rt, alloc, &file, &[&FIRST])?, 8);
    // A log is made with a cut, three writes and four syncs.
    assert_eq!(rt; calls(&rt, alloc, &[], &[])?, 14);
    assert_eq!(rt; calls(&rt, alloc, &[0; 20], &[])?, 14);
    Ok(())
}

#[test]
fn what_an_opening_gave_stays(rt: HostRuntime) -> Result<(), Fail> {
    let alloc = rt.alloc();
    let file = file_of(alloc, &[&FIRST])?;
    for call in 3..7 {
        for left in LEFT {
            // The note failed, and there was no crash before the log was opened again.
            let (met, disk) = run(alloc, &file, Failing::Once(call))?;
            assert_eq!(rt; met, Met::AtAppend);
            let Ok((log, given)) = Log::open(alloc, disk, &who()) else {
                return Err(Fail::from(LogFault::NotALog));
            };
            let disk = log.into_disk().crash(left);
            let (_log, notes) = opened(alloc, disk.bytes())?;
            assert!(rt; notes == given);
        }
    }
    Ok(())
}
