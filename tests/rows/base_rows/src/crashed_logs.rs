//! Writes to a disk in memory, and what a crash leaves of a note.
use crate::logs::{NOTE, file_of, opened, who};
use stable_record::{Disk, DiskFault, Failing, FaultDisk, Left, Log, LogFault, MemDisk};
use std::alloc::Global;
use std::test::Fail;

#[test]
fn a_write_of_nothing_does_nothing(rt: HostRuntime) -> Result<(), Fail> {
    let mut disk = MemDisk::new(rt.alloc(), &[5; 3])?;
    disk.write_at(10, &[])?;
    disk.write_at(u64::MAX, &[])?;
    assert!(rt; disk.bytes() == [5; 3].as_slice());
    // No file in memory can be that long.
    assert_eq!(rt; disk.write_at(u64::MAX, &[1]), Err(DiskFault::Memory));
    assert!(rt; disk.bytes() == [5; 3].as_slice());
    disk.write_at(5, &[1])?;
    assert!(rt; disk.bytes() == [5, 5, 5, 0, 0, 1].as_slice());
    Ok(())
}

/// A note whose last sync fails, and what is left of it.
fn torn(alloc: Global, left: Left) -> Result<(usize, usize), LogFault> {
    let disk = MemDisk::new(alloc, &file_of(alloc, &[])?)?;
    // Opening syncs once and reads once. So the fourth call of the note is the sixth.
    let Ok((mut log, _none)) = Log::open(alloc, FaultDisk::new(disk, Failing::Once(6)), &who())
    else {
        return Err(LogFault::NotALog);
    };
    if log.append(&NOTE) != Err(LogFault::Device)
        || log.append(&NOTE) != Err(LogFault::MustReopen)
    {
        return Err(LogFault::MustReopen);
    }
    let disk = log.into_disk().into_inner().crash(left);
    let (log, notes) = opened(alloc, disk.bytes())?;
    Ok((notes.len(), log.into_disk().bytes().len()))
}

#[test]
fn a_crash_leaves_the_note_or_not(rt: HostRuntime) -> Result<(), Fail> {
    let alloc = rt.alloc();
    assert_eq!(rt; torn(alloc, Left::Before)?, (0, 44));
    assert_eq!(rt; torn(alloc, Left::Fill(0))?, (0, 44));
    assert_eq!(rt; torn(alloc, Left::Fill(255))?, (0, 44));
    assert_eq!(rt; torn(alloc, Left::Fill(1))?, (1, 63));
    assert_eq!(rt; torn(alloc, Left::Written)?, (1, 63));
    Ok(())
}
