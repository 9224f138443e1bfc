//! Starts of members of one run, in a folder of its own.
use arrayvec::ArrayVec;
use faults::Fault;
use run_file::{
    LogFound, RunFault, Start, StartFault, SupposedEmpty, SystemFolder, found_in, is_blank, judge, read_run, start_on, test_folder,
    test_folder_mode, write_run,
};
use stable_record::{Identity, Log, MemDisk};
use std::fs;
use std::test::Fail;

/// The fingerprint of a key.
const KEY: [u8; 16] = [0x0f; 16];

/// The text for member 1.
const TEXT: &str = "dpbn run 1\n\
    listing 0909090909090909090909090909090909090909090909090909090909090909\n\
    weights 3,1,100\n\
    member 1\n\
    key 0f0f0f0f0f0f0f0f0f0f0f0f0f0f0f0f\n";

/// A member of the run, in which the last member has this weight.
fn member(me: u8, last: u8) -> Identity {
    let mut weights = ArrayVec::new();
    weights.push(3);
    weights.push(1);
    weights.push(last);
    Identity {
        tree: [9; 32],
        weights,
        me,
    }
}

/// The folder in which each test runs.
fn here(rt: &HostRuntime) -> SystemFolder<'_, SupposedEmpty> {
    SystemFolder::at(rt, ".")
}

/// The refusal of a start of member 1, as its number and place.
fn refusal(rt: &HostRuntime, last: u8, key: Option<&[u8; 16]>) -> Option<(u32, Option<u64>)> {
    match start_on(rt.alloc(), &here(rt), &member(1, last), key, false) {
        Ok(_) => None,
        Err(fault) => Some((fault.number(), fault.place())),
    }
}

#[test]
fn starts_on_a_log(rt: HostRuntime) -> Result<(), Fail> {
    let own = member(1, 100);
    let missed = start_on(rt.alloc(), &here(&rt), &own, Some(&KEY), true).err();
    assert!(rt; missed == Some(StartFault::Run(RunFault::NothingThere)));
    let Start { disk, unwritten } = start_on(rt.alloc(), &here(&rt), &own, Some(&KEY), false)?;
    assert!(rt; refusal(&rt, 100, Some(&KEY)) == Some((2, None)));
    let opened = Log::open(rt.alloc(), disk, &own);
    assert!(rt; opened.is_ok());
    drop(opened);
    let text = unwritten.ok_or("no text")?;
    assert_eq!(rt; text.as_str(), TEXT);
    write_run(&rt, ".", 1, text.as_bytes())?;
    let read = read_run(&rt, ".", 1)?.ok_or("no run file")?;
    assert!(rt; read.as_slice() == TEXT.as_bytes());
    let Start { disk, unwritten } = start_on(rt.alloc(), &here(&rt), &own, Some(&KEY), true)?;
    assert!(rt; unwritten.is_none());
    drop(disk);
    assert!(rt; refusal(&rt, 1, Some(&KEY)) == Some((1006, Some(3))));
    assert!(rt; refusal(&rt, 100, None) == Some((1006, Some(5))));
    fs::write(&rt, "node-1.log", [0u8; 40].as_slice())?;
    assert!(rt; refusal(&rt, 100, Some(&KEY)) == Some((1007, None)));
    fs::remove_file(&rt, "node-1.log")?;
    assert!(rt; refusal(&rt, 100, Some(&KEY)) == Some((1007, None)));
    fs::write(&rt, "node-1.log", [1u8; 90].as_slice())?;
    fs::remove_file(&rt, "node-1.run")?;
    assert!(rt; refusal(&rt, 100, Some(&KEY)) == Some((1006, Some(0))));
    fs::remove_file(&rt, "node-1.log")?;
    Ok(())
}

#[test]
fn who_may_write(rt: HostRuntime) -> Result<(), Fail> {
    for (mode, wanted) in [(0o40_755, Ok(())), (0o40_700, Ok(())), (0o40_775, Err(StartFault::Shared)), (0o41_777, Err(StartFault::Shared))] {
        assert!(rt; test_folder_mode(mode) == wanted);
    }
    assert!(rt; test_folder(&rt, ".") == Ok(()));
    assert!(rt; test_folder(&rt, "nothing") == Err(StartFault::Files));
    Ok(())
}

#[test]
fn what_a_log_is(rt: HostRuntime) -> Result<(), Fail> {
    let own = member(0, 1);
    let mut disk = MemDisk::new(rt.alloc(), &[])?;
    assert!(rt; is_blank(&mut disk, &own) == Ok(true));
    let Ok((log, _notes)) = Log::open(rt.alloc(), disk, &own) else {
        return Err(Fail::from("no log"));
    };
    let mut disk = log.into_disk();
    assert!(rt; found_in(&mut disk, &own) == Ok(LogFound::Fresh));
    let Ok((mut log, _notes)) = Log::open(rt.alloc(), disk, &own) else {
        return Err(Fail::from("no log"));
    };
    log.append(b"note")?;
    let mut disk = log.into_disk();
    assert!(rt; found_in(&mut disk, &own) == Ok(LogFound::Noted));
    let judged = judge(None, b"x", LogFound::Noted, true, true);
    assert!(rt; judged == Err(RunFault::Differs(0)));
    Ok(())
}
