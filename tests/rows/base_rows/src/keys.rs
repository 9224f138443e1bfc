//! Keys in files in a folder of their own.
ghost use Rattle.std.specs.Prelude.{⊤};

use dpbn_key::{KeyFault, KeyFile, KeyFiles, SystemKeys, key_in, key_of_file, make_key, new_key_text, test_mode};
use faults::Fault;
use std::alloc::Global;
use std::fs::{File, OpenOptions};
use std::os::unix::fs::{MetadataExt, OpenOptionsExt};
use std::random::RandomSource;
use std::test::Fail;
use std::{fs, io};

/// A source that gives the same byte again and again.
#[derive(Drop)]
struct Same(u8);

impl RandomSource for Same {
    fn fill_bytes(&self, buf: &mut [u8]) -> io::Result<()> {
        buf.fill(self.0);
        Ok(())
    }
}

#[test]
fn a_new_key(rt: HostRuntime) -> Result<(), Fail> {
    let made = make_key(&rt, "key");
    assert!(rt; made.is_ok());
    let text = fs::read(&rt, "key")?;
    let mode = File::open(&rt, "key")?.metadata()?.mode();
    assert_eq!(rt; mode & 0o777, 0o600);
    assert!(rt; key_of_file(&SystemKeys::of(&rt), "key").is_ok());
    let again = make_key(&rt, "key");
    assert!(rt; again.is_err());
    let kept = fs::read(&rt, "key")?;
    assert!(rt; kept.as_slice() == text.as_slice());
    assert!(rt; make_key(&rt, "other").is_ok());
    let other = fs::read(&rt, "other")?;
    assert!(rt; other.as_slice() != text.as_slice());
    fs::remove_file(&rt, "key")?;
    fs::remove_file(&rt, "other")?;
    Ok(())
}

#[test]
fn what_is_no_key(rt: HostRuntime) -> Result<(), Fail> {
    let text = new_key_text(&Same(0xab))?;
    let (_end, short) = text.split_last().ok_or("no text")?;
    assert!(rt; key_in(&text) == Ok([0xab; 32]));
    assert!(rt; key_in(short) == Err(KeyFault::NoKey));
    assert!(rt; test_mode(0o100_600) == Ok(()));
    assert!(rt; test_mode(0o100_640) == Err(KeyFault::Exposed));
    assert!(rt; key_of_file(&SystemKeys::of(&rt), "nothing") == Err(KeyFault::Files));
    let exposed = file_refusal(&rt, "exposed", 0o644, &text)?;
    assert_eq!(rt; exposed, 1208);
    let number = file_refusal(&rt, "short", 0o600, short)?;
    assert_eq!(rt; number, 1207);
    Ok(())
}

/// The number of the refusal of a file with this mode and text, or 0 if it is accepted.
fn file_refusal(rt: &HostRuntime, path: &str, mode: u32, text: &[u8]) -> Result<u32, Fail> {
    let mut options = OpenOptions::new();
    options.write(true).create_new(true).mode(mode);
    let mut file = options.open(rt, path)?;
    io::Write::write_all(&mut file, text)?;
    let read = key_of_file(&SystemKeys::of(rt), path);
    fs::remove_file(rt, path)?;
    match read {
        Ok(_) => Ok(0),
        Err(fault) => Ok(fault.number()),
    }
}

/// Files that all have this mode and the same text, of a key of such bytes.
#[derive(Drop)]
struct Alike {
    mode: u32,
    byte: u8,
    alloc: Global,
}

impl KeyFiles for Alike {
    ghost gave = { λ _ _ _ _. ⊤ };

    fn read(&self, _name: &str) -> Result<KeyFile, KeyFault> {
        let mut text = Vec::new(self.alloc);
        if text.extend_from_slice(&new_key_text(&Same(self.byte))?).is_err() {
            return Err(KeyFault::Memory);
        }
        Ok(KeyFile { mode: self.mode, text })
    }
}

#[test]
fn a_key_is_what_a_read_gives(rt: HostRuntime) -> Result<(), Fail> {
    let alloc = rt.alloc();
    for (mode, byte, wanted) in [(0o600, 7, Ok([7; 32])), (0o400, 9, Ok([9; 32])), (0o640, 7, Err(KeyFault::Exposed))] {
        assert!(rt; key_of_file(&Alike { mode, byte, alloc }, "any") == wanted);
    }
    Ok(())
}
