//! What the driver `probes` answers to the files text0, text1 and so on, each after a line with the
//! file's name. Each line ends with a dot, since blanks at its end aren't shown.
use crate::asking::{hear, tell};
use std::fs;
use std::io::{BufRead, Write};
use std::test::Fail;

/// What the lines of a file are answered; nothing if it can't be had.
fn answered(rt: &HostRuntime, text: &[u8]) -> Result<Option<Vec<u8>>, Fail> {
    let mut topic = None;
    let mut row = Vec::new(rt.alloc());
    let mut out = Vec::new(rt.alloc());
    for line in text.lines(rt.alloc()) {
        if !hear(rt, &mut topic, &mut row, line?, &mut out)? {
            return Ok(None);
        }
    }
    let is_told = tell(rt, topic, &mut row, &mut out)?;
    Ok(if is_told { Some(out) } else { None })
}

/// Prints a line of a name or an answer.
fn print(rt: &HostRuntime, front: &str, line: &str) -> Result<(), Fail> {
    let text = format!(in rt.alloc(); "{front}{line}.\n")?;
    rt.stdout().write_all(text.as_bytes())?;
    Ok(())
}

#[test]
fn answers_files(rt: HostRuntime) -> Result<(), Fail> {
    for number in 0..100u32 {
        let name = format!(in rt.alloc(); "text{number}")?;
        if let Ok(text) = fs::read(&rt, name.as_str()) {
            print(&rt, "== ", name.as_str())?;
            let out = answered(&rt, text.as_slice())?;
            assert!(rt; out.is_some());
            let answers = out.unwrap_or(Vec::new(rt.alloc()));
            for line in answers.as_slice().lines(rt.alloc()) {
                print(&rt, "", line?.as_str())?;
            }
        }
    }
    Ok(())
}
