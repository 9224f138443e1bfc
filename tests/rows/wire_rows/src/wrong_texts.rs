//! Texts that differ from that of the known build in one place, or end in another.
use crate::joining::{Outcome, joined};
use crate::made::{Made, PLAIN, build, text};
use std::alloc::Global;
use std::test::Fail;
use wire::WireFault;

/// Builds whose texts are changed: with each kind of line, and of one package or two.
fn all() -> [Made; 5] {
    [
        PLAIN,
        Made {
            files: &[0],
            ..PLAIN
        },
        Made {
            built: 2,
            run: 2,
            files: &[9, 0, 10],
            ..PLAIN
        },
        Made {
            run: 3,
            files: &[],
            ..PLAIN
        },
        Made {
            paths: &["a/b,-docs", "a/b,-main"],
            built: 1,
            run: 1,
            files: &[2],
            ..PLAIN
        },
    ]
}

/// How many of these texts both make the same message of; the others are the same fault.
fn messages(alloc: Global, made: &Made, texts: &[Vec<u8>]) -> Result<usize, Fail> {
    let known = build(alloc, made)?;
    let mut messages = 0;
    for text in texts {
        match joined(alloc, text.as_slice(), &known)? {
            Outcome::Message => messages += 1,
            Outcome::Fault(WireFault::BadField) => {}
            _ => return Err(Fail::from("no message, and no bad field")),
        }
    }
    Ok(messages)
}

/// The texts with the byte at one place replaced by each of these.
fn changed(alloc: Global, text: &[u8], bytes: &[u8]) -> Result<Vec<Vec<u8>>, Fail> {
    let mut texts = Vec::new(alloc);
    for place in 0..text.len() {
        for byte in bytes {
            let mut other = text.to_vec(alloc)?;
            other[place] = *byte;
            texts.push(other)?;
        }
    }
    Ok(texts)
}

#[test]
fn one_byte_is_another(rt: HostRuntime) -> Result<(), Fail> {
    let alloc = rt.alloc();
    for made in all() {
        let right = text(alloc, &made)?;
        let texts = changed(alloc, right.as_slice(), b"\n 0a@")?;
        let messages = messages(alloc, &made, texts.as_slice())?;

        // Where the byte that stands there is put there, it is the same text; and other names and
        // hosts are as good.
        let same = texts
            .iter()
            .filter(|text| text.as_slice() == right.as_slice())
            .count();
        assert!(rt;
            same > 0 && messages > same && messages < texts.len(),
            "{messages}, {made:?}"
        );
    }
    Ok(())
}

#[test]
fn the_end_is_another(rt: HostRuntime) -> Result<(), Fail> {
    let alloc = rt.alloc();
    for made in all() {
        let right = text(alloc, &made)?;
        let mut texts = Vec::new(alloc);
        for length in 0..right.len() {
            texts.push(right[..length].to_vec(alloc)?)?;
        }
        for tail in ["a", "\n", "\n\n", "@dpb 1\n"] {
            let mut other = right.clone()?;
            other.extend_from_slice(tail.as_bytes())?;
            texts.push(other)?;
        }
        let mut twice = right.clone()?;
        twice.extend_from_slice(right.as_slice())?;
        texts.push(twice)?;
        assert!(rt; messages(alloc, &made, texts.as_slice())? == 0, "{made:?}");
        texts.push(right)?;
        assert!(rt; messages(alloc, &made, texts.as_slice())? == 1, "{made:?}");
    }
    Ok(())
}
