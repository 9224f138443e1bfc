//! Texts that are as long as what the known build takes at least, or a byte shorter or longer, and
//! numbers that are written in other ways.
use crate::joining::{Outcome, joined};
use crate::made::{Made, PLAIN, build, text};
use claims::Claim;
use std::alloc::Global;
use std::test::Fail;
use wire::WireFault;

/// Builds of one package.
fn all() -> [Made; 8] {
    [
        Made {
            files: &[],
            ..PLAIN
        },
        Made {
            files: &[0],
            ..PLAIN
        },
        Made {
            files: &[0, 0, 0],
            ..PLAIN
        },
        Made {
            files: &[9, 10],
            ..PLAIN
        },
        Made {
            built: 1,
            files: &[],
            ..PLAIN
        },
        Made {
            run: 1,
            files: &[],
            ..PLAIN
        },
        Made {
            built: 20,
            run: 20,
            files: &[0, 100, 33_000],
            ..PLAIN
        },
        Made {
            built: 400,
            run: 400,
            ..PLAIN
        },
    ]
}

/// The build of the same host, claim and name that has nothing else.
fn least(made: &Made) -> Made {
    Made {
        built: 0,
        run: 0,
        files: &[],
        ..*made
    }
}

/// The text of so many bytes that begins as the build's front does, and goes on as its own text, if
/// that is so long, and then with this byte.
fn of_length(right: &[u8], length: usize, alloc: Global, byte: u8) -> Result<Vec<u8>, Fail> {
    let mut text = right[..right.len().min(length)].to_vec(alloc)?;
    while text.len() < length {
        text.push(byte)?;
    }
    Ok(text)
}

/// How many digits the sizes have besides the first: by so many bytes the build's text is longer
/// than what is asked of a text at least.
fn more_digits(made: &Made) -> usize {
    let mut more = 0;
    for size in made.files {
        let mut left = *size / 10;
        while left > 0 {
            more += 1;
            left /= 10;
        }
    }
    more
}

#[test]
fn about_the_least_length(rt: HostRuntime) -> Result<(), Fail> {
    let alloc = rt.alloc();
    for made in all() {
        let known = build(alloc, &made)?;
        let right = text(alloc, &made)?;
        let front = text(alloc, &least(&made))?;
        let front = &front[..front.len() - 1];
        assert!(rt; right.starts_with(front));
        let bound = right.len() - more_digits(&made);
        for length in [
            bound - 1,
            bound,
            bound + 1,
            right.len() - 1,
            right.len(),
            right.len() + 1,
        ] {
            for begins in [right.as_slice(), front, b"@dpb 1\n".as_slice()] {
                for byte in [b'a', b'\n'] {
                    let text = of_length(begins, length, alloc, byte)?;
                    let outcome = joined(alloc, text.as_slice(), &known)?;
                    let wanted = if text.as_slice() == right.as_slice() {
                        Outcome::Message
                    } else {
                        Outcome::Fault(WireFault::BadField)
                    };
                    assert!(rt; outcome == wanted, "{outcome:?}, {length}, {made:?}");
                }
            }
        }
    }
    Ok(())
}

#[test]
fn a_short_build_beside_a_long_one(rt: HostRuntime) -> Result<(), Fail> {
    let alloc = rt.alloc();
    for made in all() {
        let known = build(alloc, &made)?;
        for other in all() {
            let text = text(alloc, &other)?;
            let outcome = joined(alloc, text.as_slice(), &known)?;
            assert!(rt;
                outcome == Outcome::Message,
                "{outcome:?}, {made:?}, {other:?}"
            );
        }
    }
    Ok(())
}

/// The text with the first line that begins with the word replaced by the word and this.
fn with_line(alloc: Global, right: &[u8], word: &str, line: &str) -> Result<Vec<u8>, Fail> {
    let mut text = Vec::new(alloc);
    let mut is_left = true;
    for part in right.split(|byte| *byte == b'\n') {
        if !text.is_empty() {
            text.push(b'\n')?;
        }
        if is_left && part.starts_with(word.as_bytes()) {
            text.extend_from_slice(word.as_bytes())?;
            text.extend_from_slice(line.as_bytes())?;
            is_left = false;
        } else {
            text.extend_from_slice(part)?;
        }
    }
    Ok(text)
}

/// The first line that is answered otherwise than it says, where it stands in the text of the known
/// build in place of that build's own: with a message if it is good, and else as a bad field.
fn strange_line<'a>(
    alloc: Global,
    made: &Made,
    lines: &[(&'a str, &'a str, bool)],
) -> Result<Option<(&'a str, &'a str)>, Fail> {
    let known = build(alloc, made)?;
    let right = text(alloc, made)?;
    for (word, line, is_good) in lines {
        let text = with_line(alloc, right.as_slice(), word, line)?;
        let wanted = if *is_good {
            Outcome::Message
        } else {
            Outcome::Fault(WireFault::BadField)
        };
        if joined(alloc, text.as_slice(), &known)? != wanted {
            return Ok(Some((*word, *line)));
        }
    }
    Ok(None)
}

#[test]
fn numbers_in_other_ways(rt: HostRuntime) -> Result<(), Fail> {
    let alloc = rt.alloc();
    let made = Made {
        built: 2,
        run: 2,
        ..PLAIN
    };
    let lines = [
        ("@host ", "3", true),
        ("@host ", "65535", true),
        ("@host ", "65536", false),
        ("@host ", "03", false),
        ("@host ", "0000000000000000003", false),
        ("@host ", "00000000000000000003", false),
        ("@host ", "000000000000000000003", false),
        ("@host ", "18446744073709551619", false),
        ("@host ", "18446744073709551615", false),
        ("@host ", "36893488147419103235", false),
        ("@host ", "", false),
        ("@host ", "3 ", false),
        ("@host ", "+3", false),
        ("@claim ", "10.2", true),
        ("@claim ", "010.2", false),
        ("@claim ", "10.02", false),
        ("@claim ", "10", false),
        ("@claim ", "10.", false),
        ("@claim ", ".2", false),
        ("@claim ", "102", false),
        ("@claim ", "10.2.", false),
        ("@claim ", "10,2", false),
        ("@claim ", "0.2", false),
        ("@claim ", "9223372036854775807.8", true),
        ("@claim ", "9223372036854775808.8", false),
        ("@claim ", "18446744073709551626.2", false),
        ("@dpb ", "1", true),
        ("@dpb ", "2", false),
        ("@dpb ", "01", false),
        ("@name ", "b-1.0", true),
        ("@name ", "b-1.0-x", true),
        ("@name ", "", false),
        ("@comment pkgpath=", "a/b", true),
        ("@comment pkgpath=", "a/bc", false),
        ("@comment pkgpath=", "a/b,x", false),
        ("@comment pkgpath=", "a/", false),
    ];
    let strange = strange_line(alloc, &made, &lines)?;
    assert!(rt; strange.is_none(), "{strange:?}");
    Ok(())
}

#[test]
fn numbers_that_are_nothing(rt: HostRuntime) -> Result<(), Fail> {
    let alloc = rt.alloc();
    let made = Made {
        host: 0,
        claim: Claim {
            round: 1,
            member: 0,
        },
        ..PLAIN
    };
    let lines = [
        ("@host ", "0", true),
        ("@host ", "", false),
        ("@host ", "00", false),
        ("@claim ", "1.0", true),
        ("@claim ", "1.", false),
        ("@claim ", "1.00", false),
        ("@claim ", ".0", false),
    ];
    let strange = strange_line(alloc, &made, &lines)?;
    assert!(rt; strange.is_none(), "{strange:?}");
    Ok(())
}
