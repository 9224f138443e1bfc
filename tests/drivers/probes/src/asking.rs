//! Lines that ask, one after the other.
use answers::Text;
use crate::topic::{Topic, answer, goes_on, named};
use std::io;
use std::io::Write;

/// Takes a line, and prints what it, or the row that ends with it, is answered; false if that can't
/// be had.
pub fn hear<W: Write>(
    rt: &HostRuntime,
    topic: &mut Option<Topic>,
    row: &mut Vec<String>,
    line: String,
    to: &mut W,
) -> io::Result<bool> {
    let next = named(line.as_str());
    if next.is_some() || goes_on(*topic) && line.is_empty() {
        let is_told = tell(rt, *topic, row, to)?;
        *topic = next.or(*topic);
        return Ok(is_told);
    }
    row.push(line)?;
    if goes_on(*topic) {
        Ok(true)
    } else {
        tell(rt, *topic, row, to)
    }
}

/// Prints what the row is answered, and begins the next one.
pub fn tell<W: Write>(
    rt: &HostRuntime,
    topic: Option<Topic>,
    row: &mut Vec<String>,
    to: &mut W,
) -> io::Result<bool> {
    if row.is_empty() {
        return Ok(true);
    }
    let mut out = Text::new(rt.alloc());
    answer(topic, row.as_slice(), &mut out);
    row.clear();
    if out.is_lost() {
        return Ok(false);
    }
    to.write_all(out.as_bytes())?;
    if out.again() > 0 {
        eprintln!(rt; "{} again", out.again())?;
    }
    Ok(true)
}
