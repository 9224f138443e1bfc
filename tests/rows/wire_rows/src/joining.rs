//! A text that is joined twice: with a build that is known, and without one.
use crate::made::UNIT;
use ballots::Message;
use faults::Memory;
use package_record::Build;
use pkgpath::PkgPath;
use std::alloc::Global;
use std::test::Fail;
use wire::{Bytes, Carrier, Header, PIECE_SIZE, Piece, WireFault, encode, join, join_known, split};

/// What both make of a text.
#[derive(Clone, Copy, Debug, PartialEq, Eq)]
pub enum Outcome {
    /// The same message.
    Message,
    /// The same fault.
    Fault(WireFault),
    /// Not the same.
    Differ,
}

fn header(alloc: Global, length: usize) -> Result<Header, Fail> {
    Ok(Header {
        sender: 1,
        tree: [7; 32],
        path: PkgPath::parse(alloc, UNIT.as_bytes())?,
        carrier: Carrier::Agreed,
        length: length as u32,
    })
}

fn pieces(alloc: Global, header: &Header, text: &[u8]) -> Result<Vec<Piece>, Memory> {
    let mut pieces = Vec::new(alloc);
    let mut rest = text;
    for number in 0..128 {
        let (front, behind) = rest.split_at(rest.len().min(PIECE_SIZE));
        if front.is_empty() {
            break;
        }
        pieces.push(Piece {
            header: header.copy()?,
            number,
            bytes: Bytes::new(front.to_vec(alloc)?),
        })?;
        rest = behind;
    }
    Ok(pieces)
}

/// The bytes of the message's datagrams, which say all that it says.
fn told(alloc: Global, message: Message) -> Result<Vec<u8>, Memory> {
    let mut told = Vec::new(alloc);
    for datagram in split(alloc, message)? {
        encode(&datagram, &mut told)?;
    }
    Ok(told)
}

/// What both make of the text, of a message about the unit, where this build is known.
pub fn joined(alloc: Global, text: &[u8], known: &Build) -> Result<Outcome, Fail> {
    let header = header(alloc, text.len())?;
    let pieces = pieces(alloc, &header, text)?;
    let read = join(alloc, header.copy()?, pieces.as_slice());
    let compared = join_known(alloc, header, pieces.as_slice(), Some(known));
    match (read, compared) {
        (Ok(one), Ok(other)) => {
            let one = told(alloc, one)?;
            let other = told(alloc, other)?;
            if one.as_slice() == other.as_slice() {
                Ok(Outcome::Message)
            } else {
                Ok(Outcome::Differ)
            }
        }
        (Err(one), Err(other)) if one == other => Ok(Outcome::Fault(one)),
        _ => Ok(Outcome::Differ),
    }
}
