//! Builds that go out in pieces, and what these join to.
ghost use Rattle.std.specs.Prelude.{◌≡◌, All, IfOk};
ghost use Rattle.pkgpath.specs.PkgPath.{IsPath};
ghost use Rattle.wire.specs.Messages.{IsMessage};
ghost use Rattle.wire.specs.Pieces.{IsDatagram};

use crate::packages::{CLAIM, build_of};
use crate::records::build_text;
use crate::text::Text;
use ballots::{Body, Message};
use faults::Memory;
use package_record::Build;
use pkgpath::PkgPath;
use std::alloc::Global;
use wire::{Datagram, Piece, WireFault, decode, encode, join, split};

/// A file of so many bytes makes a build of 4 MiB.
const BYTES: usize = 4_194_158;

/// What member 0 proposes, or says that it is agreed.
fn message(build: Build, is_proposed: bool) -> Result<Message, Memory>
    ensures { IfOk result IsMessage }
{
    let path = copied(build.unit_path())?;
    let body = if is_proposed {
        Body::Propose(CLAIM, build)
    } else {
        Body::Agreed(build)
    };
    Ok(Message {
        sender: 0,
        tree: [7; 32],
        path,
        body,
    })
}

/// An equal path.
fn copied(path: &PkgPath) -> Result<PkgPath, Memory>
    ensures same { IfOk result (λ copy. copy ≡ path.now) }
    ensures canonical { IfOk result IsPath }
{
    let copy = path.copy()?;
    if copy.as_bytes() == path.as_bytes() {
        Ok(copy)
    } else {
        Err(Memory)
    }
}

fn in_datagrams(alloc: Global, message: Message) -> Result<Vec<Datagram>, Memory>
    requires { IsMessage message }
    ensures { IfOk result (λ datagrams. All IsDatagram datagrams.items) }
{
    let datagrams = split(alloc, message)?;
    Ok(datagrams)
}

/// The lengths of the datagrams in which a build with a file of so many bytes goes out, and whether
/// they join to it.
pub fn sent(is_proposed: bool, bytes: usize, out: &mut Text) {
    match build_of(out.alloc(), bytes) {
        Ok(build) => {
            let text = build_text(&build, out);
            match message(build, is_proposed) {
                Ok(message) => split_so(message, text.as_slice(), out),
                Err(Memory) => out.lose(),
            }
        }
        Err(_) => out.put("no build"),
    }
}

fn split_so(message: Message, text: &[u8], out: &mut Text)
    requires { IsMessage message }
{
    match in_datagrams(out.alloc(), message) {
        Ok(datagrams) => {
            put_lengths(datagrams.as_slice(), out);
            put_joined(datagrams, text, out);
        }
        Err(Memory) => out.lose(),
    }
}

fn put_lengths(datagrams: &[Datagram], out: &mut Text)
    requires { All IsDatagram datagrams.now }
{
    let mut text = Vec::new(out.alloc());
    out.put("of");
    for datagram in datagrams {
        text.clear();
        if encode(datagram, &mut text).is_err() {
            out.lose();
        }
        out.put_number(" ", text.len() as u64);
    }
}

/// Whether the datagrams' pieces make a message that carries the build with this text.
fn put_joined(datagrams: Vec<Datagram>, text: &[u8], out: &mut Text) {
    match joined(out.alloc(), datagrams) {
        Ok(message) => {
            let own = match &message.body {
                Body::Propose(_, build) | Body::Agreed(build) => build_text(build, out),
                _ => Vec::new(out.alloc()),
            };
            if own.as_slice() == text {
                out.put(" joined");
            }
        }
        Err(_) => {}
    }
}

fn joined(alloc: Global, datagrams: Vec<Datagram>) -> Result<Message, WireFault> {
    let pieces = from_the_last(alloc, datagrams)?;
    message_of(alloc, pieces.as_slice())
}

/// The pieces, the last one first.
fn from_the_last(alloc: Global, datagrams: Vec<Datagram>) -> Result<Vec<Piece>, Memory> {
    let mut left = datagrams;
    let mut pieces = Vec::new(alloc);
    for _ in 0..left.len() {
        if let Some(Datagram::Piece(piece)) = left.pop() {
            pieces.push(piece)?;
        }
    }
    Ok(pieces)
}

fn message_of(alloc: Global, pieces: &[Piece]) -> Result<Message, WireFault> {
    let Some(first) = pieces.first() else {
        return Err(WireFault::Truncated);
    };
    let header = first.header.copy()?;
    join(alloc, header, pieces)
}

/// Whether a build of 4 MiB passes up to the stage.
pub fn passes(alloc: Global, stage: &str) -> bool {
    let Ok(build) = build_of(alloc, BYTES) else {
        return false;
    };
    match message(build, true) {
        Ok(message) if stage == "make" => {
            drop(message);
            true
        }
        Ok(message) => passes_on(alloc, message, stage),
        Err(Memory) => false,
    }
}

fn passes_on(alloc: Global, message: Message, stage: &str) -> bool
    requires { IsMessage message }
{
    match (in_datagrams(alloc, message), stage) {
        (Ok(_), "split") => true,
        (Ok(datagrams), "join") => joined(alloc, datagrams).is_ok(),
        (Ok(datagrams), _) => are_written(alloc, datagrams.as_slice(), stage == "decode"),
        (Err(Memory), _) => false,
    }
}

/// Whether the datagrams are written, and read again where that is asked.
fn are_written(alloc: Global, datagrams: &[Datagram], are_read: bool) -> bool
    requires { All IsDatagram datagrams.now }
{
    let mut out = Vec::new(alloc);
    for datagram in datagrams {
        out.clear();
        if encode(datagram, &mut out).is_err()
            || are_read && decode(alloc, out.as_slice()).is_err()
        {
            return false;
        }
    }
    true
}
