//! What files open to as a node's log, and what its log does where bytes of it are gone, or 0.
use crate::nodes::network::Network;
use crate::nodes::opening::put_unopened;
use crate::nodes::stepping::log_len;
use crate::text::Text;
use stable_record::MemDisk;

/// Tells what the log opens to where it is cut to each length, behind the first length that answers
/// so.
pub fn put_cuts(network: &mut Network<'_>, at: usize, out: &mut Text) {
    let log = log_of(network, at, out);
    let mut last = Text::new(out.alloc());
    for len in 0..log.len() {
        last = put_next(network, at, &log[..len], len, last, out);
    }
    let _last = put_next(network, at, log.as_slice(), log.len(), last, out);
}

/// Tells what it opens to where the byte at each place is 0, behind the first place that has it.
pub fn put_zeros(network: &mut Network<'_>, at: usize, out: &mut Text) {
    let mut log = log_of(network, at, out);
    let mut last = Text::new(out.alloc());
    for place in 0..log.len() {
        let was = log[place];
        log[place] = 0;
        last = put_next(network, at, log.as_slice(), place, last, out);
        log[place] = was;
    }
}

/// Tells behind the place what these bytes open to, where it differs from the last answer, which is
/// empty before the first one. Gives this answer.
fn put_next(
    network: &mut Network<'_>,
    at: usize,
    bytes: &[u8],
    place: usize,
    last: Text,
    out: &mut Text,
) -> Text {
    let mut next = Text::new(out.alloc());
    put_opened(network, at, bytes, &mut next);
    if next.as_bytes() != last.as_bytes() {
        out.put_number(" ", place as u64);
        out.put(": ");
        out.put_bytes(next.as_bytes());
        out.put(",");
    }
    if next.is_lost() {
        out.lose();
    }
    next
}

/// The bytes of the node's log; none of no node. The node is opened again.
pub fn log_of(network: &mut Network<'_>, at: usize, out: &mut Text) -> Vec<u8> {
    let mut log = Vec::new(out.alloc());
    if let Some(disk) = network.taken_off(at) {
        if log.extend_from_slice(disk.bytes()).is_err() {
            out.lose();
        }
        network.open(at, disk, out);
    }
    log
}

/// Tells the length of the log that a file with these bytes opens to, or the number of the refusal.
pub fn put_opened(network: &mut Network<'_>, at: usize, bytes: &[u8], out: &mut Text) {
    let Ok(disk) = MemDisk::new(out.alloc(), bytes) else {
        return out.lose();
    };
    match (network.open_spare(at, disk), &network.spare) {
        (Ok(()), Some(node)) => out.put_number("", log_len(node)),
        (Ok(()), None) => {}
        (Err(unopened), _) => put_unopened(unopened, out),
    }
}
