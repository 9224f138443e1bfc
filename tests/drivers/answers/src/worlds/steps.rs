//! What each event of a trace notes and sends, and what is agreed by it.
use crate::text::Text;
use crate::worlds::refusal;
use protocol::Event;
use simulator::World;

/// Puts an item for each event.
pub fn put_steps(world: &mut World<'_>, events: &[Event], out: &mut Text) {
    for event in events {
        let before = Sizes::of(world);
        match refusal(world, event, out) {
            0 => put_taken(world, before, out),
            number => out.put_number("!", u64::from(number)),
        }
        out.put(" ");
    }
}

/// What there was of a world before an event.
#[derive(Clone, Copy)]
struct Sizes {
    noted: u64,
    sent: usize,
    agreed: usize,
}

impl Sizes {
    fn of(world: &World<'_>) -> Sizes {
        Sizes {
            noted: noted(world),
            sent: world.datagrams().len(),
            agreed: world.agreed().len(),
        }
    }
}

/// How many bytes the logs have together. An event makes that of its node longer, or none.
fn noted(world: &World<'_>) -> u64 {
    let mut noted: u64 = 0;
    for node in 0..world.len() {
        noted = noted.saturating_add(world.log_len(node));
    }
    noted
}

/// Puts a point, a star for a note, and the kind of the message that each new datagram is, or is a
/// piece of, and each path that is new in the list.
fn put_taken(world: &World<'_>, before: Sizes, out: &mut Text) {
    out.put(if noted(world) > before.noted {
        ".*"
    } else {
        "."
    });
    for place in before.sent..world.datagrams().len() {
        if let Some(datagram) = world.datagrams().get_index(place) {
            put_kind(datagram.as_bytes(), out);
        }
    }
    for place in before.agreed..world.agreed().len() {
        if let Some(package) = world.agreed().get(place) {
            out.put("=");
            out.put_bytes(package.path().as_bytes());
        }
    }
}

fn put_kind(datagram: &[u8], out: &mut Text) {
    match datagram {
        [_, _, _, _, kind, ..] => out.put_number("", u64::from(*kind)),
        _ => out.put("0"),
    }
}
