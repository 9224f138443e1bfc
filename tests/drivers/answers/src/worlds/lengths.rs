//! What events are refused with, and the lengths and the list to which they lead.
use crate::records::put_digest;
use crate::text::Text;
use crate::worlds::refusal;
use protocol::Event;
use simulator::World;

pub fn put_lengths(world: &mut World<'_>, events: &[Event], out: &mut Text) {
    for event in events {
        let number = refusal(world, event, out);
        if number > 0 {
            out.put_number("", u64::from(number));
            out.put(" ");
        }
    }
    put_logs(world, out);
    put_agreed(world, out);
}

fn put_logs(world: &World<'_>, out: &mut Text) {
    out.put("logs");
    for node in 0..world.len() {
        out.put_number(" ", world.log_len(node));
    }
    out.put(" datagrams");
    for datagram in world.datagrams() {
        out.put_number(" ", datagram.as_bytes().len() as u64);
    }
}

/// How many packages there are, and the digest of each.
fn put_agreed(world: &World<'_>, out: &mut Text) {
    out.put_number(" agreed ", world.agreed().len() as u64);
    for record in world.agreed() {
        out.put(" ");
        put_digest(record, out);
    }
}
