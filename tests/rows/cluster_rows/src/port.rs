//! A port that loses what it is told to.
ghost use Rattle.std.specs.Prelude.{None};
ghost use Rattle.datagram_ports.specs.Granted.{IsGranted};

use datagram_ports::{MemPort, Port, PortFault, Warrant};
use std::alloc::Global;

/// Gives what was sent, in that order, but for what it loses, of which it says nothing.
#[derive(Drop)]
pub struct LossyPort {
    port: MemPort,
    /// By member, whether what is sent to it is lost.
    is_lost_to: [bool; 9],
    /// Whether one is lost of each two, the first or the second, in an order that doesn't recur.
    loses_half: bool,
    sends: u64,
}

impl LossyPort {
    /// Loses what is sent to these members.
    pub fn to(alloc: Global, members: &[u8]) -> LossyPort {
        let mut port = LossyPort {
            port: MemPort::new(alloc),
            is_lost_to: [false; 9],
            loses_half: false,
            sends: 0,
        };
        port.lose_to(members);
        port
    }

    /// Loses half of what is sent.
    pub fn half(alloc: Global) -> LossyPort {
        LossyPort {
            port: MemPort::new(alloc),
            is_lost_to: [false; 9],
            loses_half: true,
            sends: 0,
        }
    }

    /// Loses from now on what is sent to these members, and to no others.
    pub fn lose_to(&mut self, members: &[u8]) {
        for member in 0..9u8 {
            self.is_lost_to[member as usize] = members.contains(&member);
        }
    }

    /// Whether the send that it came to is lost.
    fn is_lost(&self, to: u8) -> bool {
        let is_lost_to = self.is_lost_to.get(to as usize).copied() == Some(true);
        is_lost_to || (self.loses_half && self.sends.count_ones() % 2 == 0)
    }
}

impl Port for LossyPort {
    ghost given = { λ _. None };

    ghost offered = { λ _. None };

    ghost failures_of = { λ p. p.port.failures };

    ghost may_send = { λ p text. IsGranted p.port.granted text };

    fn receive(&mut self) -> Result<Option<(u8, Vec<u8>)>, PortFault> {
        self.port.receive()
    }

    fn grant<W: Warrant>(&mut self, warrant: &W, bytes: &[u8]) {
        self.port.grant(warrant, bytes);
    }

    fn send(&mut self, from: u8, to: u8, bytes: &[u8]) -> Result<(), PortFault> {
        self.sends = self.sends.saturating_add(1);
        if self.is_lost(to) {
            return Ok(());
        }
        self.port.send(from, to, bytes)
    }

    fn failures(&self) -> u64 {
        self.port.failures()
    }
}
