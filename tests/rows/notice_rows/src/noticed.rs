//! Notices through a port of member 0 among three, and sockets that stand for the others.
use datagram_ports::Port;
use seals::Seal;
use std::alloc::Global;
use std::net::{Ipv4Addr, Net, SocketAddr, SocketAddrV4, UdpSocket};
use std::test::Fail;
use std::time::Clock;
use udp::{Guard, Hurry, Notice, UdpPort};

/// The bytes 0, 1, 2 and so on: the digest of a listing of 300 units.
static DIGEST: [u8; 32] = [
    0, 1, 2, 3, 4, 5, 6, 7, 8, 9, 10, 11, 12, 13, 14, 15, 16, 17, 18, 19, 20, 21, 22, 23, 24, 25,
    26, 27, 28, 29, 30, 31,
];

static UNITS: u32 = 300;

/// The run's key.
static KEY: [u8; 32] = [7; 32];

/// The longest text that is accepted.
const LONGEST: usize = 33_088;

/// Member 0's notice of unit 258, sealed: what Python's struct and hmac make of it.
static OWN_SEALED: [u8; 73] = [
    68, 80, 66, 84, 0, 1, 2, 3, 4, 5, 6, 7, 8, 9, 10, 11, 12, 13, 14, 15, 16, 17, 18, 19, 20, 21,
    22, 23, 24, 25, 26, 27, 28, 29, 30, 31, 0, 0, 0, 1, 2, 169, 185, 70, 199, 92, 197, 115, 21,
    158, 198, 244, 170, 70, 38, 100, 160, 117, 57, 121, 146, 60, 213, 0, 28, 114, 87, 241, 251,
    79, 160, 37, 136,
];

/// Member 1's, sealed.
static SEALED: [u8; 73] = [
    68, 80, 66, 84, 0, 1, 2, 3, 4, 5, 6, 7, 8, 9, 10, 11, 12, 13, 14, 15, 16, 17, 18, 19, 20, 21,
    22, 23, 24, 25, 26, 27, 28, 29, 30, 31, 1, 0, 0, 1, 2, 90, 125, 235, 18, 213, 250, 243, 187,
    166, 203, 83, 98, 94, 86, 78, 49, 39, 165, 113, 20, 208, 107, 49, 233, 125, 118, 214, 214,
    228, 152, 250, 190,
];

/// The text of the notice of these two numbers about a listing whose digest begins with this byte,
/// byte by byte.
fn text_of(alloc: Global, first: u8, member: u8, unit: [u8; 4]) -> Result<Vec<u8>, Fail> {
    let mut text = b"DPBT".to_vec(alloc)?;
    text.push(first)?;
    text.extend_from_slice(&DIGEST[1..])?;
    text.push(member)?;
    text.extend_from_slice(&unit)?;
    Ok(text)
}

/// A free port of 127.0.0.1, with its address.
fn socket<R: Net>(rt: &R) -> Result<(UdpSocket, SocketAddr), Fail> {
    let any = SocketAddr::V4(SocketAddrV4::new(Ipv4Addr::new(127, 0, 0, 1), 0));
    let socket = UdpSocket::bind(rt, any)?;
    socket.set_nonblocking(true)?;
    let address = socket.local_addr()?;
    Ok((socket, address))
}

/// Member 0's port, its address, and the sockets of members 1 and 2.
#[derive(Drop)]
struct Three<'c, C: Clock> {
    port: UdpPort<'c, C>,
    at: SocketAddr,
    first: UdpSocket,
    second: UdpSocket,
}

/// All three at free ports of 127.0.0.1.
fn started<'c, R: Net + Clock>(
    rt: &'c R,
    alloc: Global,
    guard: Guard,
) -> Result<Three<'c, R>, Fail> {
    let (own, at) = socket(rt)?;
    let (first, first_at) = socket(rt)?;
    let (second, second_at) = socket(rt)?;
    drop(own);
    let mut addresses = Vec::new(alloc);
    addresses.push(at)?;
    addresses.push(first_at)?;
    addresses.push(second_at)?;
    let port = UdpPort::alone_behind(rt, rt, alloc, addresses, 0, 20, guard)?;
    Ok(Three {
        port,
        at,
        first,
        second,
    })
}

/// Accepts sealed datagrams of the run, and notices about the listing.
fn sealed() -> Guard {
    let seal = Seal::of_run(&KEY, &DIGEST, &[1, 1, 1]);
    Guard::sealed(seal, LONGEST).with_notices(DIGEST, UNITS)
}

/// Accepts members' datagrams, and notices about the listing.
fn unsealed() -> Guard {
    Guard::unsealed(LONGEST).with_notices(DIGEST, UNITS)
}

/// The bytes that the socket received, if any; it waits at most a second.
fn came<'b>(socket: &UdpSocket, buffer: &'b mut [u8]) -> &'b [u8] {
    for _ in 0..100_000 {
        if let Ok((count, _)) = socket.recv_from(buffer) {
            return &buffer[..count];
        }
    }
    &buffer[..0]
}

/// Each other member gets the sealed bytes, once.
#[test]
fn sends_to_each_other_member(rt: HostRuntime) -> Result<(), Fail> {
    let mut three = started(&rt, rt.alloc(), sealed())?;
    three.port.send_notice(Notice { member: 0, unit: 258 });
    three.port.flush();
    let mut buffer = [0; 100];
    assert!(rt; came(&three.first, &mut buffer) == OWN_SEALED.as_slice());
    assert!(rt; came(&three.second, &mut buffer) == OWN_SEALED.as_slice());
    assert!(rt; three.first.recv_from(&mut buffer).is_err());
    assert_eq!(rt; three.port.sends(), 0);
    assert_eq!(rt; three.port.failures(), 0);
    Ok(())
}

/// A port without a listing sends none, and so does one where the sender's node isn't.
#[test]
fn sends_none(rt: HostRuntime) -> Result<(), Fail> {
    let mut buffer = [0; 100];
    let mut silent = started(&rt, rt.alloc(), Guard::unsealed(LONGEST))?;
    silent.port.send_notice(Notice { member: 0, unit: 1 });
    silent.port.flush();
    let mut other = started(&rt, rt.alloc(), unsealed())?;
    other.port.send_notice(Notice { member: 1, unit: 1 });
    other.port.flush();
    assert!(rt; came(&silent.first, &mut buffer).is_empty());
    assert!(rt; other.second.recv_from(&mut buffer).is_err());
    Ok(())
}

/// A sealed notice is read once, and never received as a datagram.
#[test]
fn reads_what_is_sealed(rt: HostRuntime) -> Result<(), Fail> {
    let mut three = started(&rt, rt.alloc(), sealed())?;
    three.port.set_hurry(Hurry::Steady);
    three.first.send_to(SEALED.as_slice(), three.at)?;
    three.first.send_to(&SEALED[..41], three.at)?;
    three.second.send_to(SEALED.as_slice(), three.at)?;
    let nothing = three.port.receive()?;
    assert!(rt; nothing.is_none());
    assert!(rt; three.port.take_notice() == Some(Notice { member: 1, unit: 258 }));
    assert!(rt; three.port.take_notice().is_none());
    let tallies = three.port.tallies();
    assert_eq!(rt; tallies.members[1].heard, 1);
    assert_eq!(rt; tallies.members[1].unsealed, 1);
    assert_eq!(rt; tallies.members[2].heard, 0);
    assert_eq!(rt; tallies.members[2].unsealed, 1);
    Ok(())
}

/// Notices are taken in the order in which they came. Each other text that begins like one is
/// dropped and counted: about another listing, a unit beyond, a node that is here, a member that
/// there isn't, from another's address, longer or shorter. Other texts are received as ever.
#[test]
fn reads_in_order_and_drops_the_rest(rt: HostRuntime) -> Result<(), Fail> {
    let alloc = rt.alloc();
    let mut three = started(&rt, alloc, unsealed())?;
    three.port.set_hurry(Hurry::Steady);
    let good = text_of(alloc, 0, 1, [0, 0, 1, 43])?;
    let mut longer = text_of(alloc, 0, 1, [0, 0, 0, 5])?;
    longer.push(0)?;
    three.first.send_to(&text_of(alloc, 0, 1, [0, 0, 1, 2])?, three.at)?;
    three.first.send_to(&text_of(alloc, 9, 1, [0, 0, 0, 5])?, three.at)?;
    three.first.send_to(&text_of(alloc, 0, 1, [0, 0, 1, 44])?, three.at)?;
    three.first.send_to(&text_of(alloc, 0, 1, [1, 0, 0, 5])?, three.at)?;
    three.first.send_to(&text_of(alloc, 0, 0, [0, 0, 0, 5])?, three.at)?;
    three.first.send_to(&text_of(alloc, 0, 3, [0, 0, 0, 5])?, three.at)?;
    three.first.send_to(&text_of(alloc, 0, 2, [0, 0, 0, 5])?, three.at)?;
    three.first.send_to(&longer, three.at)?;
    three.first.send_to(&good[..40], three.at)?;
    three.first.send_to(&good, three.at)?;
    three.first.send_to(b"DPB1", three.at)?;
    match three.port.receive()? {
        Some((node, bytes)) => {
            assert_eq!(rt; node, 0);
            assert!(rt; bytes.as_slice() == b"DPB1".as_slice());
        }
        None => assert!(rt; false),
    }
    assert!(rt; three.port.take_notice() == Some(Notice { member: 1, unit: 258 }));
    assert!(rt; three.port.take_notice() == Some(Notice { member: 1, unit: 299 }));
    assert!(rt; three.port.take_notice().is_none());
    assert_eq!(rt; three.port.tallies().members[1].heard, 3);
    assert_eq!(rt; three.port.tallies().members[1].unsealed, 8);
    Ok(())
}

/// A port without a listing drops notices, and never hands them to a node.
#[test]
fn drops_notices_without_a_listing(rt: HostRuntime) -> Result<(), Fail> {
    let alloc = rt.alloc();
    let mut three = started(&rt, alloc, Guard::unsealed(LONGEST))?;
    three.port.set_hurry(Hurry::Steady);
    three.first.send_to(&text_of(alloc, 0, 1, [0, 0, 0, 5])?, three.at)?;
    let nothing = three.port.receive()?;
    assert!(rt; nothing.is_none());
    assert!(rt; three.port.take_notice().is_none());
    assert_eq!(rt; three.port.tallies().members[1].heard, 1);
    assert_eq!(rt; three.port.tallies().members[1].unsealed, 0);
    Ok(())
}
