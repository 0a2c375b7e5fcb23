//! From a frame to the UDP datagram in it: Ethernet with VLAN tags, Linux cooked, BSD loopback and
//! raw frames, IPv4 and IPv6.

use std::net::{IpAddr, Ipv4Addr, Ipv6Addr};

/// How a file's frames begin.
#[derive(Clone, Copy, Debug, PartialEq)]
pub enum Link {
    Ethernet,
    Cooked,
    Cooked2,
    Loopback,
    Raw,
}

/// What a frame has of a UDP datagram.
#[derive(Clone, Copy, Debug, PartialEq)]
pub struct Udp<'a> {
    /// Where it goes, as far as the frame tells.
    pub to: Option<IpAddr>,
    pub port: Option<u16>,
    pub body: Body<'a>,
}

#[derive(Clone, Copy, Debug, PartialEq)]
pub enum Body<'a> {
    Whole(&'a [u8]),
    /// A part of a datagram that IP cut into fragments.
    Fragment,
    /// The snap length cut it off.
    Cut,
    /// Its lengths contradict each other.
    Wrong,
}

const UDP: u8 = 17;
const FRAGMENT: u8 = 44;
const AUTHENTICATION: u8 = 51;
const UDP_HEADER: usize = 8;

impl Link {
    /// By libpcap's number of the kind.
    pub fn of(number: i32) -> Option<Self> {
        match number {
            1 => Some(Link::Ethernet),
            113 => Some(Link::Cooked),
            276 => Some(Link::Cooked2),
            0 | 108 => Some(Link::Loopback),
            // raw frames are 12, 14 or 101 by system; 228 is IPv4 alone, 229 IPv6 alone
            12 | 14 | 101 | 228 | 229 => Some(Link::Raw),
            _ => None,
        }
    }

    /// The packet of a frame; none where it isn't IP.
    fn packet(self, frame: &[u8]) -> Result<Option<&[u8]>, Short> {
        match self {
            Link::Ethernet => tagged(frame, 12, 14),
            Link::Cooked => tagged(frame, 14, 16),
            Link::Cooked2 => tagged(frame, 0, 20),
            Link::Loopback => Ok(Some(frame.get(4..).ok_or(Short)?)),
            Link::Raw => Ok(Some(frame)),
        }
    }
}

/// The frame has fewer bytes than it needs.
struct Short;

/// The packet behind a header that has its type at a place, and behind the VLAN tags that follow.
fn tagged(frame: &[u8], mut kind_at: usize, mut size: usize) -> Result<Option<&[u8]>, Short> {
    loop {
        match number(frame, kind_at)? {
            0x0800 | 0x86DD => return Ok(Some(frame.get(size..).ok_or(Short)?)),
            // a tag has two bytes of its own, and then the next type
            0x8100 | 0x88A8 | 0x9100 => {
                kind_at = size + 2;
                size += 4;
            }
            _ => return Ok(None),
        }
    }
}

fn byte(bytes: &[u8], at: usize) -> Result<u8, Short> {
    bytes.get(at).copied().ok_or(Short)
}

fn number(bytes: &[u8], at: usize) -> Result<u16, Short> {
    Ok(u16::from_be_bytes([byte(bytes, at)?, byte(bytes, at + 1)?]))
}

/// The UDP datagram of a frame; none where the frame has another protocol.
pub fn udp(link: Link, frame: &[u8], is_cut: bool) -> Option<Udp<'_>> {
    let missing = if is_cut { Body::Cut } else { Body::Wrong };
    let unknown = Udp { to: None, port: None, body: missing };
    let packet = match link.packet(frame) {
        Ok(packet) => packet?,
        Err(Short) => return Some(unknown),
    };
    match packet.first().map(|first| first >> 4) {
        Some(4) => ipv4(packet, missing).unwrap_or(Some(unknown)),
        Some(6) => ipv6(packet, missing).unwrap_or(Some(unknown)),
        // a loopback carries other protocols, too, and says which by a number that differs by system
        Some(_) if link == Link::Loopback => None,
        Some(_) => Some(Udp { body: Body::Wrong, ..unknown }),
        None => Some(unknown),
    }
}

fn ipv4<'a>(packet: &'a [u8], missing: Body<'a>) -> Result<Option<Udp<'a>>, Short> {
    let header = usize::from(byte(packet, 0)? & 0x0F) * 4;
    let size = usize::from(number(packet, 2)?);
    let fragment = number(packet, 6)?;
    if byte(packet, 9)? != UDP {
        return Ok(None);
    }
    let to: [u8; 4] = packet.get(16..20).and_then(|to| to.try_into().ok()).ok_or(Short)?;
    let to = Some(IpAddr::V4(Ipv4Addr::from(to)));
    if header < 20 || size < header {
        return Ok(Some(Udp { to, port: None, body: Body::Wrong }));
    }
    // the low 13 bits are where the fragment stands; the bit above them says that more follow
    let is_first = fragment & 0x1FFF == 0;
    let is_whole = is_first && fragment & 0x2000 == 0;
    Ok(Some(datagram(packet, header, size, is_first, is_whole, to, missing)))
}

fn ipv6<'a>(packet: &'a [u8], missing: Body<'a>) -> Result<Option<Udp<'a>>, Short> {
    let size = 40 + usize::from(number(packet, 4)?);
    let to: [u8; 16] = packet.get(24..40).and_then(|to| to.try_into().ok()).ok_or(Short)?;
    let to = Some(IpAddr::V6(Ipv6Addr::from(to)));
    let (mut kind, mut at) = (byte(packet, 6)?, 40);
    let (mut is_first, mut is_whole) = (true, true);
    let cut = Udp { to, port: None, body: missing };
    while kind != UDP {
        if !is_extension(kind) {
            return Ok(None);
        }
        // behind the header of a later fragment stands no other: it may be one of a UDP datagram
        if !is_first {
            return Ok(Some(Udp { body: Body::Fragment, ..cut }));
        }
        let (Ok(next), Ok(length)) = (byte(packet, at), byte(packet, at + 1)) else {
            return Ok(Some(cut));
        };
        at += match kind {
            FRAGMENT => {
                let Ok(fragment) = number(packet, at + 2) else { return Ok(Some(cut)) };
                is_first = fragment & 0xFFF8 == 0;
                is_whole &= fragment & 0xFFF9 == 0;
                8
            }
            AUTHENTICATION => (usize::from(length) + 2) * 4,
            _ => (usize::from(length) + 1) * 8,
        };
        kind = next;
    }
    Ok(Some(datagram(packet, at, size, is_first, is_whole, to, missing)))
}

/// Whether a header of this kind stands before UDP's: hop by hop, routing, destination, mobility,
/// identity and shim headers have the same shape, and two have their own.
fn is_extension(kind: u8) -> bool {
    matches!(kind, 0 | 43 | 60 | 135 | 139 | 140 | FRAGMENT | AUTHENTICATION)
}

/// The datagram whose header stands at a place of a packet of so many bytes.
fn datagram<'a>(
    packet: &'a [u8],
    at: usize,
    size: usize,
    is_first: bool,
    is_whole: bool,
    to: Option<IpAddr>,
    missing: Body<'a>,
) -> Udp<'a> {
    let port = if is_first { number(packet, at + 2).ok() } else { None };
    let body = match number(packet, at + 4) {
        _ if !is_whole => Body::Fragment,
        Err(Short) => missing,
        Ok(length) if usize::from(length) < UDP_HEADER || at + usize::from(length) > size => {
            Body::Wrong
        }
        Ok(length) => match packet.get(at + UDP_HEADER..at + usize::from(length)) {
            Some(bytes) => Body::Whole(bytes),
            None => missing,
        },
    };
    Udp { to, port, body }
}
