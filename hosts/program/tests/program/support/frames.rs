//! Frames as they stand on the wire.

use std::net::{IpAddr, Ipv4Addr, Ipv6Addr};

pub const PORT: u16 = 26477;
pub const GROUP: IpAddr = IpAddr::V4(Ipv4Addr::new(233, 54, 12, 101));
pub const GROUP6: IpAddr = IpAddr::V6(Ipv6Addr::new(0xFF02, 0, 0, 0, 0, 0, 0, 0x65));

const IPV4: u16 = 0x0800;
const IPV6: u16 = 0x86DD;

pub fn udp(port: u16, payload: &[u8]) -> Vec<u8> {
    let length = u16::try_from(payload.len() + 8).unwrap();
    let mut bytes = Vec::new();
    for field in [30000, port, length, 0] {
        bytes.extend(field.to_be_bytes());
    }
    bytes.extend(payload);
    bytes
}

fn kind(to: IpAddr) -> u16 {
    if to.is_ipv4() {
        IPV4
    } else {
        IPV6
    }
}

/// A packet of either version with a UDP datagram.
pub fn packet(to: IpAddr, port: u16, payload: &[u8]) -> Vec<u8> {
    match to {
        IpAddr::V4(to) => ipv4(to, 0, &[], &udp(port, payload)),
        IpAddr::V6(to) => ipv6(to, 17, &[], &udp(port, payload)),
    }
}

/// An IPv4 packet; `fragment` is the field with the flag and the place.
pub fn ipv4(to: Ipv4Addr, fragment: u16, options: &[u8], body: &[u8]) -> Vec<u8> {
    let size = u16::try_from(20 + options.len() + body.len()).unwrap();
    let mut bytes = vec![0x45 + (options.len() / 4) as u8, 0];
    bytes.extend(size.to_be_bytes());
    bytes.extend([0, 1]);
    bytes.extend(fragment.to_be_bytes());
    bytes.extend([16, 17, 0, 0, 10, 0, 0, 1]);
    bytes.extend(to.octets());
    bytes.extend(options);
    bytes.extend(body);
    bytes
}

/// An IPv6 packet with extension headers, the first of the kind `next`.
pub fn ipv6(to: Ipv6Addr, next: u8, headers: &[u8], body: &[u8]) -> Vec<u8> {
    let size = u16::try_from(headers.len() + body.len()).unwrap();
    let mut bytes = vec![0x60, 0, 0, 0];
    bytes.extend(size.to_be_bytes());
    bytes.extend([next, 16]);
    bytes.extend(Ipv6Addr::LOCALHOST.octets());
    bytes.extend(to.octets());
    bytes.extend(headers);
    bytes.extend(body);
    bytes
}

/// A packet of another protocol, with a header and no more.
pub fn of_protocol(to: IpAddr, protocol: u8) -> Vec<u8> {
    match to {
        IpAddr::V4(to) => {
            let mut bytes = ipv4(to, 0, &[], &[0]);
            bytes[9] = protocol;
            bytes
        }
        IpAddr::V6(to) => ipv6(to, protocol, &[], &[0]),
    }
}

/// A packet with options (version 4) or two extension headers (version 6).
pub fn long_packet(to: IpAddr, port: u16, payload: &[u8]) -> Vec<u8> {
    match to {
        IpAddr::V4(to) => ipv4(to, 0, &[1; 8], &udp(port, payload)),
        IpAddr::V6(to) => {
            // hop by hop of 16 bytes, and a fragment header of a datagram that isn't cut
            let mut headers = vec![44, 1];
            headers.extend([0; 14]);
            headers.extend([17, 0, 0, 0, 0, 0, 0, 9]);
            ipv6(to, 0, &headers, &udp(port, payload))
        }
    }
}

/// Both fragments of a datagram.
pub fn fragments(to: IpAddr, port: u16, payload: &[u8]) -> [Vec<u8>; 2] {
    let whole = udp(port, payload);
    let (first, second) = whole.split_at(16);
    match to {
        IpAddr::V4(to) => [ipv4(to, 0x2000, &[], first), ipv4(to, 2, &[], second)],
        IpAddr::V6(to) => {
            let header = |field: u16| {
                let [high, low] = field.to_be_bytes();
                [17, 0, high, low, 0, 0, 0, 9]
            };
            [ipv6(to, 44, &header(1), first), ipv6(to, 44, &header(16), second)]
        }
    }
}

fn behind(mut header: Vec<u8>, kind: u16, packet: &[u8]) -> Vec<u8> {
    header.extend(kind.to_be_bytes());
    header.extend(packet);
    header
}

pub fn ethernet(to: IpAddr, packet: &[u8]) -> Vec<u8> {
    let mut frame = behind(vec![2; 12], kind(to), packet);
    // the shortest frame is padded
    frame.resize(frame.len().max(60), 0xEE);
    frame
}

/// Ethernet with VLAN tags, the outer one first.
pub fn tagged(to: IpAddr, tags: &[u16], packet: &[u8]) -> Vec<u8> {
    let mut header = vec![2; 12];
    for tag in tags {
        header.extend(tag.to_be_bytes());
        header.extend([0, 7]);
    }
    behind(header, kind(to), packet)
}

pub fn cooked(to: IpAddr, packet: &[u8]) -> Vec<u8> {
    behind(vec![0; 14], kind(to), packet)
}

/// Linux cooked, with a VLAN tag behind its header.
pub fn cooked_tagged(to: IpAddr, packet: &[u8]) -> Vec<u8> {
    let mut header = vec![0; 14];
    header.extend([0x81, 0, 0, 7]);
    behind(header, kind(to), packet)
}

pub fn cooked2(to: IpAddr, packet: &[u8]) -> Vec<u8> {
    let mut frame = kind(to).to_be_bytes().to_vec();
    frame.extend([0; 18]);
    frame.extend(packet);
    frame
}

pub fn loopback(to: IpAddr, packet: &[u8]) -> Vec<u8> {
    let family: u32 = if to.is_ipv4() { 2 } else { 30 };
    let mut frame = family.to_le_bytes().to_vec();
    frame.extend(packet);
    frame
}

pub fn arp() -> Vec<u8> {
    behind(vec![2; 12], 0x0806, &[0; 46])
}
