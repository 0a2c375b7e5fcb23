//! pcap and pcapng files, written byte by byte.

#[derive(Clone, Copy)]
pub enum Order {
    Little,
    Big,
}

impl Order {
    fn short(self, number: u16) -> [u8; 2] {
        match self {
            Order::Little => number.to_le_bytes(),
            Order::Big => number.to_be_bytes(),
        }
    }

    fn long(self, number: u32) -> [u8; 4] {
        match self {
            Order::Little => number.to_le_bytes(),
            Order::Big => number.to_be_bytes(),
        }
    }
}

/// Numbers of the kinds of frames, as the files have them.
pub const ETHERNET: u32 = 1;
pub const COOKED: u32 = 113;
pub const COOKED2: u32 = 276;
pub const LOOPBACK: u32 = 0;
pub const LOOP: u32 = 108;
pub const RAW: u32 = 101;
pub const IPV4: u32 = 228;
pub const IPV6: u32 = 229;

pub const MICROSECONDS: u32 = 0xA1B2_C3D4;
pub const NANOSECONDS: u32 = 0xA1B2_3C4D;

pub struct Pcap {
    order: Order,
    bytes: Vec<u8>,
    frames: u32,
}

impl Pcap {
    pub fn new(kind: u32) -> Self {
        Pcap::with(kind, Order::Little, MICROSECONDS)
    }

    pub fn with(kind: u32, order: Order, magic: u32) -> Self {
        let mut bytes = order.long(magic).to_vec();
        bytes.extend(order.short(2));
        bytes.extend(order.short(4));
        for field in [0, 0, 262_144, kind] {
            bytes.extend(order.long(field));
        }
        Pcap { order, bytes, frames: 0 }
    }

    pub fn frame(self, frame: &[u8]) -> Self {
        self.cut(frame, frame.len())
    }

    /// A frame of which so many bytes were captured. Each comes a quarter of a second (or of a
    /// thousandth, in nanoseconds) after the one before.
    pub fn cut(mut self, frame: &[u8], captured: usize) -> Self {
        let quarters = self.frames;
        self.frames += 1;
        for field in
            [1000 + quarters / 4, quarters % 4 * 250_000, captured as u32, frame.len() as u32]
        {
            self.bytes.extend(self.order.long(field));
        }
        self.bytes.extend(&frame[..captured]);
        self
    }

    pub fn frames<F: AsRef<[u8]>>(self, frames: impl IntoIterator<Item = F>) -> Self {
        frames.into_iter().fold(self, |pcap, frame| pcap.frame(frame.as_ref()))
    }

    pub fn bytes(self) -> Vec<u8> {
        self.bytes
    }
}

pub struct PcapNg {
    order: Order,
    bytes: Vec<u8>,
}

impl PcapNg {
    pub fn new(order: Order) -> Self {
        let mut new = PcapNg { order, bytes: Vec::new() };
        let mut section = order.long(0x1A2B_3C4D).to_vec();
        section.extend(order.short(1));
        section.extend(order.short(0));
        section.extend([0xFF; 8]);
        new.block(0x0A0D_0D0A, &section);
        new
    }

    fn block(&mut self, kind: u32, body: &[u8]) {
        let padding = body.len().next_multiple_of(4) - body.len();
        let size = self.order.long((12 + body.len() + padding) as u32);
        self.bytes.extend(self.order.long(kind));
        self.bytes.extend(size);
        self.bytes.extend(body);
        self.bytes.extend(vec![0; padding]);
        self.bytes.extend(size);
    }

    pub fn interface(mut self, kind: u32) -> Self {
        let mut body = self.order.short(kind as u16).to_vec();
        body.extend(self.order.short(0));
        body.extend(self.order.long(262_144));
        self.block(1, &body);
        self
    }

    pub fn frame(mut self, interface: u32, frame: &[u8]) -> Self {
        let size = frame.len() as u32;
        let mut body = Vec::new();
        for field in [interface, 0, 1_000_000, size, size] {
            body.extend(self.order.long(field));
        }
        body.extend(frame);
        self.block(6, &body);
        self
    }

    pub fn bytes(self) -> Vec<u8> {
        self.bytes
    }
}
