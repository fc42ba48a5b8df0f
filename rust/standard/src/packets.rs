//! A packet, and the ranges of its numbers.

/// What a rule looks at in a packet. The numbers are as wide as those that are handed in, so that
/// what is out of range can be told.
#[derive(Debug, Clone, PartialEq, Eq)]
pub struct Packet {
    pub family: u64,
    pub destination: u128,
    pub source: u128,
    pub protocol: u64,
    pub length: u64,
    pub dscp: u64,
    /// DF 1, IsF 2, FF 4, LF 8.
    pub fragment: u64,
    /// Source and destination.
    pub ports: Option<(u64, u64)>,
    /// Type and code.
    pub icmp: Option<(u64, u64)>,
    /// Octets 13 and 14 of the TCP header, counted from 1, as one number. The data offset, the first
    /// half of octet 13, is 0.
    pub flags: Option<u64>,
    pub label: Option<u64>,
}

impl Packet {
    /// Document 01's ranges, else BadPacket. What is absent has no number that could be out of one.
    pub fn is_in_range(&self) -> bool {
        let widest = match self.family {
            4 => u128::from(u32::MAX),
            6 => u128::MAX,
            _ => return false,
        };
        let label = match self.family {
            4 => self.label.is_none(),
            _ => self.label.map_or(true, |label| label <= 0xF_FFFF),
        };
        let both = |pair: Option<(u64, u64)>, most| {
            pair.map_or(true, |(one, other)| one <= most && other <= most)
        };
        self.destination <= widest
            && self.source <= widest
            && self.protocol <= 255
            && self.length <= 65_575
            && self.dscp <= 63
            && self.fragment <= 15
            && both(self.ports, 65_535)
            && both(self.icmp, 255)
            && self.flags.map_or(true, |flags| flags <= 0x0FFF)
            && label
    }
}
