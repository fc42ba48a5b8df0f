//! A packet: the fields that a rule is held against.

use crate::surface::PACKET;
use std::net::IpAddr;

/// The fields of a packet. A field that is `None` is absent, and no component matches an absent field.
///
/// Out of range, and refused as [`BadPacket`](crate::Reason::BadPacket), are addresses of two families, and numbers above what each
/// field says.
///
/// ```
/// use krubbadin::Packet;
///
/// let mut packet = Packet::new([203, 0, 113, 5], [192, 0, 2, 1]);
/// packet.protocol = 6;
/// packet.length = 40;
/// packet.ports = Some((49152, 443));
/// packet.tcp_flags = Some(0x02);
/// assert_eq!(packet.words()[..7], [4, 0, 0xC000_0201, 0, 0xCB00_7105, 6, 40]);
/// ```
#[derive(Debug, Clone, Copy, PartialEq, Eq, Hash)]
pub struct Packet {
    /// Where it comes from.
    pub source: IpAddr,
    /// Where it goes.
    pub destination: IpAddr,
    /// The protocol: in IPv6 that of the last next header.
    pub protocol: u8,
    /// The octets of the whole packet, at most 65,575.
    pub length: u32,
    /// The DSCP, at most 63.
    pub dscp: u8,
    /// [`DONT_FRAGMENT`](Packet::DONT_FRAGMENT), [`IS_FRAGMENT`](Packet::IS_FRAGMENT), [`FIRST_FRAGMENT`](Packet::FIRST_FRAGMENT) and
    /// [`LAST_FRAGMENT`](Packet::LAST_FRAGMENT), those that hold, added up.
    pub fragment: u8,
    /// The source port and the destination port.
    pub ports: Option<(u16, u16)>,
    /// The ICMP or ICMPv6 type and code.
    pub icmp: Option<(u8, u8)>,
    /// The TCP flags as they stand in octets 13 and 14 of the header, counted from 1, with the data offset taken as 0: twelve bits, so at
    /// most 4,095. [`tcp_flags_of`](Packet::tcp_flags_of) makes them from the two octets. A mask of one octet is held to octet 14 alone.
    pub tcp_flags: Option<u16>,
    /// The flow label, at most 1,048,575. IPv4 has none.
    pub flow_label: Option<u32>,
}

impl Packet {
    /// Don't fragment, in IPv4.
    ///
    /// ```
    /// assert_eq!(krubbadin::Packet::DONT_FRAGMENT, 1);
    /// ```
    pub const DONT_FRAGMENT: u8 = 1;
    /// A fragment other than the first.
    ///
    /// ```
    /// assert_eq!(krubbadin::Packet::IS_FRAGMENT, 2);
    /// ```
    pub const IS_FRAGMENT: u8 = 2;
    /// The first fragment.
    ///
    /// ```
    /// assert_eq!(krubbadin::Packet::FIRST_FRAGMENT, 4);
    /// ```
    pub const FIRST_FRAGMENT: u8 = 4;
    /// The last fragment.
    ///
    /// ```
    /// assert_eq!(krubbadin::Packet::LAST_FRAGMENT, 8);
    /// ```
    pub const LAST_FRAGMENT: u8 = 8;

    /// A packet from one address to another. Its other fields are 0 or absent.
    ///
    /// ```
    /// use krubbadin::Packet;
    /// use std::net::Ipv6Addr;
    ///
    /// let packet = Packet::new(Ipv6Addr::LOCALHOST, Ipv6Addr::LOCALHOST);
    /// assert_eq!((packet.protocol, packet.ports), (0, None));
    /// ```
    pub fn new(source: impl Into<IpAddr>, destination: impl Into<IpAddr>) -> Self {
        Packet {
            source: source.into(),
            destination: destination.into(),
            protocol: 0,
            length: 0,
            dscp: 0,
            fragment: 0,
            ports: None,
            icmp: None,
            tcp_flags: None,
            flow_label: None,
        }
    }

    /// The TCP flags of octets 13 and 14 of a TCP header, counted from 1: `[header[12], header[13]]`. The data offset, the upper four bits of
    /// octet 13, is left out.
    ///
    /// ```
    /// use krubbadin::{matches, read, Family, Packet};
    ///
    /// let mut packet = Packet::new([203, 0, 113, 5], [192, 0, 2, 1]);
    /// packet.tcp_flags = Some(Packet::tcp_flags_of([0x51, 0x02])); // a header of five words, the ninth bit and SYN
    /// assert_eq!(packet.tcp_flags, Some(0x102));
    ///
    /// let (ninth_bit, _) = read(Family::Ipv4, &[0x04, 0x09, 0x91, 0x01, 0x00])?;
    /// assert!(matches(Family::Ipv4, &ninth_bit, &packet)?);
    /// # Ok::<(), krubbadin::Refusal>(())
    /// ```
    pub const fn tcp_flags_of(octets: [u8; 2]) -> u16 {
        u16::from_be_bytes(octets) & 0x0FFF
    }

    /// Its words, as the calls of [`crate::surface`] take a packet. Addresses of two families have family 0, which those refuse.
    ///
    /// ```
    /// let packet = krubbadin::Packet::new([10, 0, 0, 1], [10, 0, 0, 2]);
    /// assert_eq!(packet.words()[..5], [4, 0, 0x0A00_0002, 0, 0x0A00_0001]);
    /// ```
    pub fn words(&self) -> [u64; PACKET] {
        let family = match (self.source, self.destination) {
            (IpAddr::V4(_), IpAddr::V4(_)) => 4,
            (IpAddr::V6(_), IpAddr::V6(_)) => 6,
            _ => 0,
        };
        let mut words = [0; PACKET];
        words[0] = family;
        words[1..3].copy_from_slice(&halves(self.destination));
        words[3..5].copy_from_slice(&halves(self.source));
        words[5] = u64::from(self.protocol);
        words[6] = u64::from(self.length);
        words[7] = u64::from(self.dscp);
        words[8] = u64::from(self.fragment);
        if let Some((source, destination)) = self.ports {
            words[9..12].copy_from_slice(&[1, u64::from(source), u64::from(destination)]);
        }
        if let Some((kind, code)) = self.icmp {
            words[12..15].copy_from_slice(&[1, u64::from(kind), u64::from(code)]);
        }
        if let Some(flags) = self.tcp_flags {
            words[15..17].copy_from_slice(&[1, u64::from(flags)]);
        }
        if let Some(label) = self.flow_label {
            words[17..19].copy_from_slice(&[1, u64::from(label)]);
        }
        words
    }
}

fn halves(address: IpAddr) -> [u64; 2] {
    match address {
        IpAddr::V4(address) => [0, u64::from(u32::from(address))],
        IpAddr::V6(address) => {
            let address = u128::from(address);
            [(address >> 64) as u64, address as u64]
        }
    }
}
