//! Packets.

use crate::fields::{number, pair, put_number, put_octets, wide, Bad, Read, NONE};

/// The words that lend a packet on the surface of the proved code.
pub const PACKET: usize = 20;

/// A packet: any numbers, also those that are out of range.
#[derive(Debug, Clone, PartialEq, Eq)]
pub struct Packet {
    pub family: u64,
    pub source: u128,
    pub destination: u128,
    pub protocol: u64,
    pub length: u64,
    pub dscp: u64,
    pub fragment: u64,
    /// Source and destination.
    pub ports: Option<(u64, u64)>,
    /// Type and code.
    pub icmp: Option<(u64, u64)>,
    pub flags: Option<u64>,
    pub label: Option<u64>,
}

impl Packet {
    pub fn read(field: &[u8]) -> Read<Packet> {
        const BAD: Bad = Bad("a packet has eleven fields with | between them");
        let mut fields = field.split(|&byte| byte == b'|');
        let mut next = || fields.next().ok_or(BAD);
        let packet = Packet {
            family: number(next()?)?,
            source: wide(next()?)?,
            destination: wide(next()?)?,
            protocol: number(next()?)?,
            length: number(next()?)?,
            dscp: number(next()?)?,
            fragment: number(next()?)?,
            ports: there(next()?, pair)?,
            icmp: there(next()?, pair)?,
            flags: there(next()?, number)?,
            label: there(next()?, number)?,
        };
        match fields.next() {
            None => Ok(packet),
            Some(_) => Err(BAD),
        }
    }

    /// Puts it, its addresses in 8 digits if its family is 4 and they fit, else in 32.
    pub fn put(&self, out: &mut Vec<u8>) {
        put_number(self.family, out);
        for address in [self.source, self.destination] {
            out.push(b'|');
            match (self.family, u32::try_from(address)) {
                (4, Ok(address)) => put_octets(&address.to_be_bytes(), out),
                _ => put_octets(&address.to_be_bytes(), out),
            }
        }
        for number in [self.protocol, self.length, self.dscp, self.fragment] {
            out.push(b'|');
            put_number(number, out);
        }
        for pair in [self.ports, self.icmp] {
            out.push(b'|');
            match pair {
                None => out.extend_from_slice(NONE),
                Some((one, two)) => {
                    put_number(one, out);
                    out.push(b',');
                    put_number(two, out);
                }
            }
        }
        for field in [self.flags, self.label] {
            out.push(b'|');
            match field {
                None => out.extend_from_slice(NONE),
                Some(number) => put_number(number, out),
            }
        }
    }

    /// Its words: family; destination and source, each in a high and a low half; protocol; length;
    /// DSCP; fragment bits; then what may be absent, each behind a word that is 1 where it is there
    /// and else 0, as what stands behind it is then; and a last word of 0.
    pub fn words(&self) -> [u64; PACKET] {
        let pair = |pair: Option<(u64, u64)>| pair.map_or([0; 3], |(one, two)| [1, one, two]);
        let field = |field: Option<u64>| field.map_or([0; 2], |number| [1, number]);
        let halves = |address: u128| [(address >> 64) as u64, address as u64];
        let mut words = [0; PACKET];
        words[0] = self.family;
        words[1..3].copy_from_slice(&halves(self.destination));
        words[3..5].copy_from_slice(&halves(self.source));
        words[5..9].copy_from_slice(&[self.protocol, self.length, self.dscp, self.fragment]);
        words[9..12].copy_from_slice(&pair(self.ports));
        words[12..15].copy_from_slice(&pair(self.icmp));
        words[15..17].copy_from_slice(&field(self.flags));
        words[17..19].copy_from_slice(&field(self.label));
        words
    }
}

/// A field that may be absent.
fn there<T>(field: &[u8], read: impl FnOnce(&[u8]) -> Read<T>) -> Read<Option<T>> {
    match field {
        NONE => Ok(None),
        _ => read(field).map(Some),
    }
}
