//! Checking, reading, writing, matching, ranking and choosing by RFC 8955 and RFC 8956.

use crate::error::{Reason, Refusal};
use crate::packet::Packet;
use crate::rules::FlowSpecNlri;
use crate::stored::{check_rule, read_rule, with_rule, write_rule, Many};
use crate::surface::{self, STANDARD, WITH_DISTINGUISHER};
use std::cmp::Ordering;

/// The family of a rule: IPv4 (RFC 8955) or IPv6 (RFC 8956).
///
/// ```
/// use krubbadin::{Family, Reason};
///
/// assert_eq!(Family::try_from(6), Ok(Family::Ipv6));
/// assert_eq!(Family::try_from(5).unwrap_err().reason(), Reason::BadFamily(5));
/// ```
#[derive(Debug, Clone, Copy, PartialEq, Eq, Hash, PartialOrd, Ord)]
pub enum Family {
    /// IPv4, number 4.
    Ipv4,
    /// IPv6, number 6.
    Ipv6,
}

impl Family {
    /// 4 or 6.
    ///
    /// ```
    /// assert_eq!(krubbadin::Family::Ipv4.number(), 4);
    /// ```
    pub const fn number(self) -> u8 {
        match self {
            Family::Ipv4 => 4,
            Family::Ipv6 => 6,
        }
    }
}

impl TryFrom<u8> for Family {
    type Error = Refusal;

    fn try_from(number: u8) -> Result<Self, Refusal> {
        match number {
            4 => Ok(Family::Ipv4),
            6 => Ok(Family::Ipv6),
            _ => Err(Reason::BadFamily(number).into()),
        }
    }
}

/// Reads a rule by the RFCs: the rule, and how many octets it took. Those that follow belong to someone else. It has no distinguisher;
/// [`read_distinguished`] reads one that has.
///
/// Reserved operator bits and AND on a list's first operator are ignored and read as 0, and so are a prefix's bits outside its range. A
/// prefix of IPv6 has the form with an offset. TCP flags have values of one octet or two, DSCP and fragments of one; the other lists have
/// values of one, two, four or eight.
///
/// # Errors
///
/// The refusals 1 to 4 and 6, each with its [place](Refusal::place).
///
/// ```
/// use krubbadin::{read, Family, FlowSpecComponent, Reason};
///
/// let input = [0x03, 0x01, 0x04, 0xFF, 0x00]; // a rule, and the next one's length
/// let (rule, used) = read(Family::Ipv4, &input).unwrap();
/// assert_eq!(rule.components, [FlowSpecComponent::DestinationPrefix("240.0.0.0/4".parse().unwrap())]);
/// assert_eq!(used, 4);
/// let refusal = read(Family::Ipv4, &[0x05, 0x03, 0x81, 0x06, 0x03, 0x81]).unwrap_err(); // the protocol twice
/// assert_eq!(refusal.reason(), Reason::InvalidComponentOrder { expected_greater_than: 3, found: 3 });
/// assert_eq!(refusal.place(), Some(4));
/// ```
///
/// A value that is too wide for its type is refused at its operator octet. The plain reading takes every width:
///
/// ```
/// use krubbadin::{parse_flowspec_nlri, read, Family, Reason};
///
/// let input = [0x04, 0x0B, 0x91, 0x00, 0x2E]; // DSCP 46 in two octets
/// let refusal = read(Family::Ipv4, &input).unwrap_err();
/// assert_eq!((refusal.reason(), refusal.place()), (Reason::InvalidValueLength(1), Some(2)));
/// assert_eq!(refusal.to_string(), "octet 2: a value of 2 octets (width code 1) is too wide for its type");
/// assert_eq!(parse_flowspec_nlri(&input).unwrap().to_string(), "DSCP =46");
/// ```
pub fn read(family: Family, input: &[u8]) -> Result<(FlowSpecNlri, usize), Refusal> {
    read_rule(STANDARD, family.number(), input)
}

/// As [`read`], of a rule of a virtual network, which a BGP speaker announces under subfamily 134: eight octets of route distinguisher stand
/// before the first component and count in the length (RFC 8955, 8).
///
/// # Errors
///
/// `ShortDistinguisher` where the stated length is within the input and leaves fewer than eight octets, with the stated end as its
/// [place](Refusal::place); what [`read`] refuses with. Places are counted from the start of the input.
///
/// ```
/// use krubbadin::{read_distinguished, Family, Reason, Refusal};
///
/// let input = [0x0B, 0x00, 0x00, 0xFB, 0xF0, 0x00, 0x00, 0x00, 0x07, 0x01, 0x08, 0x0A];
/// let (rule, used) = read_distinguished(Family::Ipv4, &input).unwrap();
/// assert_eq!(rule.distinguisher, Some([0, 0, 0xFB, 0xF0, 0, 0, 0, 7]));
/// assert_eq!(rule.to_string(), "distinguisher 0:64496:7; destination 10.0.0.0/8");
/// assert_eq!(used, 12);
/// let refusal = read_distinguished(Family::Ipv4, &[0x03, 0x01, 0x08, 0x0A]).unwrap_err();
/// assert_eq!(refusal, Refusal::at(Reason::ShortDistinguisher, 4));
/// assert_eq!(refusal.to_string(), "octet 4: the rule ends before the eight octets of its distinguisher");
/// ```
pub fn read_distinguished(family: Family, input: &[u8]) -> Result<(FlowSpecNlri, usize), Refusal> {
    read_rule(WITH_DISTINGUISHER, family.number(), input)
}

/// Checks a rule by the RFCs, without making it: how many octets it takes. Those that follow belong to someone else.
///
/// It accepts and refuses what [`read`] does, with the same refusals, and allocates nothing. [`check_flowspec_nlri`](crate::check_flowspec_nlri)
/// checks as the original reads.
///
/// # Errors
///
/// The refusals 1 to 4 and 6, each with its [place](Refusal::place).
///
/// ```
/// use krubbadin::{check, Family, Reason, Refusal};
///
/// // to 192.0.2.0/24, TCP, port 25, and the next one's length
/// let input = [0x0B, 0x01, 0x18, 0xC0, 0x00, 0x02, 0x03, 0x81, 0x06, 0x04, 0x81, 0x19, 0x00];
/// assert_eq!(check(Family::Ipv4, &input), Ok(12));
/// assert_eq!(check(Family::Ipv6, &input), Err(Refusal::at(Reason::InvalidPrefix, 2))); // offset 192 is past length 24
/// assert_eq!(check(Family::Ipv4, &input[..11]), Err(Refusal::at(Reason::InsufficientData, 11)));
/// ```
pub fn check(family: Family, input: &[u8]) -> Result<usize, Refusal> {
    check_rule(STANDARD, family.number(), input)
}

/// As [`check`], of a rule with a distinguisher: it accepts and refuses what [`read_distinguished`] does.
///
/// # Errors
///
/// Those of [`read_distinguished`].
///
/// ```
/// use krubbadin::{check_distinguished, Family, Reason, Refusal};
///
/// let input = [0x0B, 0x00, 0x00, 0xFB, 0xF0, 0x00, 0x00, 0x00, 0x07, 0x01, 0x21, 0x0A];
/// // a length of 33, at octet 10
/// assert_eq!(check_distinguished(Family::Ipv4, &input), Err(Refusal::at(Reason::InvalidPrefix, 10)));
/// // the distinguisher alone is a rule of no components
/// assert_eq!(check_distinguished(Family::Ipv4, &[0x08, 0, 0, 0xFB, 0xF0, 0, 0, 0, 7]), Ok(9));
/// ```
pub fn check_distinguished(family: Family, input: &[u8]) -> Result<usize, Refusal> {
    check_rule(WITH_DISTINGUISHER, family.number(), input)
}

/// Writes a rule by the RFCs, its distinguisher before its components if it has one.
///
/// # Errors
///
/// `BadRecord` for a rule that the family does not know: types that do not rise, a prefix of the wrong form or with bits outside its
/// range, an empty list, an end mark missing or in the wrong place, AND on a first operator, a value too large for its width, a width that
/// [`read`] refuses for the type; [`why`](crate::why()) says which. `ValueTooLarge` for a body of more than 4,095 octets, the distinguisher's
/// among them.
///
/// ```
/// use krubbadin::{read, write, Family, Reason};
///
/// // RFC 8956, 3.8.2: to 2001:db8::/32, from ::1234:5678:9a00:0, bits 65 to 103
/// let input = [0x0F, 0x01, 0x20, 0x00, 0x20, 0x01, 0x0D, 0xB8, 0x02, 0x68, 0x41, 0x24, 0x68, 0xAC, 0xF1, 0x34];
/// let (rule, _) = read(Family::Ipv6, &input).unwrap();
/// assert_eq!(write(Family::Ipv6, &rule).unwrap(), input);
/// assert_eq!(write(Family::Ipv4, &rule).unwrap_err().reason(), Reason::BadRecord);
/// ```
pub fn write(family: Family, rule: &FlowSpecNlri) -> Result<Vec<u8>, Refusal> {
    write_rule(STANDARD, family.number(), rule)
}

/// Whether a rule matches a packet: whether every component does. The distinguisher plays no part.
///
/// # Errors
///
/// `BadPacket` ([`Packet::why`] says which field); `BadRecord` or `ValueTooLarge` as [`write()`] has them, both told as `BadRecord`
/// ([`why`](crate::why()) says which); `MixedFamily` if the packet is of another family.
///
/// ```
/// use krubbadin::{matches, read, Family, Packet};
///
/// // to ports 80, 90 and 443
/// let (rule, _) = read(Family::Ipv4, &[0x08, 0x05, 0x03, 0x50, 0x45, 0x5A, 0x91, 0x01, 0xBB]).unwrap();
/// let mut packet = Packet::new([203, 0, 113, 5], [192, 0, 2, 1]);
/// assert_eq!(matches(Family::Ipv4, &rule, &packet), Ok(false)); // it has no ports
/// packet.ports = Some((49152, 443));
/// assert_eq!(matches(Family::Ipv4, &rule, &packet), Ok(true));
/// ```
pub fn matches(family: Family, rule: &FlowSpecNlri, packet: &Packet) -> Result<bool, Refusal> {
    let words = packet.words();
    let answer = with_rule(family.number(), rule, |rule, values, octets| {
        surface::matches(rule, values, octets, &words)
    });
    // A rule that has no words is refused after the packet, as any other.
    let answer = answer.unwrap_or_else(|_| surface::matches(&[], &[], &[], &words));
    Ok(answer.accepted()?.0 == 1)
}

/// Which of two rules of a family precedes (RFC 8955, 5.1; RFC 8956, 4): `Less` if the first does, `Greater` if the second does. Both have
/// the same distinguisher, or none.
///
/// `Equal` is answered exactly if [`write()`] writes the same octets for both. Reserved bits, which a rule does not keep, and path ids play
/// no part; the width of a value does.
///
/// # Errors
///
/// `BadRecord` for a rule that [`write()`] refuses; `MixedDistinguisher` with 1 if the second's distinguisher is not the first's.
///
/// ```
/// use krubbadin::{rank, read, Family};
/// use std::cmp::Ordering;
///
/// let (ten, _) = read(Family::Ipv4, &[0x03, 0x01, 0x08, 0x0A]).unwrap(); // 10.0.0.0/8
/// let (eleven, _) = read(Family::Ipv4, &[0x04, 0x01, 0x10, 0x0B, 0x00]).unwrap(); // 11.0.0.0/16
/// assert_eq!(rank(Family::Ipv4, &ten, &eleven), Ok(Ordering::Less));
/// assert_eq!(rank(Family::Ipv4, &ten, &ten), Ok(Ordering::Equal));
/// ```
///
/// The same value in one octet and in two is not written alike, and not of equal rank:
///
/// ```
/// use krubbadin::{rank, read, write, Family};
/// use std::cmp::Ordering;
///
/// let (one, _) = read(Family::Ipv4, &[0x03, 0x03, 0x81, 0x06]).unwrap(); // protocol 6
/// let (two, _) = read(Family::Ipv4, &[0x04, 0x03, 0x91, 0x00, 0x06]).unwrap(); // the same, in two octets
/// assert_eq!(rank(Family::Ipv4, &one, &two), Ok(Ordering::Less));
/// assert_ne!(write(Family::Ipv4, &one), write(Family::Ipv4, &two));
/// let (reserved, _) = read(Family::Ipv4, &[0x03, 0x03, 0x89, 0x06]).unwrap(); // with a reserved bit
/// assert_eq!(rank(Family::Ipv4, &one, &reserved), Ok(Ordering::Equal));
/// assert_eq!(write(Family::Ipv4, &one), write(Family::Ipv4, &reserved));
/// ```
pub fn rank(family: Family, one: &FlowSpecNlri, two: &FlowSpecNlri) -> Result<Ordering, Refusal> {
    let family = family.number();
    let answer = with_rule(family, one, |words, values, octets| {
        let one = (words, values, octets);
        with_rule(family, two, |words, values, octets| {
            surface::rank(one, (words, values, octets))
        })
    })??;
    Ok(match answer.accepted()?.0 {
        0 => Ordering::Equal,
        1 => Ordering::Less,
        _ => Ordering::Greater,
    })
}

/// Whether the first of two rules of a family precedes the second. Equal rules do not precede each other.
///
/// # Errors
///
/// As [`rank`].
///
/// ```
/// use krubbadin::{precedes, read, Family};
///
/// let (narrow, _) = read(Family::Ipv4, &[0x04, 0x01, 0x10, 0x0A, 0x01]).unwrap(); // 10.1.0.0/16
/// let (wide, _) = read(Family::Ipv4, &[0x03, 0x01, 0x08, 0x0A]).unwrap(); // 10.0.0.0/8
/// assert_eq!(precedes(Family::Ipv4, &narrow, &wide), Ok(true));
/// assert_eq!(precedes(Family::Ipv4, &wide, &narrow), Ok(false));
/// ```
pub fn precedes(family: Family, one: &FlowSpecNlri, two: &FlowSpecNlri) -> Result<bool, Refusal> {
    Ok(rank(family, one, two)? == Ordering::Less)
}

/// Rules to choose among, at most 64, kept in the form that choosing takes, so that a choice converts nothing.
///
/// ```
/// use krubbadin::{Family, Table};
///
/// let mut table = Table::new();
/// table.read(Family::Ipv4, &[0x03, 0x01, 0x08, 0x0A]).unwrap();
/// assert_eq!(table.len(), 1);
/// ```
#[derive(Debug, Clone, Default, PartialEq, Eq)]
pub struct Table {
    rules: Many,
}

impl Table {
    /// The most rules that a table holds.
    ///
    /// ```
    /// assert_eq!(krubbadin::Table::MOST, 64);
    /// ```
    pub const MOST: usize = 64;

    /// No rules.
    ///
    /// ```
    /// assert!(krubbadin::Table::new().is_empty());
    /// ```
    pub fn new() -> Self {
        Table::default()
    }

    /// How many rules there are.
    ///
    /// ```
    /// assert_eq!(krubbadin::Table::new().len(), 0);
    /// ```
    pub fn len(&self) -> usize {
        self.rules.len()
    }

    /// Whether there are none.
    ///
    /// ```
    /// assert!(krubbadin::Table::new().is_empty());
    /// ```
    pub fn is_empty(&self) -> bool {
        self.len() == 0
    }

    /// Adds a rule, at the place after the last.
    ///
    /// # Errors
    ///
    /// `TooManyRules` at the sixty-fifth; what [`write()`] refuses with. A rule that is refused is not added.
    ///
    /// ```
    /// use krubbadin::{Family, FlowSpecComponent, FlowSpecNlri, Reason, Table};
    ///
    /// let mut table = Table::new();
    /// let rule = |prefix: &str| FlowSpecNlri::new(vec![FlowSpecComponent::DestinationPrefix(prefix.parse().unwrap())]);
    /// assert_eq!(table.push(Family::Ipv4, &rule("10.0.0.0/8")), Ok(()));
    /// let refusal = table.push(Family::Ipv4, &rule("10.0.0.1/8")).unwrap_err(); // bits past the length
    /// assert_eq!(refusal.reason(), Reason::BadRecord);
    /// assert_eq!(table.len(), 1);
    /// ```
    pub fn push(&mut self, family: Family, rule: &FlowSpecNlri) -> Result<(), Refusal> {
        self.has_place()?;
        write(family, rule)?;
        self.rules.push(family.number(), rule)
    }

    /// Reads a rule by the RFCs and adds it, at the place after the last: how many octets it took. It has no distinguisher.
    ///
    /// # Errors
    ///
    /// `TooManyRules` at the sixty-fifth; what [`read`] refuses with. A rule that is refused is not added.
    ///
    /// ```
    /// use krubbadin::{Family, Reason, Refusal, Table};
    ///
    /// let mut table = Table::new();
    /// assert_eq!(table.read(Family::Ipv4, &[0x03, 0x01, 0x08, 0x0A]), Ok(4));
    /// let refusal = Refusal::at(Reason::InvalidPrefix, 2);
    /// assert_eq!(table.read(Family::Ipv4, &[0x02, 0x01, 0x21]), Err(refusal));
    /// ```
    pub fn read(&mut self, family: Family, input: &[u8]) -> Result<usize, Refusal> {
        self.has_place()?;
        self.rules.read(STANDARD, family.number(), input)
    }

    /// Reads a rule with a distinguisher, as [`read_distinguished`] does, and adds it, at the place after the last: how many octets it took.
    ///
    /// # Errors
    ///
    /// `TooManyRules` at the sixty-fifth; what [`read_distinguished`] refuses with. A rule that is refused is not added.
    ///
    /// ```
    /// use krubbadin::{Family, Reason, Refusal, Table};
    ///
    /// let mut table = Table::new();
    /// assert_eq!(table.read_distinguished(Family::Ipv4, &[0x08, 0, 0, 0xFB, 0xF0, 0, 0, 0, 7]), Ok(9));
    /// assert_eq!(table.rule(0).unwrap().to_string(), "distinguisher 0:64496:7; every packet");
    /// let refusal = Refusal::at(Reason::ShortDistinguisher, 1);
    /// assert_eq!(table.read_distinguished(Family::Ipv4, &[0x00]), Err(refusal));
    /// ```
    pub fn read_distinguished(&mut self, family: Family, input: &[u8]) -> Result<usize, Refusal> {
        self.has_place()?;
        self.rules.read(WITH_DISTINGUISHER, family.number(), input)
    }

    /// The rule at a place, as it is read again from what the table keeps; path ids are not kept.
    ///
    /// ```
    /// use krubbadin::{Family, Table};
    ///
    /// let mut table = Table::new();
    /// table.read(Family::Ipv4, &[0x03, 0x01, 0x08, 0x0A]).unwrap();
    /// assert_eq!(table.rule(0).unwrap().to_string(), "destination 10.0.0.0/8");
    /// assert_eq!(table.rule(1), None);
    /// ```
    pub fn rule(&self, place: usize) -> Option<FlowSpecNlri> {
        self.rules.get(place).map(|(_, rule)| rule)
    }

    /// The rules in their order, each with its family.
    ///
    /// ```
    /// use krubbadin::{Family, Table};
    ///
    /// let mut table = Table::new();
    /// table.read(Family::Ipv4, &[0x03, 0x01, 0x08, 0x0A]).unwrap();
    /// table.read(Family::Ipv6, &[0x03, 0x03, 0x81, 0x06]).unwrap();
    /// let all: Vec<String> = table.iter().map(|(family, rule)| format!("{family:?}: {rule}")).collect();
    /// assert_eq!(all, ["Ipv4: destination 10.0.0.0/8", "Ipv6: protocol =6"]);
    /// ```
    pub fn iter(&self) -> impl Iterator<Item = (Family, FlowSpecNlri)> + '_ {
        (0..self.len()).filter_map(|place| {
            let (number, rule) = self.rules.get(place)?;
            Some((Family::try_from(number).ok()?, rule))
        })
    }

    /// Takes off all rules.
    ///
    /// ```
    /// use krubbadin::{Family, Table};
    ///
    /// let mut table = Table::new();
    /// table.read(Family::Ipv4, &[0x00]).unwrap();
    /// table.clear();
    /// assert!(table.is_empty());
    /// ```
    pub fn clear(&mut self) {
        self.rules.truncate(0, 0);
    }

    fn has_place(&self) -> Result<(), Refusal> {
        match self.len() + 1 {
            count if count > Table::MOST => Err(Reason::TooManyRules(count).into()),
            _ => Ok(()),
        }
    }
}

/// The place of the rule that decides for a packet, counted from 0: of the rules that match it, the one that precedes the others, of
/// equal ones the first. `None` if none matches.
///
/// # Errors
///
/// `BadPacket` ([`Packet::why`] says which field); `MixedFamily` with the place of the first rule of another family than the packet's;
/// `MixedDistinguisher` with the place of the first rule whose distinguisher is not that of the rule at place 0, or that alone of the two has
/// one.
///
/// ```
/// use krubbadin::{choose, Family, Packet, Table};
///
/// let mut table = Table::new();
/// table.read(Family::Ipv4, &[0x03, 0x01, 0x08, 0x0A]).unwrap(); // 10.0.0.0/8
/// table.read(Family::Ipv4, &[0x04, 0x01, 0x10, 0x0A, 0x01]).unwrap(); // 10.1.0.0/16
/// let to = |address: [u8; 4]| choose(&table, &Packet::new([192, 0, 2, 1], address));
/// assert_eq!(to([10, 1, 2, 3]), Ok(Some(1)));
/// assert_eq!(to([10, 2, 0, 1]), Ok(Some(0)));
/// assert_eq!(to([11, 0, 0, 1]), Ok(None));
/// ```
pub fn choose(table: &Table, packet: &Packet) -> Result<Option<usize>, Refusal> {
    let Many {
        words,
        values,
        octets,
    } = &table.rules;
    let answer = surface::choose(words, values, octets, &packet.words());
    let (found, place) = answer.accepted()?;
    Ok(Some(place).filter(|_| found == 1))
}
