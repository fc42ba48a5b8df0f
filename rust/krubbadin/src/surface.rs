//! The archive's own calls, on numbers and slices alone. They allocate nothing and are the way to go where every nanosecond counts; the
//! rest of the crate is made of them.
//!
//! `include/krubbadin.h` says the same for C. This is the only module with `unsafe` in it. What the archive asks of a caller is that a
//! slice be what its pointer and its length say, and that no slice which is written overlap another: a `&[T]` and a `&mut [T]` are that.
//! It asks nothing else: any numbers, any words, any lengths are answered, and what is no rule or no packet is refused.
//!
//! # The words of a rule
//!
//! A rule stands in [`WORDS`] words, its operators in two lists beside each other, the values and the operator octets. Of unequal lists the
//! shorter counts.
//!
//! | words | what stands there |
//! |---|---|
//! | 0 to 51 | thirteen components of four words each; unused ones are 0 |
//! | 52 ([`COUNT`]) | how many components there are, at most 13 |
//! | 53 ([`FAMILY`]) | the family: 0 as the plain reading leaves it, 4 or 6 as a standard one does; at most 255 |
//! | 54 ([`FIRST`]) | the place in the two lists where the rule's operators begin |
//! | 55 ([`DISTINGUISHED`]) | whether the rule has a distinguisher, 0 or 1 |
//! | 56 ([`DISTINGUISHER`]) | its eight octets as a number, the first the highest; 0 where there is none |
//! | 57 to 63 | 0 |
//!
//! A prefix, types 1 and 2, has the four words
//!
//! - its type + 16 × its form: 0 IPv4, 1 IPv6, 2 IPv4 with an offset, 3 IPv6 with an offset;
//! - its length + 256 × its offset, the offset 0 where the form has none;
//! - an IPv4 address, or the first 64 bits of an IPv6 address;
//! - 0, or the last 64 bits of an IPv6 address.
//!
//! A list, types 3 to 13, has its type; the place of its first operator, counted from the rule's first; how many operators it has; and 0.
//!
//! # The words of a packet
//!
//! | words | what stands there |
//! |---|---|
//! | 0 | the family, 4 or 6 |
//! | 1, 2 | the destination, its high and its low 64 bits |
//! | 3, 4 | the source, in the same way |
//! | 5, 6, 7, 8 | protocol (to 255), length (to 65,575), DSCP (to 63), fragment bits (to 15: DF 1, IsF 2, FF 4, LF 8) |
//! | 9, 10, 11 | whether there are ports, 0 or 1; source port, destination port (to 65,535) |
//! | 12, 13, 14 | whether there are ICMP fields; type, code (to 255) |
//! | 15, 16 | whether there are TCP flags; the flags (to 4,095): octets 13 and 14 of the TCP header counted from 1, the data offset taken as 0 |
//! | 17, 18 | whether there is a flow label, never in family 4; the label (to 1,048,575) |
//! | 19 | 0 |

#![allow(unsafe_code)]

use crate::error::Refusal;
use std::mem::MaybeUninit;
use std::slice;

pub use crate::why::{why_packet, why_rule};

/// The words of a rule.
///
/// ```
/// use krubbadin::surface::{COUNT, FIRST, WORDS};
/// assert_eq!((WORDS, COUNT, FIRST), (64, 4 * 13, 54));
/// ```
pub const WORDS: usize = 64;
/// The word that says how many components a rule has: 52.
///
/// ```
/// let mut words = [7; krubbadin::surface::WORDS];
/// krubbadin::surface::read(1, 6, &[0x00], &mut words, &mut [], &mut []);
/// assert_eq!(words[krubbadin::surface::COUNT], 0);
/// ```
pub const COUNT: usize = 52;
/// The word that says a rule's family: 53.
///
/// ```
/// let mut words = [7; krubbadin::surface::WORDS];
/// krubbadin::surface::read(1, 6, &[0x00], &mut words, &mut [], &mut []);
/// assert_eq!(words[krubbadin::surface::FAMILY], 6);
/// ```
pub const FAMILY: usize = 53;
/// The word that says where in the lists a rule's operators begin: 54.
///
/// ```
/// let mut words = [7; krubbadin::surface::WORDS];
/// krubbadin::surface::read(1, 6, &[0x00], &mut words, &mut [], &mut []);
/// assert_eq!(words[krubbadin::surface::FIRST], 0);
/// ```
pub const FIRST: usize = 54;
/// The word that says whether a rule has a distinguisher, 0 or 1: 55.
///
/// ```
/// use krubbadin::surface::{read, DISTINGUISHED, DISTINGUISHER, WITH_DISTINGUISHER};
///
/// // a distinguisher of zeros is there all the same
/// let mut words = [7; 64];
/// read(WITH_DISTINGUISHER, 4, &[0x08, 0, 0, 0, 0, 0, 0, 0, 0], &mut words, &mut [], &mut []);
/// assert_eq!((words[DISTINGUISHED], words[DISTINGUISHER]), (1, 0));
/// ```
pub const DISTINGUISHED: usize = 55;
/// The word that has a distinguisher's eight octets as a number, the first the highest, and 0 where there is none: 56.
///
/// ```
/// use krubbadin::surface::{read, DISTINGUISHER, WITH_DISTINGUISHER};
///
/// let mut words = [7; 64];
/// read(WITH_DISTINGUISHER, 4, &[0x08, 0, 0, 0xFB, 0xF0, 0, 0, 0, 7], &mut words, &mut [], &mut []);
/// assert_eq!(words[DISTINGUISHER], 0x0000_FBF0_0000_0007);
/// ```
pub const DISTINGUISHER: usize = 56;
/// `standard` of the plain reading and the plain writing: 0.
///
/// ```
/// use krubbadin::surface::{check, PLAIN};
/// assert_eq!(check(PLAIN, 0, &[0x03, 0x03, 0x81, 0x06]).first, 4);
/// ```
pub const PLAIN: u8 = 0;
/// `standard` of the standard reading without a distinguisher, and of the standard writing: 1.
///
/// ```
/// use krubbadin::surface::{check, STANDARD};
/// assert_eq!(check(STANDARD, 4, &[0x03, 0x03, 0x81, 0x06]).first, 4);
/// ```
pub const STANDARD: u8 = 1;
/// `standard` of the standard reading that expects a distinguisher: 2. To a writing it is as [`STANDARD`], which writes the one that a rule
/// has.
///
/// ```
/// use krubbadin::surface::{check, WITH_DISTINGUISHER};
///
/// assert_eq!(check(WITH_DISTINGUISHER, 4, &[0x0B, 0, 0, 0xFB, 0xF0, 0, 0, 0, 7, 0x03, 0x81, 0x06]).first, 12);
/// let answer = check(WITH_DISTINGUISHER, 4, &[0x03, 0x03, 0x81, 0x06]);
/// assert_eq!((answer.status, answer.place), (19, 4));
/// ```
pub const WITH_DISTINGUISHER: u8 = 2;
/// The most operators that an NLRI can have: its body has at most 4,095 octets, one is a type, and an operator takes two at least. With
/// lists of so many places no reading is short of room.
///
/// ```
/// assert_eq!(krubbadin::surface::OPERATORS, (4095 - 1) / 2);
/// ```
pub const OPERATORS: usize = 2047;
/// The words of a packet.
///
/// ```
/// assert_eq!(krubbadin::Packet::new([10, 1, 2, 3], [192, 0, 2, 1]).words().len(), krubbadin::surface::PACKET);
/// ```
pub const PACKET: usize = 20;
/// The place of an answer that has none: all ones.
///
/// ```
/// use krubbadin::surface::{check, NOWHERE};
///
/// assert_eq!(check(1, 4, &[0x03, 0x03, 0x81, 0x06]).place, NOWHERE); // accepted
/// assert_eq!(check(1, 5, &[0x03, 0x03, 0x81, 0x06]).place, NOWHERE); // no octet is to blame for the family
/// assert_eq!(check(1, 4, &[0x03, 0x03, 0x81]).place, 3);
/// ```
pub const NOWHERE: u64 = u64::MAX;

/// What a call answers: status 0 with two numbers, or a refusal's number, what that carries, and the place of the octet that is refused.
///
/// ```
/// use krubbadin::surface::read;
/// use krubbadin::{Reason, Refusal};
///
/// let (mut words, mut values, mut octets) = ([0; 64], [0; 8], [0; 8]);
/// let answer = read(0, 0, &[0x03, 0x03, 0x89, 0x06], &mut words, &mut values, &mut octets);
/// assert_eq!((answer.status, answer.first, answer.second, answer.place), (5, 0x89, 0, 2));
/// assert_eq!(answer.accepted(), Err(Refusal::at(Reason::InvalidOperator(0x89), 2)));
/// ```
#[repr(C)]
#[derive(Debug, Clone, Copy, PartialEq, Eq)]
pub struct Answer {
    /// 0, or the number of the refusal.
    pub status: u64,
    /// The first number of the answer, or the first that the refusal carries, or 0.
    pub first: u64,
    /// The second number of the answer, or the second that the refusal carries, or 0.
    pub second: u64,
    /// The place of the octet that is refused, counted from the start of the input, as [`Refusal::place`] has it, or [`NOWHERE`]: only the
    /// refusals 1 to 6 and 19 of a reading have one.
    pub place: u64,
}

/// An operator, as [`operator_read`] and [`operator_make`] give it.
///
/// ```
/// use krubbadin::surface::operator_read;
///
/// let operator = operator_read(0, 0x91, 443);
/// assert_eq!(operator.status, 0);
/// assert_eq!((operator.end_of_list, operator.and_with_next), (1, 0));
/// assert_eq!((operator.value_length, operator.flags, operator.value), (2, 1, 443));
/// ```
#[repr(C)]
#[derive(Debug, Clone, Copy, PartialEq, Eq)]
pub struct Operator {
    /// 0, or the number of the refusal, and then all but [`Operator::carried`] is 0.
    pub status: u64,
    /// What the refusal carries.
    pub carried: u64,
    /// 1 if it ends its list, else 0.
    pub end_of_list: u64,
    /// 1 if it is joined by AND, else 0. The RFC joins it to the previous operator.
    pub and_with_next: u64,
    /// The octets of its value: 1, 2, 4 or 8.
    pub value_length: u64,
    /// Numeric: less 4, greater 2, equal 1. Bitmask: NOT 2, match 1.
    pub flags: u64,
    /// Its value.
    pub value: u64,
}

mod exported {
    use super::{Answer, Operator};

    extern "C" {
        pub fn krubbadin_read(
            standard: u8,
            family: u8,
            input: *const u8,
            input_len: usize,
            words: *mut u64,
            words_len: usize,
            values: *mut u64,
            values_len: usize,
            octets: *mut u8,
            octets_len: usize,
        ) -> Answer;
        pub fn krubbadin_check(
            standard: u8,
            family: u8,
            input: *const u8,
            input_len: usize,
        ) -> Answer;
        pub fn krubbadin_write(
            standard: u8,
            family: u8,
            words: *const u64,
            words_len: usize,
            values: *const u64,
            values_len: usize,
            octets: *const u8,
            octets_len: usize,
            out: *mut u8,
            out_len: usize,
        ) -> Answer;
        pub fn krubbadin_match(
            words: *const u64,
            words_len: usize,
            values: *const u64,
            values_len: usize,
            octets: *const u8,
            octets_len: usize,
            packet: *const u64,
            packet_len: usize,
        ) -> Answer;
        pub fn krubbadin_rank(
            words: *const u64,
            words_len: usize,
            values: *const u64,
            values_len: usize,
            octets: *const u8,
            octets_len: usize,
            words2: *const u64,
            words2_len: usize,
            values2: *const u64,
            values2_len: usize,
            octets2: *const u8,
            octets2_len: usize,
        ) -> Answer;
        pub fn krubbadin_choose(
            words: *const u64,
            words_len: usize,
            values: *const u64,
            values_len: usize,
            octets: *const u8,
            octets_len: usize,
            packet: *const u64,
            packet_len: usize,
        ) -> Answer;
        pub fn krubbadin_operator_read(bitmask: u8, octet: u8, value: u64) -> Operator;
        pub fn krubbadin_operator_write(
            bitmask: u8,
            end_of_list: u8,
            and_with_next: u8,
            value_length: u8,
            flags: u8,
        ) -> Answer;
        pub fn krubbadin_operator_make(which: u8, value: u64) -> Operator;
    }
}

/// Reads a rule into the first 64 words, its operators into the two lists. With `standard` 0 ([`PLAIN`]) it is the plain reading, which looks
/// at no family; with 2 ([`WITH_DISTINGUISHER`]) the standard one in the family, 4 or 6, of a rule with a distinguisher; with any other number
/// ([`STANDARD`]) that of a rule without one.
///
/// Accepted: the octets used, and how many operators there are. Places past the last one filled stay. Refusals: 8 (plain) or 11 (standard);
/// 1 in the length and where the stated end lies past the input; 19 where a distinguisher is expected and the stated length is below eight;
/// then 1 to 4 and 5 (plain) or 6 (standard) as the walk meets them; all but 8 and 11 with their place; then 9 with the places needed. A
/// refusal changes nothing.
///
/// ```
/// use krubbadin::surface::{read, COUNT};
///
/// let (mut words, mut values, mut octets) = ([0; 64], [7; 4], [7; 4]);
/// let input = [0x08, 0x05, 0x03, 0x50, 0x45, 0x5A, 0x91, 0x01, 0xBB];
/// let answer = read(1, 4, &input, &mut words, &mut values, &mut octets);
/// assert_eq!((answer.status, answer.first, answer.second), (0, 9, 3));
/// assert_eq!((values, octets), ([80, 90, 443, 7], [0x03, 0x45, 0x91, 7]));
/// assert_eq!((words[COUNT], &words[..4]), (1, &[5, 0, 3, 0][..]));
/// ```
#[inline]
pub fn read(
    standard: u8,
    family: u8,
    input: &[u8],
    words: &mut [u64],
    values: &mut [u64],
    octets: &mut [u8],
) -> Answer {
    // SAFETY: each pointer comes with the length of the slice that it is taken from, and no slice that is written overlaps another. The
    // callee keeps to them and keeps none of them: that is proved. The same holds of every call below.
    unsafe {
        exported::krubbadin_read(
            standard,
            family,
            input.as_ptr(),
            input.len(),
            words.as_mut_ptr(),
            words.len(),
            values.as_mut_ptr(),
            values.len(),
            octets.as_mut_ptr(),
            octets.len(),
        )
    }
}

/// What [`read_anew`] read: the octets used, the rule's words, its operators.
pub(crate) struct Anew<'a> {
    pub used: usize,
    pub words: &'a [u64; WORDS],
    pub values: &'a [u64],
    pub octets: &'a [u8],
}

/// As [`read`], into places that hold nothing yet.
#[inline]
pub(crate) fn read_anew<'a>(
    standard: u8,
    family: u8,
    input: &[u8],
    words: &'a mut MaybeUninit<[u64; WORDS]>,
    values: &'a mut [MaybeUninit<u64>],
    octets: &'a mut [MaybeUninit<u8>],
) -> Result<Anew<'a>, Refusal> {
    // SAFETY: as in `read`. What the callee answers and writes is proved whatever the places held.
    let answer = unsafe {
        exported::krubbadin_read(
            standard,
            family,
            input.as_ptr(),
            input.len(),
            words.as_mut_ptr().cast(),
            WORDS,
            values.as_mut_ptr().cast(),
            values.len(),
            octets.as_mut_ptr().cast(),
            octets.len(),
        )
    };
    let (used, operators) = answer.accepted()?;
    let (values, octets) = (&values[..operators], &octets[..operators]);
    // SAFETY: an accepted reading wrote all 64 words and so many places of each list: that is proved.
    unsafe {
        Ok(Anew {
            used,
            words: words.assume_init_ref(),
            values: slice::from_raw_parts(values.as_ptr().cast(), operators),
            octets: slice::from_raw_parts(octets.as_ptr().cast(), operators),
        })
    }
}

/// Checks a rule and writes nothing: answers what [`read`] with the same `standard` and `family` and with room for all would.
///
/// Accepted: the octets used, and how many operators there are, which is how many places [`read`] needs in each list. Refusals: those of
/// [`read`], in its order; never 9.
///
/// ```
/// use krubbadin::surface::check;
///
/// let input = [0x08, 0x05, 0x03, 0x50, 0x45, 0x5A, 0x91, 0x01, 0xBB];
/// let answer = check(1, 4, &input);
/// assert_eq!((answer.status, answer.first, answer.second), (0, 9, 3));
/// let answer = check(1, 4, &input[..8]);
/// assert_eq!((answer.status, answer.place), (1, 8));
/// let answer = check(1, 5, &input);
/// assert_eq!((answer.status, answer.first), (11, 5));
/// let answer = check(1, 4, &[0x02, 0x0B, 0x91]); // a DSCP value of two octets, of which none is there
/// assert_eq!((answer.status, answer.first, answer.place), (6, 1, 2));
/// ```
#[inline]
pub fn check(standard: u8, family: u8, input: &[u8]) -> Answer {
    // SAFETY: as in `read`.
    unsafe { exported::krubbadin_check(standard, family, input.as_ptr(), input.len()) }
}

/// Writes the rule that stands in the first 64 words, its operators in the two lists, to `out`. With `standard` 0 ([`PLAIN`]) it is the plain
/// writing, which does not look at the distinguisher, with any other number the standard one in the family, which writes it before the
/// components if there is one.
///
/// Accepted: the octets written. Later octets of `out` stay. Refusals: 11 (standard), 10, 7, then 9 with the octets needed. A
/// refusal changes nothing.
///
/// ```
/// use krubbadin::surface::{write, COUNT};
///
/// let mut words = [0; 64];
/// words[..4].copy_from_slice(&[3, 0, 1, 0]); // the protocol, one operator from place 0
/// words[COUNT] = 1;
/// let mut out = [0xAA; 5];
/// let answer = write(1, 4, &words, &[6], &[0x81], &mut out);
/// assert_eq!((answer.status, answer.first), (0, 4));
/// assert_eq!(out, [0x03, 0x03, 0x81, 0x06, 0xAA]);
/// ```
#[inline]
pub fn write(
    standard: u8,
    family: u8,
    words: &[u64],
    values: &[u64],
    octets: &[u8],
    out: &mut [u8],
) -> Answer {
    // SAFETY: as in `read`.
    unsafe {
        exported::krubbadin_write(
            standard,
            family,
            words.as_ptr(),
            words.len(),
            values.as_ptr(),
            values.len(),
            octets.as_ptr(),
            octets.len(),
            out.as_mut_ptr(),
            out.len(),
        )
    }
}

/// Whether the rule in the first 64 words matches the packet.
///
/// Accepted: 1 if it does, else 0. Refusals: 13, 10, then 14 with 0 if the rule's family is not the packet's.
///
/// ```
/// use krubbadin::surface::{matches, COUNT, FAMILY};
/// use krubbadin::Packet;
///
/// let mut packet = Packet::new([10, 1, 2, 3], [192, 0, 2, 1]);
/// packet.protocol = 6;
/// let mut words = [0; 64];
/// words[..4].copy_from_slice(&[3, 0, 1, 0]);
/// (words[COUNT], words[FAMILY]) = (1, 4);
/// assert_eq!(matches(&words, &[6], &[0x81], &packet.words()).first, 1);
/// assert_eq!(matches(&words, &[17], &[0x81], &packet.words()).first, 0);
/// assert_eq!(matches(&words, &[], &[], &packet.words()).status, 10);
/// ```
#[inline]
pub fn matches(words: &[u64], values: &[u64], octets: &[u8], packet: &[u64]) -> Answer {
    // SAFETY: as in `read`.
    unsafe {
        exported::krubbadin_match(
            words.as_ptr(),
            words.len(),
            values.as_ptr(),
            values.len(),
            octets.as_ptr(),
            octets.len(),
            packet.as_ptr(),
            packet.len(),
        )
    }
}

/// Which of two rules precedes. Each is lent as its words, values and octets.
///
/// Accepted: 1 the first does, 2 the second, 0 they are equal. Refusals: 10, then 14 with 1 if the second's family is not the first's, then
/// 20 with 1 if the second's distinguisher is not the first's.
///
/// They are equal exactly if the standard [`write`] in their family, given room, writes the same octets for both. Reserved bits and
/// places in the lists play no part, the width of a value does.
///
/// ```
/// use krubbadin::surface::{rank, read};
///
/// let (mut one, mut two) = ([0; 64], [0; 64]);
/// read(1, 4, &[0x03, 0x01, 0x08, 0x0A], &mut one, &mut [], &mut []);
/// read(1, 4, &[0x04, 0x01, 0x10, 0x0A, 0x01], &mut two, &mut [], &mut []);
/// assert_eq!(rank((&one, &[], &[]), (&two, &[], &[])).first, 2);
/// assert_eq!(rank((&two, &[], &[]), (&one, &[], &[])).first, 1);
/// assert_eq!(rank((&one, &[], &[]), (&one, &[], &[])).first, 0);
/// ```
///
/// Protocol 6 with a reserved bit set, and in two octets:
///
/// ```
/// use krubbadin::surface::{rank, read, write};
///
/// let mut words = [0; 64];
/// read(1, 4, &[0x03, 0x03, 0x81, 0x06], &mut words, &mut [0], &mut [0]);
/// let rank = |octet, other| rank((&words, &[6], &[octet]), (&words, &[6], &[other])).first;
/// let written = |octet| {
///     let mut out = [0; 5];
///     let length = write(1, 4, &words, &[6], &[octet], &mut out).first;
///     out[..length as usize].to_vec()
/// };
/// assert_eq!(rank(0x81, 0x89), 0);
/// assert_eq!(written(0x81), written(0x89));
/// assert_eq!(rank(0x81, 0x91), 1);
/// assert_eq!((written(0x81), written(0x91)), (vec![0x03, 0x03, 0x81, 0x06], vec![0x04, 0x03, 0x91, 0x00, 0x06]));
/// ```
#[inline]
pub fn rank(one: (&[u64], &[u64], &[u8]), two: (&[u64], &[u64], &[u8])) -> Answer {
    // SAFETY: as in `read`.
    unsafe {
        exported::krubbadin_rank(
            one.0.as_ptr(),
            one.0.len(),
            one.1.as_ptr(),
            one.1.len(),
            one.2.as_ptr(),
            one.2.len(),
            two.0.as_ptr(),
            two.0.len(),
            two.1.as_ptr(),
            two.1.len(),
            two.2.as_ptr(),
            two.2.len(),
        )
    }
}

/// Which rule decides for a packet: of those that match it, the one that precedes the others, of equal ones the first. A rule has 64
/// words; the operators of all rules stand in the one pair of lists.
///
/// Accepted: 1 and the deciding rule's place, counted from 0; 0 if none matches. Refusals: 12 with the number of rules if there are more
/// than 64; 13; 10, also where words are left over after the last whole rule; 14 with the place of the first rule of another family; 20 with
/// the place of the first rule whose distinguisher is not that of the rule at place 0, or that alone of the two has one.
///
/// ```
/// use krubbadin::surface::{choose, read};
/// use krubbadin::Packet;
///
/// let mut words = [0; 128];
/// read(1, 4, &[0x03, 0x01, 0x08, 0x0A], &mut words[..64], &mut [], &mut []);
/// read(1, 4, &[0x04, 0x01, 0x10, 0x0A, 0x01], &mut words[64..], &mut [], &mut []);
/// let to = |destination: [u8; 4]| Packet::new([192, 0, 2, 1], destination).words();
/// let answer = choose(&words, &[], &[], &to([10, 1, 2, 3]));
/// assert_eq!((answer.first, answer.second), (1, 1));
/// let answer = choose(&words, &[], &[], &to([10, 2, 0, 1]));
/// assert_eq!((answer.first, answer.second), (1, 0));
/// assert_eq!(choose(&words, &[], &[], &to([11, 0, 0, 1])).first, 0);
/// ```
#[inline]
pub fn choose(words: &[u64], values: &[u64], octets: &[u8], packet: &[u64]) -> Answer {
    // SAFETY: as in `read`.
    unsafe {
        exported::krubbadin_choose(
            words.as_ptr(),
            words.len(),
            values.as_ptr(),
            values.len(),
            octets.as_ptr(),
            octets.len(),
            packet.as_ptr(),
            packet.len(),
        )
    }
}

/// The operator that an octet and a value are: numeric with `bitmask` 0, else bitmask. Refusal: 5 with the octet if reserved bits are set.
///
/// ```
/// use krubbadin::surface::operator_read;
///
/// assert_eq!(operator_read(1, 0x83, 0x12).flags, 3); // NOT and match
/// let refused = operator_read(1, 0x84, 0x12); // a reserved bit
/// assert_eq!((refused.status, refused.carried, refused.value), (5, 0x84, 0));
/// ```
#[inline]
pub fn operator_read(bitmask: u8, octet: u8, value: u64) -> Operator {
    // SAFETY: the call takes numbers and gives numbers back, and is proved for all of them.
    unsafe { exported::krubbadin_operator_read(bitmask, octet, value) }
}

/// The octet of an operator: numeric with `bitmask` 0, else bitmask.
///
/// Accepted: the octet. Refusal 10: a width other than 1, 2, 4 or 8, an end or AND above 1, flags above 7 (numeric) or 3 (bitmask).
///
/// ```
/// use krubbadin::surface::operator_write;
///
/// assert_eq!(operator_write(0, 1, 0, 2, 1).first, 0x91);
/// assert_eq!(operator_write(0, 1, 0, 3, 1).status, 10);
/// ```
#[inline]
pub fn operator_write(
    bitmask: u8,
    end_of_list: u8,
    and_with_next: u8,
    value_length: u8,
    flags: u8,
) -> Answer {
    // SAFETY: as in `operator_read`.
    unsafe {
        exported::krubbadin_operator_write(bitmask, end_of_list, and_with_next, value_length, flags)
    }
}

/// The operator that a constructor gives, of the least width that holds the value: 0 `equal_to`, 1 `greater_than_or_equal`, 2
/// `exact_match`, 3 `partial_match`. Anything else is refused with 10.
///
/// ```
/// use krubbadin::surface::operator_make;
///
/// let operator = operator_make(1, 1024);
/// assert_eq!((operator.end_of_list, operator.value_length, operator.flags), (1, 2, 3));
/// assert_eq!(operator_make(4, 1024).status, 10);
/// ```
#[inline]
pub fn operator_make(which: u8, value: u64) -> Operator {
    // SAFETY: as in `operator_read`.
    unsafe { exported::krubbadin_operator_make(which, value) }
}
