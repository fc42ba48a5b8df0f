//! Octets that are read one after another, each at its place.

use crate::refusals::{Fault, Refusal};

/// An input up to the end that bounds the read, and the place that is read next. Places count from
/// the start of the input.
pub(crate) struct Octets<'a> {
    bounded: &'a [u8],
    place: usize,
}

impl<'a> Octets<'a> {
    pub(crate) fn new(input: &'a [u8]) -> Self {
        Octets {
            bounded: input,
            place: 0,
        }
    }

    /// Those before this end.
    pub(crate) fn up_to(self, end: usize) -> Self {
        Octets {
            bounded: &self.bounded[..end],
            place: self.place,
        }
    }

    pub(crate) fn place(&self) -> usize {
        self.place
    }

    pub(crate) fn is_at_end(&self) -> bool {
        self.place == self.bounded.len()
    }

    /// The next octets, all that are asked for. Where one is missing, the place is the end, though
    /// some of them be there (document 01, "What comes back").
    pub(crate) fn take(&mut self, count: usize) -> Result<&'a [u8], Fault> {
        let after = self.after(count)?;
        let taken = &self.bounded[self.place..after];
        self.place = after;
        Ok(taken)
    }

    pub(crate) fn one(&mut self) -> Result<u8, Fault> {
        Ok(self.take(1)?[0])
    }

    /// The place behind so many octets.
    fn after(&self, count: usize) -> Result<usize, Fault> {
        let end = self.bounded.len();
        match self.place + count {
            after if after > end => Err(Refusal::InsufficientData.at(end)),
            after => Ok(after),
        }
    }

    /// Reads the length field, RFC 8955, 4.1: one octet below 240, else twelve bits behind a first F.
    /// The end that it states.
    pub(crate) fn stated_end(&mut self) -> Result<usize, Fault> {
        let first = usize::from(self.one()?);
        if first < 240 {
            return self.after(first);
        }
        let second = usize::from(self.one()?);
        self.after((first & 0x0F) * 256 + second)
    }
}
