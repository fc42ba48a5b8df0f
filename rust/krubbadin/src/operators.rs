//! Operators as the original has them: an octet with a value, taken apart.

use crate::error::FlowSpecError;
use crate::surface::{self, Answer, Operator};

/// An operator that compares a number.
///
/// ```
/// use krubbadin::NumericOperator;
///
/// let web = NumericOperator::equal_to(443);
/// assert_eq!((web.end_of_list, web.value_length, web.equal), (true, 2, true));
/// assert_eq!(web.to_byte(), 0x91);
/// ```
#[derive(Debug, Clone, PartialEq, Eq)]
pub struct NumericOperator {
    /// Whether it is the last of its list (0x80).
    pub end_of_list: bool,
    /// The AND bit (0x40). The name is the original's; the RFC joins an operator to the previous one.
    pub and_with_next: bool,
    /// The octets of the value: 1, 2, 4 or 8 (0x30). By the standard a DSCP value has 1.
    pub value_length: u8,
    /// True of numbers less than the value (0x04).
    pub less_than: bool,
    /// True of numbers greater than the value (0x02).
    pub greater_than: bool,
    /// True of the value itself (0x01).
    pub equal: bool,
    /// The value.
    pub value: u64,
}

/// An operator that looks at bits.
///
/// ```
/// use krubbadin::BitmaskOperator;
///
/// let syn = BitmaskOperator::partial_match(0x02);
/// assert_eq!((syn.not, syn.match_flag, syn.bitmask), (false, true, 2));
/// assert_eq!(syn.to_byte(), 0x81);
/// ```
#[derive(Debug, Clone, PartialEq, Eq)]
pub struct BitmaskOperator {
    /// Whether it is the last of its list (0x80).
    pub end_of_list: bool,
    /// The AND bit (0x40). The name is the original's; the RFC joins an operator to the previous one.
    pub and_with_next: bool,
    /// The octets of the value: 1, 2, 4 or 8 (0x30). By the standard TCP flags have 1 or 2, fragment bits 1.
    pub value_length: u8,
    /// Whether the answer is inverted (0x02).
    pub not: bool,
    /// The match bit (0x01). By the RFC it asks for all bits of the mask; without it, any bit will do.
    pub match_flag: bool,
    /// The mask.
    pub bitmask: u64,
}

impl NumericOperator {
    /// The operator that an octet and a value are.
    ///
    /// # Errors
    ///
    /// `InvalidOperator` if the octet's reserved bit, 0x08, is set.
    ///
    /// ```
    /// use krubbadin::{FlowSpecError, NumericOperator};
    ///
    /// let at_most = NumericOperator::from_byte_and_value(0x95, 1024).unwrap();
    /// assert!(at_most.less_than && at_most.equal && !at_most.greater_than);
    /// let refused = NumericOperator::from_byte_and_value(0x89, 6);
    /// assert_eq!(refused, Err(FlowSpecError::InvalidOperator(0x89)));
    /// ```
    pub fn from_byte_and_value(operator_byte: u8, value: u64) -> Result<Self, FlowSpecError> {
        told(
            surface::operator_read(0, operator_byte, value),
            operator_byte,
        )
        .map(Self::of)
    }

    /// Its octet. A width other than 1, 2, 4 or 8 is written as 1, as the original writes it.
    ///
    /// ```
    /// use krubbadin::NumericOperator;
    /// assert_eq!(NumericOperator::from_byte_and_value(0x45, 90).unwrap().to_byte(), 0x45);
    /// ```
    pub fn to_byte(&self) -> u8 {
        let octet = match self.octet_of_width(self.value_length) {
            Answer {
                status: 0, first, ..
            } => first,
            _ => self.octet_of_width(1).first,
        };
        octet as u8
    }

    /// Equal to the value; the last of its list, of the least width that holds the value.
    ///
    /// ```
    /// assert_eq!(krubbadin::NumericOperator::equal_to(6).to_byte(), 0x81);
    /// ```
    pub fn equal_to(value: u64) -> Self {
        Self::of(surface::operator_make(0, value))
    }

    /// The value or above; the last of its list, of the least width that holds the value.
    ///
    /// ```
    /// assert_eq!(krubbadin::NumericOperator::greater_than_or_equal(1024).to_byte(), 0x93);
    /// ```
    pub fn greater_than_or_equal(value: u64) -> Self {
        Self::of(surface::operator_make(1, value))
    }

    fn octet_of_width(&self, width: u8) -> Answer {
        let flags =
            4 * u8::from(self.less_than) + 2 * u8::from(self.greater_than) + u8::from(self.equal);
        let (end, and) = (u8::from(self.end_of_list), u8::from(self.and_with_next));
        surface::operator_write(0, end, and, width, flags)
    }

    fn of(operator: Operator) -> Self {
        NumericOperator {
            end_of_list: operator.end_of_list != 0,
            and_with_next: operator.and_with_next != 0,
            value_length: operator.value_length as u8,
            less_than: operator.flags & 4 != 0,
            greater_than: operator.flags & 2 != 0,
            equal: operator.flags & 1 != 0,
            value: operator.value,
        }
    }
}

impl BitmaskOperator {
    /// The operator that an octet and a mask are.
    ///
    /// # Errors
    ///
    /// `InvalidOperator` if one of the octet's reserved bits, 0x0C, is set.
    ///
    /// ```
    /// use krubbadin::{BitmaskOperator, FlowSpecError};
    ///
    /// let none = BitmaskOperator::from_byte_and_value(0x82, 0x12).unwrap();
    /// assert!(none.not && !none.match_flag);
    /// let refused = BitmaskOperator::from_byte_and_value(0x85, 0x01);
    /// assert_eq!(refused, Err(FlowSpecError::InvalidOperator(0x85)));
    /// ```
    pub fn from_byte_and_value(operator_byte: u8, bitmask: u64) -> Result<Self, FlowSpecError> {
        told(
            surface::operator_read(1, operator_byte, bitmask),
            operator_byte,
        )
        .map(Self::of)
    }

    /// Its octet. A width other than 1, 2, 4 or 8 is written as 1, as the original writes it.
    ///
    /// ```
    /// use krubbadin::BitmaskOperator;
    /// assert_eq!(BitmaskOperator::from_byte_and_value(0xC3, 1).unwrap().to_byte(), 0xC3);
    /// ```
    pub fn to_byte(&self) -> u8 {
        let octet = match self.octet_of_width(self.value_length) {
            Answer {
                status: 0, first, ..
            } => first,
            _ => self.octet_of_width(1).first,
        };
        octet as u8
    }

    /// The match bit unset, which by the RFC asks for any bit of the mask, whatever the name says; the last of its list, of the least
    /// width.
    ///
    /// ```
    /// assert_eq!(krubbadin::BitmaskOperator::exact_match(0x12).to_byte(), 0x80);
    /// ```
    pub fn exact_match(bitmask: u64) -> Self {
        Self::of(surface::operator_make(2, bitmask))
    }

    /// The match bit set, which by the RFC asks for all bits of the mask, whatever the name says; the last of its list, of the least width.
    ///
    /// ```
    /// assert_eq!(krubbadin::BitmaskOperator::partial_match(0x12).to_byte(), 0x81);
    /// ```
    pub fn partial_match(bitmask: u64) -> Self {
        Self::of(surface::operator_make(3, bitmask))
    }

    fn octet_of_width(&self, width: u8) -> Answer {
        let flags = 2 * u8::from(self.not) + u8::from(self.match_flag);
        let (end, and) = (u8::from(self.end_of_list), u8::from(self.and_with_next));
        surface::operator_write(1, end, and, width, flags)
    }

    fn of(operator: Operator) -> Self {
        BitmaskOperator {
            end_of_list: operator.end_of_list != 0,
            and_with_next: operator.and_with_next != 0,
            value_length: operator.value_length as u8,
            not: operator.flags & 2 != 0,
            match_flag: operator.flags & 1 != 0,
            bitmask: operator.value,
        }
    }
}

/// An octet is refused for its reserved bits alone.
fn told(operator: Operator, octet: u8) -> Result<Operator, FlowSpecError> {
    match operator.status {
        0 => Ok(operator),
        _ => Err(FlowSpecError::InvalidOperator(octet)),
    }
}
