//! Rules, in a form that is nobody's own: whoever has rules of another makes these of them, and them
//! of these.

use crate::fields::{cut, number, octet, octet_number, wide, Bad, Read, NONE};
use crate::fields::{put_number, put_octet, put_octets};

/// A component of a rule. What a list is depends on who asks: its text, operators, places in lists.
#[derive(Debug, Clone, PartialEq, Eq)]
pub struct Component<L> {
    pub kind: u8,
    pub content: Content<L>,
}

#[derive(Debug, Clone, PartialEq, Eq)]
pub enum Content<L> {
    Prefix(Prefix),
    List(L),
}

/// An address with a length, and with an offset where it has that form. Neither need fit the address.
#[derive(Debug, Clone, Copy, PartialEq, Eq)]
pub struct Prefix {
    pub address: Address,
    pub length: u8,
    pub offset: Option<u8>,
}

#[derive(Debug, Clone, Copy, PartialEq, Eq)]
pub enum Address {
    Ipv4(u32),
    Ipv6(u128),
}

/// An operator octet and its value.
pub type Operator = (u8, u64);

/// A list by its place in lent lists: start and count.
pub type Span = (u64, u64);

impl<L> Component<L> {
    /// The component with another list in place of its own.
    pub fn with_list<M>(self, list: impl FnOnce(L) -> M) -> Component<M> {
        let content = match self.content {
            Content::Prefix(prefix) => Content::Prefix(prefix),
            Content::List(own) => Content::List(list(own)),
        };
        Component {
            kind: self.kind,
            content,
        }
    }

    /// As `with_list`, where the list may be refused.
    pub fn try_with_list<M, E>(
        self,
        list: impl FnOnce(L) -> Result<M, E>,
    ) -> Result<Component<M>, E> {
        let content = match self.content {
            Content::Prefix(prefix) => Content::Prefix(prefix),
            Content::List(own) => Content::List(list(own)?),
        };
        Ok(Component {
            kind: self.kind,
            content,
        })
    }
}

/// The components of a rule, `-` for none, their lists as texts.
pub fn components(field: &[u8]) -> impl Iterator<Item = Read<Component<&[u8]>>> {
    let fields = Some(field).filter(|&field| field != NONE).into_iter();
    let fields = fields.flat_map(|field| field.split(|&byte| byte == b';'));
    fields.map(component)
}

/// A component, its list as a text. Any type and any length are taken, also those that no rule has.
pub fn component(field: &[u8]) -> Read<Component<&[u8]>> {
    let (kind, content) = cut(field, b':').ok_or(Bad("a component is TYPE:CONTENT"))?;
    let kind = octet_number(kind)?;
    let content = match content {
        [b'4' | b'6', b'/' | b'o', ..] => Content::Prefix(prefix(content)?),
        _ => Content::List(content),
    };
    Ok(Component { kind, content })
}

fn prefix(content: &[u8]) -> Read<Prefix> {
    const BAD: Bad =
        Bad("a prefix is 4/LEN/HEX8, 6/LEN/HEX32, 4o/OFF/LEN/HEX8 or 6o/OFF/LEN/HEX32");
    let (form, rest) = cut(content, b'/').ok_or(BAD)?;
    let (offset, rest) = match form {
        b"4" | b"6" => (None, rest),
        b"4o" | b"6o" => {
            let (offset, rest) = cut(rest, b'/').ok_or(BAD)?;
            (Some(octet_number(offset)?), rest)
        }
        _ => return Err(BAD),
    };
    let (length, address) = cut(rest, b'/').ok_or(BAD)?;
    let length = octet_number(length)?;
    let address = match (form[0], address.len()) {
        (b'4', 8) => Address::Ipv4(wide(address)? as u32),
        (b'6', 32) => Address::Ipv6(wide(address)?),
        _ => return Err(BAD),
    };
    Ok(Prefix {
        address,
        length,
        offset,
    })
}

/// The operators that a list's text has.
pub fn operators(content: &[u8]) -> impl Iterator<Item = Read<Operator>> + '_ {
    let fields = Some(content).filter(|content| !content.is_empty());
    let fields = fields.into_iter();
    let fields = fields.flat_map(|content| content.split(|&byte| byte == b','));
    fields.map(operator)
}

fn operator(field: &[u8]) -> Read<Operator> {
    const BAD: Bad =
        Bad("an operator is OCTET=VALUE, two upper-case hex digits and a decimal number");
    match *field {
        [high, low, b'=', ref value @ ..] => Ok((octet(high, low).ok_or(BAD)?, number(value)?)),
        _ => Err(BAD),
    }
}

/// The places that a list's text names.
pub fn span(content: &[u8]) -> Read<Span> {
    const BAD: Bad = Bad("a component to write is a prefix or TYPE:@START+COUNT");
    let (start, count) = match content {
        [b'@', rest @ ..] => cut(rest, b'+').ok_or(BAD)?,
        _ => return Err(BAD),
    };
    Ok((number(start)?, number(count)?))
}

/// Puts a rule, `-` where it has no components; a list as `list` puts it.
pub fn put_rule<L>(
    components: impl IntoIterator<Item = Component<L>>,
    list: impl Fn(L, &mut Vec<u8>),
    out: &mut Vec<u8>,
) {
    let start = out.len();
    for component in components {
        if out.len() > start {
            out.push(b';');
        }
        put_component(component, &list, out);
    }
    if out.len() == start {
        out.extend_from_slice(NONE);
    }
}

fn put_component<L>(
    component: Component<L>,
    list: impl FnOnce(L, &mut Vec<u8>),
    out: &mut Vec<u8>,
) {
    put_number(component.kind.into(), out);
    out.push(b':');
    match component.content {
        Content::Prefix(prefix) => put_prefix(prefix, out),
        Content::List(own) => list(own, out),
    }
}

fn put_prefix(prefix: Prefix, out: &mut Vec<u8>) {
    out.push(match prefix.address {
        Address::Ipv4(_) => b'4',
        Address::Ipv6(_) => b'6',
    });
    if let Some(offset) = prefix.offset {
        out.extend_from_slice(b"o/");
        put_number(offset.into(), out);
    }
    out.push(b'/');
    put_number(prefix.length.into(), out);
    out.push(b'/');
    match prefix.address {
        Address::Ipv4(address) => put_octets(&address.to_be_bytes(), out),
        Address::Ipv6(address) => put_octets(&address.to_be_bytes(), out),
    }
}

/// Puts a list as its operators.
pub fn put_operators(operators: impl IntoIterator<Item = Operator>, out: &mut Vec<u8>) {
    for (place, (octet, value)) in operators.into_iter().enumerate() {
        if place > 0 {
            out.push(b',');
        }
        put_octet(octet, out);
        out.push(b'=');
        put_number(value, out);
    }
}

/// Puts a list as its places.
pub fn put_span((start, count): Span, out: &mut Vec<u8>) {
    out.push(b'@');
    put_number(start, out);
    out.push(b'+');
    put_number(count, out);
}
