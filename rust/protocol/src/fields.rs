//! Numbers and octets, and refusals, which are numbers.

/// Why a request cannot be read.
#[derive(Debug, Clone, Copy, PartialEq, Eq)]
pub struct Bad(pub &'static str);

pub type Read<T> = Result<T, Bad>;

/// The text of nothing: no octets, no values, no components, no field.
pub const NONE: &[u8] = b"-";

/// A hex digit's value; above 15 for what is none.
const DIGITS: [u8; 256] = {
    let mut digits = [0xFF; 256];
    let mut value = 0;
    while value < 16 {
        digits[HEX[value] as usize] = value as u8;
        value += 1;
    }
    digits
};

const HEX: &[u8; 16] = b"0123456789ABCDEF";

/// A decimal number without leading zeros.
pub fn number(field: &[u8]) -> Read<u64> {
    let bad = Bad("a number is decimal without leading zeros, and below 2 to the 64");
    digits(field, 10).ok_or(bad)
}

/// An upper-case hex number without leading zeros.
pub fn hex_number(field: &[u8]) -> Read<u64> {
    let bad = Bad("a number is upper-case hex without leading zeros, and below 2 to the 64");
    digits(field, 16).ok_or(bad)
}

/// The standard library's readers also take a sign, leading zeros and lower case.
fn digits(field: &[u8], base: u8) -> Option<u64> {
    if matches!(field, [] | [b'0', _, ..]) {
        return None;
    }
    let mut number = 0u64;
    for &byte in field {
        let digit = DIGITS[usize::from(byte)];
        if digit >= base {
            return None;
        }
        number = number.checked_mul(base.into())?;
        number = number.checked_add(digit.into())?;
    }
    Some(number)
}

/// A decimal number that fits an octet.
pub fn octet_number(field: &[u8]) -> Read<u8> {
    let number = number(field)?;
    u8::try_from(number).map_err(|_| Bad("a family, type, length or offset is at most 255"))
}

/// Octets, `-` for none, in place of what the list held.
pub fn octets(field: &[u8], list: &mut Vec<u8>) -> Read<()> {
    list.clear();
    if field == NONE {
        return Ok(());
    }
    if field.is_empty() || field.len() % 2 != 0 {
        return Err(Bad("octets are two hex digits each, - for none"));
    }
    list.reserve(field.len() / 2);
    for pair in field.chunks_exact(2) {
        let octet = octet(pair[0], pair[1]).ok_or(Bad("octets are upper-case hex"))?;
        list.push(octet);
    }
    Ok(())
}

/// The octet of two hex digits.
pub(crate) fn octet(high: u8, low: u8) -> Option<u8> {
    let (high, low) = (DIGITS[usize::from(high)], DIGITS[usize::from(low)]);
    Some(high << 4 | low).filter(|_| high | low < 16)
}

/// A route distinguisher, `-` for none.
pub fn distinguisher(field: &[u8]) -> Read<Option<[u8; 8]>> {
    if field == NONE {
        return Ok(None);
    }
    let bad = Bad("a distinguisher is sixteen upper-case hex digits, - for none");
    match wide(field) {
        Ok(bits) if field.len() == 16 => Ok(Some((bits as u64).to_be_bytes())),
        _ => Err(bad),
    }
}

/// The number that one to sixteen octets are, high octet first.
pub(crate) fn wide(field: &[u8]) -> Read<u128> {
    const BAD: Bad = Bad("an address is upper-case hex, two digits an octet, 16 octets at most");
    if field.is_empty() || field.len() % 2 != 0 || field.len() > 32 {
        return Err(BAD);
    }
    let mut number = 0;
    for &byte in field {
        let digit = DIGITS[usize::from(byte)];
        if digit > 15 {
            return Err(BAD);
        }
        number = number << 4 | u128::from(digit);
    }
    Ok(number)
}

/// Decimal numbers with commas, `-` for none, in place of what the list held.
pub fn values(field: &[u8], list: &mut Vec<u64>) -> Read<()> {
    list.clear();
    if field == NONE {
        return Ok(());
    }
    for one in field.split(|&byte| byte == b',') {
        list.push(number(one)?);
    }
    Ok(())
}

/// Two numbers with a comma.
pub fn pair(field: &[u8]) -> Read<(u64, u64)> {
    let (one, two) = cut(field, b',').ok_or(Bad("a pair is two numbers with a comma"))?;
    Ok((number(one)?, number(two)?))
}

/// What stands before and after the first of this byte.
pub fn cut(field: &[u8], byte: u8) -> Option<(&[u8], &[u8])> {
    let at = field.iter().position(|&one| one == byte)?;
    Some((&field[..at], &field[at + 1..]))
}

/// What is put, as a text of its own.
pub fn text(put: impl FnOnce(&mut Vec<u8>)) -> String {
    let mut out = Vec::new();
    put(&mut out);
    String::from_utf8(out).expect("what is put is ASCII")
}

/// Puts a number in decimal.
pub fn put_number(number: u64, out: &mut Vec<u8>) {
    let (mut digits, mut from, mut rest) = ([0; 20], 20, number);
    loop {
        from -= 1;
        digits[from] = b'0' + (rest % 10) as u8;
        rest /= 10;
        if rest == 0 {
            break;
        }
    }
    out.extend_from_slice(&digits[from..]);
}

/// Puts octets in hex, `-` for none.
pub fn put_octets(octets: &[u8], out: &mut Vec<u8>) {
    if octets.is_empty() {
        out.extend_from_slice(NONE);
    }
    for &octet in octets {
        put_octet(octet, out);
    }
}

/// Puts a route distinguisher, `-` for none.
pub fn put_distinguisher(distinguisher: Option<[u8; 8]>, out: &mut Vec<u8>) {
    match distinguisher {
        None => out.extend_from_slice(NONE),
        Some(octets) => put_octets(&octets, out),
    }
}

pub(crate) fn put_octet(octet: u8, out: &mut Vec<u8>) {
    out.extend_from_slice(&[HEX[usize::from(octet >> 4)], HEX[usize::from(octet & 15)]]);
}

/// Puts decimal numbers with commas, `-` for none.
pub fn put_values(values: &[u64], out: &mut Vec<u8>) {
    if values.is_empty() {
        out.extend_from_slice(NONE);
    }
    put_joined(values.iter().copied(), out);
}

/// Puts a refusal: its number and the numbers that it carries.
pub fn put_refusal(number: u64, carried: impl IntoIterator<Item = u64>, out: &mut Vec<u8>) {
    out.extend_from_slice(b"err ");
    put_number(number, out);
    let mut carried = carried.into_iter().peekable();
    if carried.peek().is_some() {
        out.push(b' ');
        put_joined(carried, out);
    }
}

/// Puts a refusal with its place, `-` where it carries nothing and where it has no place.
pub fn put_placed_refusal(number: u64, carried: &[u64], place: Option<u64>, out: &mut Vec<u8>) {
    out.extend_from_slice(b"err ");
    put_number(number, out);
    out.push(b' ');
    put_values(carried, out);
    out.extend_from_slice(b" @");
    match place {
        None => out.extend_from_slice(NONE),
        Some(place) => put_number(place, out),
    }
}

fn put_joined(numbers: impl Iterator<Item = u64>, out: &mut Vec<u8>) {
    for (place, number) in numbers.enumerate() {
        if place > 0 {
            out.push(b',');
        }
        put_number(number, out);
    }
}
