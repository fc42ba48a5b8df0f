//! Reading and writing as the original does it, and checking without reading.

use crate::error::{EncodingError, FlowSpecError, Reason, Refusal};
use crate::rules::{FlowSpecComponent, FlowSpecNlri, NetworkPrefix};
use crate::stored::{check_rule, list_of, read_rule, write_rule, LONGEST};
use crate::surface::PLAIN;
use crate::why::why_owned;
use ipnet::IpNet;

/// The longest body.
const LONGEST_BODY: usize = 4095;
/// What is encoded, as the original's errors call it.
const FIELD: &str = "FlowSpec NLRI total length";

/// Parses an NLRI as the original does: the plain reading. [`crate::read`] reads by the RFCs.
///
/// A component may run on past the NLRI's stated end, as it may in the original, up to octet 4,097, where the longest NLRI ends; the
/// original lets it run on to the end of the data.
///
/// # Errors
///
/// As the original's.
///
/// ```
/// use krubbadin::{parse_flowspec_nlri, FlowSpecComponent, FlowSpecError};
///
/// let rule = parse_flowspec_nlri(&[0x05, 0x01, 0x18, 0xC0, 0x00, 0x02]).unwrap();
/// let prefix = "192.0.2.0/24".parse().unwrap();
/// assert_eq!(rule.components, [FlowSpecComponent::DestinationPrefix(prefix)]);
/// assert_eq!(parse_flowspec_nlri(&[0x05, 0x01]), Err(FlowSpecError::InsufficientData));
/// ```
pub fn parse_flowspec_nlri(data: &[u8]) -> Result<FlowSpecNlri, FlowSpecError> {
    let (rule, _) = read_rule(PLAIN, 0, within(data)).map_err(original)?;
    Ok(rule)
}

/// Checks an NLRI as the original parses it, without making the rule: how many octets it takes, its length's own among them.
///
/// It accepts and refuses what [`parse_flowspec_nlri`] does, with the same errors, and allocates nothing. [`crate::check`] checks by the RFCs.
///
/// # Errors
///
/// As the original's, which have no place. [`surface::check`](crate::surface::check) with `standard` 0 has it.
///
/// ```
/// use krubbadin::{check_flowspec_nlri, surface, FlowSpecError, Reason, Refusal};
///
/// assert_eq!(check_flowspec_nlri(&[0x03, 0x03, 0x81, 0x06, 0x00]), Ok(4));
/// assert_eq!(check_flowspec_nlri(&[0x03, 0x03, 0x89, 0x06]), Err(FlowSpecError::InvalidOperator(0x89)));
/// assert_eq!(check_flowspec_nlri(&[]), Err(FlowSpecError::InsufficientData));
/// let placed = surface::check(0, 0, &[0x03, 0x03, 0x89, 0x06]).accepted();
/// assert_eq!(placed, Err(Refusal::at(Reason::InvalidOperator(0x89), 2)));
/// ```
pub fn check_flowspec_nlri(data: &[u8]) -> Result<usize, FlowSpecError> {
    check_rule(PLAIN, 0, within(data)).map_err(original)
}

/// As much of the data as an NLRI can have.
fn within(data: &[u8]) -> &[u8] {
    &data[..data.len().min(LONGEST)]
}

/// The error of a refusal of the plain reading, where the input is not too long and room is not short.
fn original(refusal: Refusal) -> FlowSpecError {
    match FlowSpecError::try_from(refusal) {
        Ok(error) => error,
        Err(other) => unreachable!("the input is short enough and there is room: {other}"),
    }
}

/// Encodes a rule as the original does: the plain writing, of the components alone. [`crate::write`] writes by the RFCs, and refuses what
/// they do not know.
///
/// # Errors
///
/// `ValueTooLarge` if the body has more than 4,095 octets, as the original has it. `Unencodable` if a shorter one is of more than 13
/// components, or has an operator whose width is not 1, 2, 4 or 8: the original writes these as octets that do not read back.
///
/// ```
/// use krubbadin::{encode_flowspec_nlri, FlowSpecComponent, FlowSpecNlri, NumericOperator};
///
/// let rule = FlowSpecNlri::new(vec![FlowSpecComponent::IpProtocol(vec![NumericOperator::equal_to(6)])]);
/// assert_eq!(encode_flowspec_nlri(&rule).unwrap(), [0x03, 0x03, 0x81, 0x06]);
/// ```
pub fn encode_flowspec_nlri(nlri: &FlowSpecNlri) -> Result<Vec<u8>, EncodingError> {
    let too_large = |actual| EncodingError::ValueTooLarge {
        field: FIELD,
        actual,
        max: LONGEST_BODY,
    };
    write_rule(PLAIN, 0, nlri).map_err(|refusal| match (refusal.reason(), body_length(nlri)) {
        (Reason::ValueTooLarge(actual), _) => too_large(actual),
        // No record for the archive, and too long all the same.
        (_, actual) if actual > LONGEST_BODY => too_large(actual),
        _ => EncodingError::Unencodable {
            field: "FlowSpec NLRI",
            reason: why_owned(PLAIN, 0, nlri)
                .map_or_else(|| refusal.to_string(), |ground| ground.to_string()),
        },
    })
}

/// The octets of a rule's body as the original writes them, whatever the rule.
fn body_length(rule: &FlowSpecNlri) -> usize {
    use FlowSpecComponent::*;
    let of = |component: &FlowSpecComponent| match component {
        DestinationPrefix(prefix) | SourcePrefix(prefix) => 2 + address_octets(prefix),
        DestinationIpv6Prefix { prefix, .. } | SourceIpv6Prefix { prefix, .. } => {
            3 + match prefix.prefix {
                IpNet::V4(_) => 0,
                IpNet::V6(_) => address_octets(prefix),
            }
        }
        list => 1 + list_of(list).octets(),
    };
    rule.components.iter().map(of).sum()
}

fn address_octets(prefix: &NetworkPrefix) -> usize {
    (usize::from(prefix.prefix.prefix_len()) + 7) / 8
}
