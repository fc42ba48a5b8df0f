//! Rules in words.

use crate::operators::{BitmaskOperator, NumericOperator};
use crate::rules::{FlowSpecComponent, FlowSpecNlri, RouteDistinguisher};
use crate::stored::{list_of, List};
use std::fmt::{self, Display, Formatter};

/// One line: the distinguisher if there is one, and the components with `; ` between them, or `every packet` where there are none. It is for
/// people: nothing reads it back.
///
/// ```
/// use krubbadin::{read, Family};
///
/// let input = [0x0A, 0x01, 0x08, 0x0A, 0x05, 0x01, 0x50, 0x03, 0x5A, 0xC5, 0x63];
/// let (rule, _) = read(Family::Ipv4, &input).unwrap();
/// assert_eq!(rule.to_string(), "destination 10.0.0.0/8; destination port =80 or >=90 and <=99");
/// let (rule, _) = read(Family::Ipv4, &[0x00]).unwrap();
/// assert_eq!(rule.to_string(), "every packet");
/// let rule = rule.with_distinguisher([0, 1, 192, 0, 2, 1, 0, 7]);
/// assert_eq!(rule.to_string(), "distinguisher 1:192.0.2.1:7; every packet");
/// ```
impl Display for FlowSpecNlri {
    fn fmt(&self, f: &mut Formatter<'_>) -> fmt::Result {
        if let Some(distinguisher) = self.distinguisher {
            write!(f, "distinguisher {}; ", RouteDistinguisher(distinguisher))?;
        }
        if self.components.is_empty() {
            return write!(f, "every packet");
        }
        for (at, component) in self.components.iter().enumerate() {
            let between = if at == 0 { "" } else { "; " };
            write!(f, "{between}{component}")?;
        }
        Ok(())
    }
}

/// What is looked at, and what is asked of it: a prefix, or operators with `or` and `and` between them, of which `and` binds tighter.
///
/// A prefix with an offset above 0 has its bits after the slash, as RFC 8956 writes them: `::1234:5678:9a00:0/65-104`. A numeric operator
/// is one of `<5 >5 =5 <=5 >=5`, `!=5` where it is true of less and of greater, `false` and `true` where it is true of nothing and of all.
/// A bitmask operator is `all 0x12` where it asks for all bits of the mask, `any 0x12` where any will do, with `not` before it where it
/// is inverted. A list without operators is `nothing`.
///
/// ```
/// use krubbadin::{BitmaskOperator, FlowSpecComponent};
///
/// let flags = FlowSpecComponent::TcpFlags(vec![BitmaskOperator::partial_match(0x12)]);
/// assert_eq!(flags.to_string(), "TCP flags all 0x12");
/// let source = FlowSpecComponent::SourceIpv6Prefix { offset: 65, prefix: "::1234:5678:9a00:0/104".parse().unwrap() };
/// assert_eq!(source.to_string(), "source ::1234:5678:9a00:0/65-104");
/// ```
impl Display for FlowSpecComponent {
    fn fmt(&self, f: &mut Formatter<'_>) -> fmt::Result {
        const NAMES: [&str; 13] = [
            "destination",
            "source",
            "protocol",
            "port",
            "destination port",
            "source port",
            "ICMP type",
            "ICMP code",
            "TCP flags",
            "packet length",
            "DSCP",
            "fragment",
            "flow label",
        ];
        write!(f, "{} ", NAMES[usize::from(self.component_type() - 1)])?;
        match self {
            FlowSpecComponent::DestinationPrefix(prefix)
            | FlowSpecComponent::SourcePrefix(prefix)
            | FlowSpecComponent::DestinationIpv6Prefix { offset: 0, prefix }
            | FlowSpecComponent::SourceIpv6Prefix { offset: 0, prefix } => write!(f, "{prefix}"),
            FlowSpecComponent::DestinationIpv6Prefix { offset, prefix }
            | FlowSpecComponent::SourceIpv6Prefix { offset, prefix } => {
                let (address, length) = (prefix.prefix.addr(), prefix.prefix.prefix_len());
                write!(f, "{address}/{offset}-{length}")
            }
            _ => match list_of(self) {
                List::None => Ok(()),
                List::Numeric(list) => joined(f, list, |one| one.and_with_next, numeric),
                List::Bitmask(list) => joined(f, list, |one| one.and_with_next, bitmask),
            },
        }
    }
}

/// By the RFC the AND bit joins to the previous operator, and on the first it means nothing.
fn joined<T>(
    f: &mut Formatter<'_>,
    list: &[T],
    and: fn(&T) -> bool,
    text: fn(&mut Formatter<'_>, &T) -> fmt::Result,
) -> fmt::Result {
    if list.is_empty() {
        return write!(f, "nothing");
    }
    for (at, one) in list.iter().enumerate() {
        match (at, and(one)) {
            (0, _) => {}
            (_, true) => write!(f, " and ")?,
            (_, false) => write!(f, " or ")?,
        }
        text(f, one)?;
    }
    Ok(())
}

fn numeric(f: &mut Formatter<'_>, one: &NumericOperator) -> fmt::Result {
    let sign = match (one.less_than, one.greater_than, one.equal) {
        (false, false, false) => return write!(f, "false"),
        (false, false, true) => "=",
        (false, true, false) => ">",
        (false, true, true) => ">=",
        (true, false, false) => "<",
        (true, false, true) => "<=",
        (true, true, false) => "!=",
        (true, true, true) => return write!(f, "true"),
    };
    write!(f, "{sign}{}", one.value)
}

fn bitmask(f: &mut Formatter<'_>, one: &BitmaskOperator) -> fmt::Result {
    let not = if one.not { "not " } else { "" };
    let bits = if one.match_flag { "all" } else { "any" };
    write!(f, "{not}{bits} 0x{:02X}", one.bitmask)
}
