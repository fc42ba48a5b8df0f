// Code written against the original's flowspec module, as a validator of rules has it. It names no crate: tests/drop_in.rs includes it
// behind the original's `use` line and behind this crate's. Every public item of the module is used, its fields and variants by name, and
// the matches over components and errors have no arm for others.

/// What is logged of an NLRI, and what it is written as again.
pub fn checked(octets: &[u8]) -> String {
    match parse_flowspec_nlri(octets) {
        Ok(rule) => format!("{} written {}", logged(&rule), written(&rule)),
        Err(error) => format!("{} ({error}) {error:?}", refused(&error)),
    }
}

/// A caller that hands any error on.
pub fn count(octets: &[u8]) -> Result<usize, Box<dyn std::error::Error>> {
    let rule: FlowSpecNlri = parse_flowspec_nlri(octets)?;
    let again: Vec<u8> = encode_flowspec_nlri(&rule)?;
    Ok(rule.components.len() + again.len())
}

pub fn logged(rule: &FlowSpecNlri) -> String {
    let components: Vec<String> = rule.components().iter().map(component).collect();
    let families = (rule.is_ipv4(), rule.is_ipv6());
    format!("{families:?} {} {rule:?}", components.join(" and "))
}

pub fn written(rule: &FlowSpecNlri) -> String {
    match encode_flowspec_nlri(rule) {
        Ok(octets) => format!("{octets:02X?}"),
        Err(EncodingError::ValueTooLarge { field, actual, max }) => {
            format!("{field}: {actual} over {max}")
        }
        Err(error) => format!("not: {error}"),
    }
}

fn component(component: &FlowSpecComponent) -> String {
    const KINDS: fn(&FlowSpecComponent) -> (u8, bool, bool) = |component| {
        (
            component.component_type(),
            component.uses_numeric_operators(),
            component.uses_bitmask_operators(),
        )
    };
    let text = match component {
        FlowSpecComponent::DestinationPrefix(prefix) => format!("to {}", network(prefix)),
        FlowSpecComponent::SourcePrefix(prefix) => format!("from {}", network(prefix)),
        FlowSpecComponent::IpProtocol(list) => format!("protocol {}", numbers(list)),
        FlowSpecComponent::Port(list) => format!("port {}", numbers(list)),
        FlowSpecComponent::DestinationPort(list) => format!("to port {}", numbers(list)),
        FlowSpecComponent::SourcePort(list) => format!("from port {}", numbers(list)),
        FlowSpecComponent::IcmpType(list) => format!("icmp type {}", numbers(list)),
        FlowSpecComponent::IcmpCode(list) => format!("icmp code {}", numbers(list)),
        FlowSpecComponent::TcpFlags(list) => format!("flags {}", masks(list)),
        FlowSpecComponent::PacketLength(list) => format!("length {}", numbers(list)),
        FlowSpecComponent::Dscp(list) => format!("dscp {}", numbers(list)),
        FlowSpecComponent::Fragment(list) => format!("fragment {}", masks(list)),
        FlowSpecComponent::FlowLabel(list) => format!("label {}", numbers(list)),
        FlowSpecComponent::DestinationIpv6Prefix { offset, prefix } => {
            format!("to {} after {offset}", network(prefix))
        }
        FlowSpecComponent::SourceIpv6Prefix { offset, prefix } => {
            format!("from {} after {offset}", network(prefix))
        }
    };
    format!("{:?} {text}", KINDS(component))
}

fn network(prefix: &NetworkPrefix) -> String {
    let NetworkPrefix { prefix, path_id } = prefix;
    format!("{} {} {path_id:?}", prefix.network(), prefix.prefix_len())
}

fn numbers(list: &[NumericOperator]) -> String {
    let one = |operator: &NumericOperator| {
        let NumericOperator {
            end_of_list,
            and_with_next,
            value_length,
            less_than,
            greater_than,
            equal,
            value,
        } = operator.clone();
        let flags = (end_of_list, and_with_next, less_than, greater_than, equal);
        let again = NumericOperator::from_byte_and_value(operator.to_byte(), value);
        assert_eq!(again.as_ref(), Ok(operator));
        format!("{flags:?} {value} in {value_length}")
    };
    list.iter().map(one).collect::<Vec<_>>().join(", ")
}

fn masks(list: &[BitmaskOperator]) -> String {
    let one = |operator: &BitmaskOperator| {
        let BitmaskOperator {
            end_of_list,
            and_with_next,
            value_length,
            not,
            match_flag,
            bitmask,
        } = operator.clone();
        let flags = (end_of_list, and_with_next, not, match_flag);
        let again = BitmaskOperator::from_byte_and_value(operator.to_byte(), bitmask);
        assert_eq!(again.as_ref(), Ok(operator));
        format!("{flags:?} {bitmask:X} in {value_length}")
    };
    list.iter().map(one).collect::<Vec<_>>().join(", ")
}

fn refused(error: &FlowSpecError) -> String {
    match error {
        FlowSpecError::InvalidComponentOrder {
            expected_greater_than,
            found,
        } => format!("order {expected_greater_than} {found}"),
        FlowSpecError::InvalidOperator(octet) => format!("operator {octet:02X}"),
        FlowSpecError::InvalidComponentType(found) => format!("type {found}"),
        FlowSpecError::InsufficientData => "short".to_string(),
        FlowSpecError::InvalidPrefix => "prefix".to_string(),
        FlowSpecError::InvalidValueLength(code) => format!("width {code}"),
    }
}

/// Every operator octet with a value, as a record and back, and the four constructors.
pub fn operators(value: u64) -> Vec<String> {
    let mut said = Vec::new();
    for octet in 0..=255 {
        let numeric = NumericOperator::from_byte_and_value(octet, value);
        let bitmask = BitmaskOperator::from_byte_and_value(octet, value);
        let back = (
            numeric.as_ref().map(NumericOperator::to_byte),
            bitmask.as_ref().map(BitmaskOperator::to_byte),
        );
        said.push(format!("{octet} {numeric:?} {bitmask:?} {back:?}"));
    }
    for made in [
        NumericOperator::equal_to(value),
        NumericOperator::greater_than_or_equal(value),
    ] {
        said.push(format!("{made:?} {}", made.to_byte()));
    }
    for made in [
        BitmaskOperator::exact_match(value),
        BitmaskOperator::partial_match(value),
    ] {
        said.push(format!("{made:?} {}", made.to_byte()));
    }
    said
}

/// Rules that are built and not read: every prefix form and length, records of any width, empty lists, any order.
pub fn built() -> Vec<FlowSpecNlri> {
    let net = |text: String| NetworkPrefix::new(text.parse().unwrap(), None);
    let mut rules = vec![FlowSpecNlri::new(Vec::new())];
    for length in 0..=32 {
        let prefix = net(format!("203.0.113.77/{length}"));
        rules.push(FlowSpecNlri::new(vec![
            FlowSpecComponent::SourcePrefix(prefix.clone()),
            FlowSpecComponent::DestinationIpv6Prefix { offset: length, prefix },
        ]));
    }
    for length in 0..=128 {
        let prefix = net(format!("2001:db8:1234:5678:9abc:def0:1234:5678/{length}"));
        rules.push(FlowSpecNlri::new(vec![
            FlowSpecComponent::DestinationPrefix(prefix.clone()),
            FlowSpecComponent::SourceIpv6Prefix { offset: length / 2, prefix },
            FlowSpecComponent::Fragment(Vec::new()),
        ]));
    }
    for value_length in [1, 2, 4, 8] {
        let one = NumericOperator {
            end_of_list: false,
            and_with_next: true,
            value_length,
            less_than: true,
            greater_than: false,
            equal: true,
            value: 0x0123_4567_89AB_CDEF,
        };
        let two = BitmaskOperator {
            end_of_list: true,
            and_with_next: false,
            value_length,
            not: true,
            match_flag: false,
            bitmask: u64::MAX,
        };
        for count in [1, 2, 7, 100, 500, 800] {
            rules.push(FlowSpecNlri::new(vec![
                FlowSpecComponent::Dscp(vec![one.clone(); count]),
                FlowSpecComponent::TcpFlags(vec![two.clone(); count / 2]),
            ]));
        }
    }
    rules
}

/// Rules whose body is too long in some way: many operators, many components, both, and widths that no octet names.
pub fn too_long() -> Vec<FlowSpecNlri> {
    let net = |text: &str| NetworkPrefix::new(text.parse().unwrap(), None);
    let one = |value_length| NumericOperator {
        value_length,
        ..NumericOperator::equal_to(7)
    };
    let two = |value_length| BitmaskOperator {
        value_length,
        ..BitmaskOperator::exact_match(7)
    };
    let prefixes = vec![
        FlowSpecComponent::DestinationPrefix(net("203.0.113.0/25")),
        FlowSpecComponent::SourcePrefix(net("2001:db8::/33")),
        FlowSpecComponent::DestinationIpv6Prefix { offset: 3, prefix: net("2001:db8::/47") },
        FlowSpecComponent::SourceIpv6Prefix { offset: 9, prefix: net("203.0.113.0/24") },
    ];
    let mut rules = Vec::new();
    for count in [2047, 2048, 2049, 4096, 70_000] {
        let ports = FlowSpecComponent::Port(vec![one(1); count]);
        let flags = FlowSpecComponent::TcpFlags(vec![two(8); count / 2]);
        rules.push(FlowSpecNlri::new(vec![ports.clone(), flags.clone()]));
        rules.push(FlowSpecNlri::new(vec![flags]));
        let mut all = prefixes.clone();
        all.push(ports.clone());
        rules.push(FlowSpecNlri::new(all));
        if count > 2047 {
            rules.push(FlowSpecNlri::new(vec![ports]));
        }
    }
    for width in [0, 3, 5, 7] {
        let list = FlowSpecComponent::FlowLabel(vec![one(width); 4096]);
        rules.push(FlowSpecNlri::new(vec![list]));
    }
    for count in [14, 100] {
        let list = FlowSpecComponent::Fragment(vec![two(4); 60]);
        rules.push(FlowSpecNlri::new(vec![list; count]));
    }
    rules.push(FlowSpecNlri::new(vec![prefixes; 250].concat()));
    rules
}

/// The octets of records of any width.
pub fn odd_widths() -> Vec<u8> {
    let of = |value_length| NumericOperator {
        value_length,
        ..NumericOperator::equal_to(0)
    };
    let mask = |value_length| BitmaskOperator {
        value_length,
        ..BitmaskOperator::partial_match(0)
    };
    let numeric = (0..=255).map(|width| of(width).to_byte());
    numeric.chain((0..=255).map(|width| mask(width).to_byte())).collect()
}
