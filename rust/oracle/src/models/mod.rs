//! Stand-ins for what the FlowSpec files take from bgpkit-parser's `models`.

pub mod bgp;

use ipnet::IpNet;

/// A prefix with the path id of ADD-PATH, which FlowSpec never sets.
#[derive(Debug, Clone, PartialEq, Eq)]
pub struct NetworkPrefix {
    pub prefix: IpNet,
    pub path_id: Option<u32>,
}

impl NetworkPrefix {
    pub fn new(prefix: IpNet, path_id: Option<u32>) -> Self {
        NetworkPrefix { prefix, path_id }
    }
}

/// `u8::div_ceil` for compilers before 1.73, where the standard one is not yet stable. Later
/// compilers prefer their own.
pub trait DivCeil {
    fn div_ceil(self, divisor: Self) -> Self;
}

impl DivCeil for u8 {
    fn div_ceil(self, divisor: u8) -> u8 {
        self / divisor + u8::from(self % divisor != 0)
    }
}
