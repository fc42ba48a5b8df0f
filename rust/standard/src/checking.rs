//! What is looked at before a decision: rules and packet.

use crate::packets::Packet;
use crate::refusals::Refusal;
use crate::rules::Flow;
use crate::terms::RULES;
use crate::writing::write;

/// Document 01: a rule that the standard writing in its own family takes.
pub(crate) fn is_well_formed(flow: &Flow) -> bool {
    write(flow.family, &flow.rule).is_ok()
}

/// Document 01, "What comes back": refusals 12, 13, 10, 14 and 20, in this order.
pub(crate) fn check(flows: &[Flow], packet: &Packet) -> Result<(), Refusal> {
    if flows.len() > RULES {
        return Err(Refusal::TooManyRules(flows.len()));
    }
    if !packet.is_in_range() {
        return Err(Refusal::BadPacket);
    }
    if !flows.iter().all(is_well_formed) {
        return Err(Refusal::BadRecord);
    }
    let is_other = |flow: &Flow| u64::from(flow.family) != packet.family;
    if let Some(place) = flows.iter().position(is_other) {
        return Err(Refusal::MixedFamily(place));
    }
    // Of two rules, to have none is to have another.
    let differs = |flow: &Flow| flow.rule.distinguisher != flows[0].rule.distinguisher;
    match flows.iter().position(differs) {
        Some(place) => Err(Refusal::MixedDistinguisher(place)),
        None => Ok(()),
    }
}
