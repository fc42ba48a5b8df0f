//! Which of several rules decides about a packet.

use crate::checking::check;
use crate::matching::is_match;
use crate::packets::Packet;
use crate::ranking::key;
use crate::refusals::Refusal;
use crate::rules::Flow;

/// The place of the rule that decides: of those that match, the one that precedes all others; of
/// some that rank equal, the first. None where no rule matches.
pub fn choose(flows: &[Flow], packet: &Packet) -> Result<Option<usize>, Refusal> {
    check(flows, packet)?;
    let mut places: Vec<usize> = (0..flows.len()).collect();
    // This sort is a stable one.
    places.sort_by_cached_key(|&place| key(&flows[place]));
    let decides = |place: &usize| is_match(&flows[*place].rule, packet);
    Ok(places.into_iter().find(decides))
}
