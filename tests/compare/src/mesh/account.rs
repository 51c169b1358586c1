//! "The account" of the rules: no unit is lost and none comes from nowhere. What was in flight, what was injected and what
//! branches added is what is in flight then, and what ended.

use super::model::{Done, Mesh};
use crate::model::{has_mark, kind_of, mark, mark_of};
use crate::tally::Seen;

/// What is in flight, each packet by its weight.
pub fn in_flight(mesh: Option<&Mesh>) -> u32 {
    let links = mesh.iter().flat_map(|mesh| &mesh.chips).flat_map(|chip| &chip.links);
    links.flat_map(|link| &link.held).map(|packet| weight(packet.control)).sum()
}

/// Units that came in passes, and units that ended in them.
pub fn came_and_ended(done: &Done) -> (u32, u32) {
    let both = done.passes.iter().map(|seen| (u32::from(seen.local) + extra(seen), ended(seen)));
    both.fold((0, 0), |(came, ended), (more, over)| (came + more, ended + over))
}

/// "An in-flight MC packet marked 01 weighs two", and so does a fixed-route packet.
fn weight(control: u32) -> u32 {
    if is_marked(control, mark::BOTH) {
        2
    } else {
        1
    }
}

fn is_marked(control: u32, mark: u32) -> bool {
    has_mark(kind_of(control)) && mark_of(control) == mark
}

/// "A part with b branches (bits of its wanted set, or the leg) adds b-1 extra if b is at least 1": a leg adds none.
fn extra(seen: &Seen) -> u32 {
    if seen.pass.errors == 0 {
        seen.pass.wanted.count_ones().saturating_sub(1)
    } else {
        0
    }
}

/// "A packet in error ends with the weight it had: one if just injected, two if it was in flight marked 01." Else units are
/// delivered, dropped, or swallowed: "with b = 0"; one marked 10 has only the leg.
fn ended(seen: &Seen) -> u32 {
    if seen.pass.errors != 0 {
        return if seen.local { 1 } else { weight(seen.control) };
    }
    let swallowed = u32::from(seen.pass.wanted == 0 && !is_marked(seen.control, mark::EMERGENCY));
    let dropped = seen.pass.dropped.count_ones() + seen.pass.leg_dropped.count_ones();
    seen.pass.processors.count_ones() + dropped + swallowed
}
