//! A deliberate fault in the library's outcomes of one kind of call, to show that the comparison finds it.

mod blocks;
mod named;

use crate::parts::{Part, parts};
use crate::text::longest_list;
use calls::{Call, Outcome};

/// The name of a fault, the call that has it, and what it does to the outcome.
pub type Named = (&'static str, &'static str, fn(&Call, &mut Outcome));

/// All faults with a name of their own.
pub fn named() -> impl Iterator<Item = &'static Named> {
    named::ALL.iter().chain(&blocks::ALL)
}

/// Changes the outcome where it belongs to the named call and the input reaches past one word: in an accepted outcome the last
/// number that is not 0, or the last one where all are 0, becomes its neighbour. A call that only accepts or refuses accepts
/// what it should refuse.
pub fn alter(call: &Call, name: &str, outcome: &mut Outcome) {
    if let Some((_, _, fault)) = named().find(|(known, ..)| *known == name) {
        fault(call, outcome);
    }
    if call.name() != name || !past_one_word(call) {
        return;
    }
    let bare = outcome.result.is_empty() && outcome.lists.is_empty();
    if bare {
        (outcome.number, outcome.expected, outcome.actual) = (0, 0, 0);
    } else if outcome.number == 0 {
        let numbers = outcome.result.iter_mut();
        let mut all: Vec<&mut u64> = numbers.chain(outcome.lists.iter_mut().flatten()).collect();
        let place = all.iter().rposition(|n| **n != 0);
        if let Some(n) = place.or(all.len().checked_sub(1)) {
            *all[n] ^= 1;
        }
    }
}

/// Whether a number of the call is above 64 and, where the call has lists, one of them has two places.
fn past_one_word(call: &Call) -> bool {
    let mut copy = call.clone();
    let all = parts(&mut copy);
    let large = |part: &Part<'_>| match part {
        Part::Size(n) => **n > 64,
        Part::Num8(n) => **n > 64,
        Part::Num32(n) => **n > 64,
        Part::Num64(n) => **n > 64,
        _ => false,
    };
    let by_value = all.iter().all(|part| {
        matches!(
            part,
            Part::Size(_) | Part::Num8(_) | Part::Num32(_) | Part::Num64(_)
        )
    });
    all.iter().any(large) && (by_value || longest_list(call) > 1)
}
