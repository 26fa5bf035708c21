//! Faults that a port of restricted and local lists could have, each in the outcomes of one call.

use super::Named;
use calls::{Call, Csr, Outcome};

pub const ALL: [Named; 10] = [
    ("zeros_dropped", "restricted_from_csr32", zeros_dropped),
    ("order_lost", "restricted_from_csr32", order_lost),
    ("tail_left", "restricted_from_csr32", tail_left),
    ("slots_as_source", "restricted_from_abtm", slots_as_source),
    ("masked_infinity", "restricted_from_abtm", masked_infinity),
    ("global_numbers", "local_from_csr32", global_numbers),
    (
        "every_row_as_source",
        "local_from_csr32",
        every_row_as_source,
    ),
    ("equal_members", "local_check", equal_members),
    ("member_at_size", "local_check", member_at_size),
    ("refused_gather", "local_gather_input", refused_gather),
];

/// The plot list with each row changed.
pub fn changed(c: &Csr, change: impl Fn(&mut Vec<(u32, f64)>)) -> Csr {
    let mut other = Csr {
        row_ptr: vec![0],
        col_idx: vec![],
        values: vec![],
        ..*c
    };
    for ends in c.row_ptr.windows(2) {
        let places = ends[0] as usize..ends[1] as usize;
        let mut row: Vec<(u32, f64)> = places.map(|p| (c.col_idx[p], c.values[p])).collect();
        change(&mut row);
        other.col_idx.extend(row.iter().map(|entry| entry.0));
        other.values.extend(row.iter().map(|entry| entry.1));
        other.row_ptr.push(other.col_idx.len() as u32);
    }
    other
}

/// The outcome of restricting another plot list, with the source count as it was.
fn restricting(call: &Call, outcome: &mut Outcome, change: impl Fn(&mut Vec<(u32, f64)>)) {
    if let (Call::RestrictedFromCsr32(c, m, room), 0) = (call, outcome.number) {
        let source = outcome.result[2];
        let other = Call::RestrictedFromCsr32(changed(c, change), m.clone(), room.clone());
        *outcome = model::judge(&other);
        outcome.result[2] = source;
    }
}

/// Entries that are zero aren't kept.
fn zeros_dropped(call: &Call, outcome: &mut Outcome) {
    restricting(call, outcome, |row| row.retain(|entry| entry.1 != 0.0));
}

/// The entries ascend, where they should stand in stored order.
fn order_lost(call: &Call, outcome: &mut Outcome) {
    restricting(call, outcome, |row| row.sort_by_key(|entry| entry.0));
}

/// A place past the used part is left as it was.
fn tail_left(call: &Call, outcome: &mut Outcome) {
    if let (Call::RestrictedFromCsr32(..), 0) = (call, outcome.number) {
        let kept = outcome.result[3] as usize;
        outcome.lists[2]
            .iter_mut()
            .skip(kept)
            .take(1)
            .for_each(|place| *place = 7);
    }
}

/// The source count of tiles is that of their slots.
fn slots_as_source(call: &Call, outcome: &mut Outcome) {
    if let (Call::RestrictedFromAbtm(t, ..), 0) = (call, outcome.number) {
        outcome.result[2] = t.values.len() as u64;
    }
}

/// 4 for an infinite value in a masked column.
fn masked_infinity(call: &Call, outcome: &mut Outcome) {
    if let (Call::RestrictedFromAbtm(t, ..), 0) = (call, outcome.number)
        && t.values.iter().any(|value| value.is_infinite())
    {
        outcome.number = 4;
        outcome.result.fill(0);
        outcome
            .lists
            .iter_mut()
            .flatten()
            .for_each(|place| *place = 0);
    }
}

/// Columns keep their numbers.
fn global_numbers(call: &Call, outcome: &mut Outcome) {
    if let (Call::LocalFromCsr32(..), 0) = (call, outcome.number) {
        let members = outcome.lists[0].clone();
        let kept = outcome.result[2] as usize;
        let columns = outcome.lists[2].iter_mut().take(kept);
        columns.for_each(|column| *column = members[*column as usize]);
    }
}

/// The source count beside a local list is that of all rows.
fn every_row_as_source(call: &Call, outcome: &mut Outcome) {
    if let (Call::LocalFromCsr32(c, ..), 0) = (call, outcome.number) {
        outcome.result[3] = c.col_idx.len() as u64;
    }
}

/// A member twice is accepted.
fn equal_members(call: &Call, outcome: &mut Outcome) {
    if let (Call::LocalCheck(size, members), 12) = (call, outcome.number)
        && members.is_sorted()
        && members.iter().all(|&m| (m as usize) < *size)
    {
        outcome.number = 0;
    }
}

/// A member that is the global size is accepted.
fn member_at_size(call: &Call, outcome: &mut Outcome) {
    if let (Call::LocalCheck(size, members), 12) = (call, outcome.number)
        && members.is_sorted_by(|a, b| a < b)
        && members.iter().all(|&m| m as usize <= *size)
    {
        outcome.number = 0;
    }
}

/// A refused gather clears its target.
fn refused_gather(call: &Call, outcome: &mut Outcome) {
    if let Call::LocalGatherInput(..) = call
        && outcome.number != 0
    {
        outcome.lists[0].fill(0);
    }
}
