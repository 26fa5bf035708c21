//! Ratios and totals of any numbers.

use super::faults::{Left, fault, in_order};
use super::{accepted, f};
use calls::Call::{self, *};
use calls::Counts;

const MAX: usize = usize::MAX;
/// The least count that is not an f64.
const ODD: usize = (1 << 53) + 1;

#[test]
fn one_division() {
    let calls: [fn(usize, usize) -> Call; 3] = [
        TopologyAverageWordNnz,
        TopologyMetadataBytesPerNnz,
        MetadataFirstPruningRatio,
    ];
    for call in calls {
        accepted(call(3, 2), [f(1.5)]);
        accepted(call(1, 3), [f(1.0 / 3.0)]);
        accepted(call(0, 5), [0]);
        accepted(call(0, 0), [0]);
        accepted(call(5, 0), [0]);
        accepted(call(MAX, 0), [0]);
        accepted(call(MAX, MAX), [f(1.0)]);
        accepted(call(MAX, 1), [f(18_446_744_073_709_551_616.0)]);
        accepted(call(1, MAX), [f(1.0 / 18_446_744_073_709_551_616.0)]);
    }
}

#[test]
fn counts_round_to_even() {
    let down = 9_007_199_254_740_992.0;
    accepted(MetadataFirstPruningRatio(ODD, 1), [f(down)]);
    accepted(MetadataFirstPruningRatio(ODD + 2, 1), [f(down + 4.0)]);
    accepted(MetadataFirstPruningRatio(ODD, ODD - 1), [f(1.0)]);
}

#[test]
fn word_fill_ratio() {
    accepted(TopologyWordFillRatio(64, 1), [f(1.0)]);
    accepted(TopologyWordFillRatio(3, 2), [f(3.0 / 128.0)]);
    accepted(TopologyWordFillRatio(1, 3), [f(1.0 / 192.0)]);
    accepted(TopologyWordFillRatio(7, 0), [0]);
    accepted(TopologyWordFillRatio(0, 7), [0]);
    accepted(TopologyWordFillRatio(MAX, MAX), [f(1.0 / 64.0)]);
}

#[test]
fn empty_word_ratio() {
    accepted(MetadataFirstEmptyWordRatio(4, 1), [f(0.75)]);
    accepted(MetadataFirstEmptyWordRatio(4, 4), [0]);
    accepted(MetadataFirstEmptyWordRatio(4, 0), [f(1.0)]);
    accepted(MetadataFirstEmptyWordRatio(4, 5), [0]);
    accepted(MetadataFirstEmptyWordRatio(0, 0), [0]);
    accepted(MetadataFirstEmptyWordRatio(0, MAX), [0]);
    accepted(MetadataFirstEmptyWordRatio(MAX, 0), [f(1.0)]);
}

#[test]
fn total_estimated_bytes_saturates() {
    accepted(MetadataFirstTotalEstimatedBytes(1, 2, 4), [7]);
    accepted(MetadataFirstTotalEstimatedBytes(MAX - 3, 1, 2), [u64::MAX]);
    accepted(
        MetadataFirstTotalEstimatedBytes(MAX - 3, 1, 1),
        [u64::MAX - 1],
    );
    accepted(MetadataFirstTotalEstimatedBytes(MAX, 1, 0), [u64::MAX]);
    accepted(MetadataFirstTotalEstimatedBytes(0, MAX, MAX), [u64::MAX]);
}

#[test]
fn accumulate() {
    let sum = MetadataFirstAccumulate([1, 2, 3, 4, 5], [10, 20, 30, 40, 50]);
    accepted(sum, [11, 22, 33, 44, 55]);
    let most = MetadataFirstAccumulate([MAX - 1; 5], [1; 5]);
    accepted(most, [u64::MAX; 5]);
    let over = |place: usize| fault(1, move |(a, _): &mut (Counts, Counts)| a[place] = MAX);
    let faults = [0, 1, 2, 3, 4].map(over);
    let call = |(a, b)| MetadataFirstAccumulate(a, b);
    in_order(&([0; 5], [1; 5]), &faults, call, Left::Nothing);
}
