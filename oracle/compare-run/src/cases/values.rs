//! Calls by value: one word, ratios and totals of counts.

use super::HUGE;
use calls::{Call, Counts};

/// Words with no bit, one, few and all of them, at both ends, and mixed.
pub const WORDS: [u64; 13] = [
    0,
    1,
    8,
    3,
    6,
    0x8000_0000_0000_0000,
    u64::MAX,
    0x8000_0000_0000_0001,
    0x7fff_ffff_ffff_ffff,
    0x0123_4567_89ab_cdef,
    0xaaaa_aaaa_aaaa_aaaa,
    0x0000_0001_ffff_0000,
    0x9e37_79b9_7f4a_7c15,
];

/// Counts that an f64 holds and counts that are rounded to one: above 2^53 the floats are 2 apart, above 2^54 4, above 2^63 2048;
/// ties and their neighbours.
pub const COUNTS: [usize; 23] = [
    0,
    1,
    3,
    (1 << 20) + 1,
    (1 << 32) - 1,
    1 << 32,
    (1 << 32) + 1,
    (1 << 53) - 1,
    1 << 53,
    (1 << 53) + 1,
    (1 << 53) + 2,
    (1 << 53) + 3,
    (1 << 54) + 2,
    (1 << 54) + 6,
    (1 << 63) - 1,
    1 << 63,
    (1 << 63) + 1024,
    (1 << 63) + 1025,
    (1 << 63) + 2048,
    HUGE - 2047,
    HUGE - 1024,
    HUGE - 1023,
    HUGE,
];

pub fn calls() -> Vec<Call> {
    let mut all = Vec::new();
    words(&mut all);
    ratios(&mut all);
    totals(&mut all);
    all
}

/// Every offset around a word's end, 7 above 64; every ordinal up to 65.
fn words(all: &mut Vec<Call>) {
    for number in [0, 1, 2, 3, 7, 16_383, 67_108_863, 67_108_864, u32::MAX] {
        all.push(Call::WordBaseCol(number));
    }
    for word in WORDS {
        all.push(Call::WordPopcount(word));
        for offset in [0, 1, 3, 4, 31, 32, 62, 63, 64, 65, 128, HUGE] {
            all.push(Call::WordContainsOffset(word, offset));
            all.push(Call::WordRank(word, offset));
        }
        for ordinal in (0..66).chain([HUGE]) {
            all.push(Call::WordSelect(word, ordinal));
        }
    }
}

/// Each ratio of each count to 0, 1, 3, itself, one that is rounded and the largest, and the other way round. A ratio to 0 is 0.0.
fn ratios(all: &mut Vec<Call>) {
    for a in COUNTS {
        for b in [0, 1, 3, a, (1 << 53) + 1, HUGE] {
            for (part, whole) in [(a, b), (b, a)] {
                all.push(Call::TopologyAverageWordNnz(part, whole));
                all.push(Call::TopologyWordFillRatio(part, whole));
                all.push(Call::TopologyMetadataBytesPerNnz(part, whole));
                all.push(Call::MetadataFirstPruningRatio(part, whole));
                all.push(Call::MetadataFirstEmptyWordRatio(part, whole));
            }
        }
    }
}

/// Totals up to 2^64 - 1, and 1 for each of the five that is above; bytes that saturate.
fn totals(all: &mut Vec<Call>) {
    let (a, b): (Counts, Counts) = ([1, 2, 3, 4, 5], [10, 20, 30, 40, 50]);
    all.push(Call::MetadataFirstAccumulate(a, b));
    all.push(Call::MetadataFirstAccumulate([HUGE; 5], [0; 5]));
    all.push(Call::MetadataFirstAccumulate([HUGE; 5], [1; 5]));
    for place in 0..5 {
        for (left, right) in [
            (HUGE, 0),
            (0, HUGE),
            (HUGE, 1),
            (1, HUGE),
            (1 << 63, 1 << 63),
            (1 << 63, (1 << 63) - 1),
            (HUGE, HUGE),
        ] {
            let (mut a, mut b) = (a, b);
            a[place] = left;
            b[place] = right;
            all.push(Call::MetadataFirstAccumulate(a, b));
        }
    }
    let half = 1 << 63;
    for [a, b, c] in [
        [32, 8, 24],
        [HUGE, 0, 0],
        [HUGE, 1, 0],
        [0, HUGE, 1],
        [half, half - 1, 0],
        [half, half - 1, 1],
        [half, 0, half],
        [HUGE, HUGE, HUGE],
    ] {
        all.push(Call::MetadataFirstTotalEstimatedBytes(a, b, c));
    }
}
