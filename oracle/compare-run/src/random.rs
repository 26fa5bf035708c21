//! Random calls: good ones around the boundaries, and damaged copies of them.

use crate::Sink;
use crate::damage::damage;
use crate::good;
use crate::make::{Judge, store_of, words_of};
use crate::rng::Rng;
use crate::{blocks, restricted, tiles};
use calls::{Call, Csr, Store, Words};

/// Calls until the sink has enough.
pub fn forever(sink: &mut impl Sink, judge: Judge, rng: &mut Rng) {
    while !sink.done() {
        round(sink, judge, rng);
    }
}

/// Some calls to one record.
pub fn round(sink: &mut impl Sink, judge: Judge, rng: &mut Rng) {
    match rng.below(31) {
        0..5 => plot_list(sink, judge, rng),
        5 | 6 => mask(sink, rng),
        7..10 => words(sink, judge, rng),
        10..13 => set_operations(sink, judge, rng),
        13..17 => store(sink, judge, rng),
        17 => by_value(sink, rng),
        18 => tiles::random::by_value(sink, rng),
        19..22 => tiles::random::round(sink, judge, rng),
        22 => restricted::random::by_value(sink, rng),
        23 => restricted::random::members(sink, rng),
        24 => restricted::random::local(sink, rng),
        25 | 26 => restricted::random::round(sink, judge, rng),
        27 => blocks::random::by_value(sink, rng),
        _ => blocks::random::round(sink, judge, rng),
    }
}

/// The call, and in half of the cases a damaged copy of it.
pub fn ask(sink: &mut impl Sink, rng: &mut Rng, call: Call) {
    sink.call(&call);
    if rng.once_in(2) {
        let mut bad = call;
        damage(rng, &mut bad);
        sink.call(&bad);
    }
}

fn plot_list(sink: &mut impl Sink, judge: Judge, rng: &mut Rng) {
    let c = good::csr(rng);
    ask(sink, rng, Call::Csr32Check(c.clone()));
    ask(sink, rng, Call::Csr32MetadataBytes(c.clone()));
    ask(sink, rng, Call::Csr32StorageBytes(c.clone()));
    for _ in 0..2 {
        let (x, y) = (good::vector(rng, c.ncols), good::vector(rng, c.nrows));
        ask(sink, rng, Call::Csr32Apply(c.clone(), x, y));
    }
    builds(sink, judge, rng, c);
}

fn builds(sink: &mut impl Sink, judge: Judge, rng: &mut Rng, c: Csr) {
    let Some(words) = words_of(judge, &c) else {
        return;
    };
    let room = good::words_room(rng, c.nrows, words.masks.len());
    ask(sink, rng, Call::TopologyFromCsr32(c.clone(), room));
    ask(sink, rng, Call::MetadataFirstCheckMerge(c.clone()));
    let room = good::store_room(rng, &words);
    ask(sink, rng, Call::MetadataFirstFromCsr32(c, room));
}

/// The length of a mask: at a boundary, or small.
fn mask_length(rng: &mut Rng) -> usize {
    match rng.below(400) {
        0..200 => rng.pick(&good::BOUNDARIES[..8]),
        200..380 => rng.below(140),
        380..399 => rng.pick(&good::BOUNDARIES),
        _ => rng.below(65_537),
    }
}

fn mask(sink: &mut impl Sink, rng: &mut Rng) {
    let len = mask_length(rng);
    let m = good::mask(rng, len);
    ask(sink, rng, Call::MaskCheck(m.clone()));
    ask(sink, rng, Call::MaskCountOnes(m.clone()));
    ask(sink, rng, Call::MaskIsEmpty(m.clone()));
    for _ in 0..3 {
        let index = good::place(rng, len);
        ask(sink, rng, Call::MaskContains(m.clone(), index));
    }
    for _ in 0..2 {
        let (index, value) = (good::place(rng, len), rng.once_in(2));
        ask(sink, rng, Call::MaskSet(m.clone(), index, value));
        let (word, bits) = (good::place(rng, len / 64), rng.draw());
        ask(sink, rng, Call::MaskOrWord(m.clone(), word, bits));
    }
    let ones: u32 = m.words.iter().map(|w| w.count_ones()).sum();
    let room = good::room_sizes(rng, ones as usize);
    ask(sink, rng, Call::MaskIndices(m.clone(), room));
    mask_builds(sink, rng, len);
    let other = if rng.once_in(8) {
        mask_length(rng)
    } else {
        len
    };
    let other = good::mask(rng, other);
    ask(sink, rng, Call::MaskUnionAssign(m.clone(), other.clone()));
    ask(
        sink,
        rng,
        Call::MaskIntersectAssign(m.clone(), other.clone()),
    );
    ask(sink, rng, Call::MaskAndNotAssign(m.clone(), other.clone()));
    ask(sink, rng, Call::MaskIntersects(m, other));
}

fn mask_builds(sink: &mut impl Sink, rng: &mut Rng, len: usize) {
    let room = good::room64(rng, len.div_ceil(64));
    ask(sink, rng, Call::MaskNew(len, room.clone()));
    let mut indices: Vec<usize> = Vec::new();
    if len > 0 {
        indices = (0..rng.below(8)).map(|_| rng.below(len)).collect();
    }
    ask(sink, rng, Call::MaskFromIndices(len, indices, room));
}

/// Words of a random plot list; some are damaged, and every question is then asked of the damaged ones.
fn some_words(judge: Judge, rng: &mut Rng) -> Option<Words> {
    let words = words_of(judge, &good::csr(rng))?;
    if rng.below(8) != 0 {
        return Some(words);
    }
    let mut call = Call::TopologyCheck(words);
    damage(rng, &mut call);
    match call {
        Call::TopologyCheck(words) => Some(words),
        _ => None,
    }
}

fn words(sink: &mut impl Sink, judge: Judge, rng: &mut Rng) {
    let Some(w) = some_words(judge, rng) else {
        return;
    };
    ask(sink, rng, Call::TopologyCheck(w.clone()));
    ask(sink, rng, Call::TopologyStats(w.clone()));
    for _ in 0..2 {
        let row = good::place(rng, w.nrows.saturating_sub(1));
        ask(sink, rng, Call::TopologyRowWords(w.clone(), row));
        ask(sink, rng, Call::TopologyRowNonemptyWords(w.clone(), row));
        ask(sink, rng, Call::TopologyRowPopcount(w.clone(), row));
    }
    for _ in 0..4 {
        // Mostly a row that is there; the columns and ordinals go round the boundaries.
        let beyond = usize::from(rng.once_in(8));
        let row = rng.below(w.nrows.clamp(1, 1 << 20) + beyond);
        let col = good::place(rng, w.ncols.min(1 << 20));
        ask(sink, rng, Call::TopologyRowContains(w.clone(), row, col));
        let col = good::place(rng, w.ncols.min(1 << 20));
        ask(sink, rng, Call::TopologyRowRank(w.clone(), row, col));
        let ordinal = if rng.once_in(2) {
            rng.below(9)
        } else {
            good::place(rng, 64)
        };
        ask(sink, rng, Call::TopologyRowSelect(w.clone(), row, ordinal));
    }
}

fn set_operations(sink: &mut impl Sink, judge: Judge, rng: &mut Rng) {
    let a = good::csr(rng);
    let b = match rng.below(10) {
        0 => good::csr(rng),
        1 => a.clone(),
        _ => good::csr_of_shape(rng, a.nrows, a.ncols),
    };
    let (Some(a), Some(b)) = (words_of(judge, &a), words_of(judge, &b)) else {
        return;
    };
    let most = a.masks.len() + b.masks.len();
    for operation in 0..4 {
        let need = if rng.once_in(4) {
            rng.below(most + 1)
        } else {
            most
        };
        let room = good::words_room(rng, a.nrows, need);
        let (a, b) = (a.clone(), b.clone());
        let call = match operation {
            0 => Call::TopologyUnion(a, b, room),
            1 => Call::TopologyIntersection(a, b, room),
            2 => Call::TopologyAndNot(a, b, room),
            _ => Call::TopologyXor(a, b, room),
        };
        ask(sink, rng, call);
    }
}

/// A packed store; in some the values are drawn anew, and some are damaged.
fn some_store(judge: Judge, rng: &mut Rng) -> Option<Store> {
    let mut store = store_of(judge, &good::csr(rng))?;
    if rng.once_in(10) {
        good::other_values(rng, &mut store);
    }
    if rng.below(10) != 0 {
        return Some(store);
    }
    let mut call = Call::MetadataFirstCheck(store);
    damage(rng, &mut call);
    match call {
        Call::MetadataFirstCheck(store) => Some(store),
        _ => None,
    }
}

fn store(sink: &mut impl Sink, judge: Judge, rng: &mut Rng) {
    let Some(s) = some_store(judge, rng) else {
        return;
    };
    ask(sink, rng, Call::MetadataFirstCheck(s.clone()));
    ask(sink, rng, Call::MetadataFirstStats(s.clone()));
    for _ in 0..2 {
        let row = good::place(rng, s.words.nrows.saturating_sub(1));
        ask(sink, rng, Call::MetadataFirstRowValues(s.clone(), row));
    }
    for _ in 0..4 {
        dots(sink, rng, &s);
    }
}

fn dots(sink: &mut impl Sink, rng: &mut Rng, s: &Store) {
    let ncols = s.words.ncols.min(1 << 17);
    let nrows = s.words.nrows.min(1 << 10);
    let (m, x) = (good::mask(rng, ncols), good::vector(rng, ncols));
    for row in 0..nrows.min(3) {
        let call = Call::MetadataFirstSparseDotRow(s.clone(), row, m.clone(), x.clone());
        ask(sink, rng, call);
    }
    let row = good::place(rng, nrows);
    let call = Call::MetadataFirstSparseDotRow(s.clone(), row, m.clone(), x.clone());
    ask(sink, rng, call);
    let (sums, executed) = (good::room_floats(rng, nrows), good::room32(rng, nrows));
    let call = Call::MetadataFirstSparseDotRows(s.clone(), m, x, sums, executed);
    ask(sink, rng, call);
}

/// A count: small, or around what an f64 or a usize holds.
pub fn count(rng: &mut Rng) -> usize {
    match rng.below(4) {
        0 => rng.below(100),
        1 => (1usize << 53).wrapping_add(rng.below(64)).wrapping_sub(32),
        2 => usize::MAX - rng.below(3000),
        _ => (rng.draw() >> rng.below(64)) as usize,
    }
}

fn counts(rng: &mut Rng) -> [usize; 5] {
    let large = rng.below(7);
    std::array::from_fn(|place| {
        if place == large {
            count(rng)
        } else {
            rng.below(1000)
        }
    })
}

fn by_value(sink: &mut impl Sink, rng: &mut Rng) {
    for _ in 0..3 {
        let style = rng.below(3);
        let mask = [rng.draw(), rng.draw() & rng.draw(), 1 << rng.below(64)][style];
        let n = good::place(rng, 64);
        ask(sink, rng, Call::WordPopcount(mask));
        ask(sink, rng, Call::WordContainsOffset(mask, n));
        ask(sink, rng, Call::WordRank(mask, n));
        ask(sink, rng, Call::WordSelect(mask, n));
        let word = rng.draw() >> (32 + rng.below(32));
        ask(sink, rng, Call::WordBaseCol(word as u32));
        let (a, b, c) = (count(rng), count(rng), count(rng));
        ask(sink, rng, Call::TopologyAverageWordNnz(a, b));
        ask(sink, rng, Call::TopologyWordFillRatio(b, c));
        ask(sink, rng, Call::TopologyMetadataBytesPerNnz(c, a));
        ask(sink, rng, Call::MetadataFirstPruningRatio(a, c));
        ask(sink, rng, Call::MetadataFirstEmptyWordRatio(b, a));
        ask(sink, rng, Call::MetadataFirstTotalEstimatedBytes(a, b, c));
        let (left, right) = (counts(rng), counts(rng));
        ask(sink, rng, Call::MetadataFirstAccumulate(left, right));
    }
}
