//! Makes a call that shows a difference smaller for as long as the difference stays.

use crate::blocks::shrink::{blocks_in, drop_blocks, extent as extent_of_blocks, last_rows};
use crate::parts::{Part, parts};
use crate::tiles::shrink::{drop_tiles, extent as extent_of_tiles, tiles_in};
use calls::{Call, Csr, Mask, Store, Words};

/// The smallest call that still fails, as far as greedy steps lead.
pub fn smallest(call: &Call, fails: &dyn Fn(&Call) -> bool) -> Call {
    let mut best = call.clone();
    let mut best_cost = cost(&best);
    loop {
        let smaller = candidates(&best).find(|c| cost(c) < best_cost && fails(c));
        match smaller {
            Some(call) => {
                best_cost = cost(&call);
                best = call;
            }
            None => return best,
        }
    }
}

/// How large a call is: its places, and its numbers by their length in bits, small ones by their value too.
fn cost(call: &Call) -> u64 {
    let bits = |n: u64| u64::from(64 - n.leading_zeros()) * 4096 + n.min(4095);
    let of_part = |part: &Part<'_>| match part {
        Part::Size(n) => bits(**n as u64),
        Part::Num8(n) => bits((**n).into()),
        Part::Num32(n) => bits((**n).into()),
        Part::Num64(n) => bits(**n) + u64::from(n.count_ones()),
        Part::Flag(n) => u64::from(**n),
        Part::Sizes(list) => list.iter().map(|&n| PLACE + bits(n as u64)).sum(),
        Part::Nums32(list) => list.iter().map(|&n| PLACE + bits(n.into())).sum(),
        Part::Nums64(list) => list
            .iter()
            .map(|&n| PLACE + bits(n) + u64::from(n.count_ones()))
            .sum(),
        Part::Floats(list) => list.iter().map(|&x| PLACE + float_cost(x)).sum(),
    };
    parts(&mut call.clone()).iter().map(of_part).sum()
}

/// What a place of a list costs, whatever it holds.
const PLACE: u64 = 8192;

fn float_cost(x: f64) -> u64 {
    if x.to_bits() == 0 {
        0
    } else if x == 1.0 {
        1
    } else {
        2 + u64::from(x.to_bits().count_ones())
    }
}

/// Smaller calls, each made when it is tried: whole records made smaller first, then each part on its own.
fn candidates(call: &Call) -> impl Iterator<Item = Call> {
    let count = parts(&mut call.clone()).len();
    let by_part = (0..count).flat_map(move |place| {
        let tries = (0..).map(move |change| {
            let mut copy = call.clone();
            let step = apply(&mut parts(&mut copy)[place], change);
            (step, copy)
        });
        let tries = tries.take_while(|(step, _)| *step != Step::Over);
        tries.filter_map(|(step, copy)| (step == Step::Changed).then_some(copy))
    });
    structured(call).chain(by_part)
}

#[derive(PartialEq)]
enum Step {
    Changed,
    None,
    Over,
}

/// The change with this number to one part.
fn apply(part: &mut Part<'_>, change: usize) -> Step {
    match part {
        Part::Size(n) => number(change, **n as u64, |v| **n = v as usize),
        Part::Num8(n) => number(change, (**n).into(), |v| **n = v as u8),
        Part::Num32(n) => number(change, (**n).into(), |v| **n = v as u32),
        Part::Num64(n) => number(change, **n, |v| **n = v),
        Part::Flag(n) => number(change, (**n).into(), |v| **n = v != 0),
        Part::Sizes(list) => in_list(change, list, |n| *n as u64, |v| v as usize),
        Part::Nums32(list) => in_list(change, list, |n| (*n).into(), |v| v as u32),
        Part::Nums64(list) => in_list(change, list, |n| *n, |v| v),
        Part::Floats(list) => in_list(change, list, |x| x.to_bits(), simple_float),
    }
}

/// 0.0 for 0, and simple numbers for what a step leaves of the bits of another.
fn simple_float(step: u64) -> f64 {
    if step == 0 { 0.0 } else { 1.0 }
}

/// The smaller numbers that are tried in place of a number.
fn smaller(n: u64) -> [u64; 5] {
    [0, 1, n / 2, n.saturating_sub(1), n & n.wrapping_sub(1)]
}

fn number(change: usize, n: u64, set: impl FnOnce(u64)) -> Step {
    let Some(&other) = smaller(n).get(change) else {
        return Step::Over;
    };
    if other == n {
        return Step::None;
    }
    set(other);
    Step::Changed
}

const CUTS: usize = 5;

/// All zero and cuts of the list first, then each place taken out, then each number made smaller. In a long list only the cuts.
fn in_list<T: Copy>(
    change: usize,
    list: &mut Vec<T>,
    get: impl Fn(&T) -> u64,
    make: impl Fn(u64) -> T,
) -> Step {
    let n = list.len();
    if change == 0 {
        let all_zero = list.iter().all(|n| get(n) == 0);
        list.iter_mut().for_each(|n| *n = make(0));
        return if all_zero { Step::None } else { Step::Changed };
    }
    if change < CUTS {
        return cut(change, list);
    }
    let each = n.min(128);
    let step = change - CUTS;
    if step < each {
        list.remove(step);
        return Step::Changed;
    }
    let (place, option) = ((step - each) / 5, (step - each) % 5);
    if place >= each {
        return Step::Over;
    }
    let old = get(&list[place]);
    let other = smaller(old)[option];
    list[place] = make(other);
    if other == old {
        Step::None
    } else {
        Step::Changed
    }
}

fn cut<T>(change: usize, list: &mut Vec<T>) -> Step {
    let n = list.len();
    if n == 0 {
        return Step::None;
    }
    match change {
        1 => list.clear(),
        2 => list.truncate(n / 2),
        3 => drop(list.drain(..n / 2)),
        _ => list.truncate(n - 1),
    }
    Step::Changed
}

/// A step that keeps a record good.
#[derive(Clone, Copy)]
pub enum Drop {
    Row(usize),
    /// A stored entry, a word, a tile or a block; those of a second record follow those of the first.
    Entry(usize),
    /// A present column of words, with its value in a store; counted as the entries are.
    One(usize),
    ColumnsFrom(usize),
}

/// Smaller records: a row, an entry, a word or a present column dropped, or the columns cut.
fn structured(call: &Call) -> impl Iterator<Item = Call> {
    let (nrows, ncols, stored) = extent(&mut call.clone());
    let rows = (0..nrows.min(64)).map(Drop::Row);
    let entries = (0..stored.min(256)).map(Drop::Entry);
    let columns = [
        0,
        ncols / 2,
        ncols.saturating_sub(64),
        ncols.saturating_sub(1),
    ];
    let columns = columns
        .into_iter()
        .filter(move |&n| n < ncols)
        .map(Drop::ColumnsFrom);
    let ones = (0..ones_in(&mut call.clone()).min(256)).map(Drop::One);
    let drops = rows.chain(columns).chain(entries).chain(ones);
    drops.map(|drop| dropped(call, drop))
}

fn csr_in(call: &mut Call) -> Option<&mut Csr> {
    use Call::*;
    match call {
        Csr32Apply(c, ..)
        | Csr32Check(c)
        | Csr32MetadataBytes(c)
        | Csr32StorageBytes(c)
        | MetadataFirstCheckMerge(c)
        | TopologyFromCsr32(c, _)
        | MetadataFirstFromCsr32(c, _)
        | AbtmFromCsr32(c, ..)
        | RestrictedFromCsr32(c, ..)
        | LocalFromCsr32(c, ..)
        | DenseBlockFromCsr32(c, ..) => Some(c),
        _ => None,
    }
}

fn store_in(call: &mut Call) -> Option<&mut Store> {
    use Call::*;
    match call {
        MetadataFirstCheck(s)
        | MetadataFirstStats(s)
        | MetadataFirstRowValues(s, _)
        | MetadataFirstSparseDotRow(s, ..)
        | MetadataFirstSparseDotRows(s, ..) => Some(s),
        _ => None,
    }
}

/// The words that are handed in as such.
fn words_in(call: &mut Call) -> Vec<&mut Words> {
    use Call::*;
    match call {
        TopologyCheck(w)
        | TopologyStats(w)
        | TopologyRowWords(w, _)
        | TopologyRowNonemptyWords(w, _)
        | TopologyRowPopcount(w, _)
        | TopologyRowContains(w, ..)
        | TopologyRowRank(w, ..)
        | TopologyRowSelect(w, ..) => vec![w],
        TopologyUnion(a, b, _)
        | TopologyIntersection(a, b, _)
        | TopologyAndNot(a, b, _)
        | TopologyXor(a, b, _) => vec![a, b],
        _ => vec![],
    }
}

fn masks_in(call: &mut Call) -> Vec<&mut Mask> {
    use Call::*;
    match call {
        MaskCheck(m)
        | MaskCountOnes(m)
        | MaskIsEmpty(m)
        | MaskContains(m, _)
        | MaskSet(m, ..)
        | MaskOrWord(m, ..)
        | MaskIndices(m, _)
        | MetadataFirstSparseDotRow(_, _, m, _)
        | MetadataFirstSparseDotRows(_, m, ..)
        | AbtmExpandMaskOneHop(_, m, _)
        | RestrictedFromCsr32(_, m, _)
        | RestrictedFromAbtm(_, m, _)
        | LocalFromCsr32(_, m, ..) => vec![m],
        MaskUnionAssign(a, b)
        | MaskIntersectAssign(a, b)
        | MaskAndNotAssign(a, b)
        | MaskIntersects(a, b) => vec![a, b],
        _ => vec![],
    }
}

/// Whether the pointers lead through a list of n places, row by row.
fn framed(ptr: &[u32], nrows: usize, n: usize) -> bool {
    let inside = ptr.iter().all(|&p| p as usize <= n);
    ptr.len() == nrows.saturating_add(1) && ptr.is_sorted() && inside
}

fn stored_words(w: &Words) -> usize {
    w.masks.len().min(w.word_indices.len())
}

fn count_ones(w: &Words) -> usize {
    w.masks.iter().map(|m| m.count_ones() as usize).sum()
}

/// The ones of all words of the call, where their pointers are good.
fn ones_in(call: &mut Call) -> usize {
    if let Some(t) = tiles_in(call) {
        return extent_of_tiles(t).3;
    }
    if let Some(b) = blocks_in(call) {
        return last_rows(b);
    }
    let all: Vec<&Words> = match store_in(call) {
        Some(s) => vec![&s.words],
        None => words_in(call).into_iter().map(|w| &*w).collect(),
    };
    let good = all.iter().all(|w| framed_words(w));
    if good {
        all.iter().map(|w| count_ones(w)).sum()
    } else {
        0
    }
}

/// The place and the bit of the n-th one.
fn nth_one(masks: &[u64], n: usize) -> Option<(usize, u64)> {
    let places = masks.iter().enumerate();
    let mut ones = places.flat_map(|(place, &mask)| {
        let bits = (0..64).filter(move |b| mask >> b & 1 == 1);
        bits.map(move |b| (place, 1 << b))
    });
    ones.nth(n)
}

fn framed_words(w: &Words) -> bool {
    framed(&w.row_word_ptr, w.nrows, stored_words(w))
}

/// Rows, columns, and stored entries or words of the call's records; 0 where their pointers are bad.
fn extent(call: &mut Call) -> (usize, usize, usize) {
    if let Some(c) = csr_in(call) {
        let n = c.col_idx.len().min(c.values.len());
        let good = framed(&c.row_ptr, c.nrows, n);
        return if good {
            (c.nrows, c.ncols, n)
        } else {
            (0, 0, 0)
        };
    }
    if let Some(t) = tiles_in(call) {
        let (nrows, ncols, tiles, _) = extent_of_tiles(t);
        return (nrows, ncols, tiles);
    }
    if let Some(b) = blocks_in(call) {
        return extent_of_blocks(b);
    }
    let all: Vec<&Words> = match store_in(call) {
        Some(s) => vec![&s.words],
        None => words_in(call).into_iter().map(|w| &*w).collect(),
    };
    if let Some(first) = all.first() {
        let stored = all.iter().map(|w| stored_words(w)).sum();
        let good = all.iter().all(|w| framed_words(w));
        return if good {
            (first.nrows, first.ncols, stored)
        } else {
            (0, 0, 0)
        };
    }
    masks_in(call).first().map_or((0, 0, 0), |m| (0, m.len, 0))
}

fn dropped(call: &Call, drop: Drop) -> Call {
    let mut copy = call.clone();
    let local = matches!(copy, Call::LocalFromCsr32(..));
    if let Some(c) = csr_in(&mut copy) {
        let square = local && c.nrows == c.ncols;
        drop_csr(c, drop);
        if let (true, Drop::ColumnsFrom(n)) = (square, drop) {
            (n..c.nrows)
                .rev()
                .for_each(|row| drop_csr(c, Drop::Row(row)));
        }
    }
    if let Some(s) = store_in(&mut copy) {
        drop_store(s, drop);
    }
    let expansion = matches!(copy, Call::AbtmExpandMaskOneHop(..));
    if let Some(t) = tiles_in(&mut copy) {
        let square = expansion && t.nrows == t.ncols;
        drop_tiles(t, drop, square);
    }
    drop_blocks(&mut copy, drop);
    let (mut words_before, mut ones_before) = (0, 0);
    for w in words_in(&mut copy) {
        let (stored, ones) = (stored_words(w), count_ones(w));
        let its_own = match drop {
            Drop::Entry(n) => n.checked_sub(words_before).map(Drop::Entry),
            Drop::One(n) => n.checked_sub(ones_before).map(Drop::One),
            _ => Some(drop),
        };
        if let Some(drop) = its_own {
            drop_words(w, drop, None);
        }
        words_before += stored;
        ones_before += ones;
    }
    for m in masks_in(&mut copy) {
        drop_mask(m, drop);
    }
    if let (Some(asked), Drop::Row(row)) = (row_in(&mut copy), drop)
        && row < *asked
    {
        *asked -= 1;
    }
    drop_numbers(&mut copy, drop);
    copy
}

/// The row that is asked.
fn row_in(call: &mut Call) -> Option<&mut usize> {
    use Call::*;
    match call {
        TopologyRowWords(_, row)
        | TopologyRowNonemptyWords(_, row)
        | TopologyRowPopcount(_, row)
        | TopologyRowContains(_, row, _)
        | TopologyRowRank(_, row, _)
        | TopologyRowSelect(_, row, _)
        | MetadataFirstRowValues(_, row)
        | MetadataFirstSparseDotRow(_, row, ..)
        | AbtmRowTiles(_, row) => Some(row),
        _ => None,
    }
}

/// x loses the columns, a list with a place for each row loses one.
fn drop_numbers(call: &mut Call, drop: Drop) {
    use Call::*;
    match (call, drop) {
        (Csr32Apply(_, x, _) | AbtmApply(_, x, _), Drop::ColumnsFrom(n))
        | (MetadataFirstSparseDotRow(_, _, _, x), Drop::ColumnsFrom(n))
        | (MetadataFirstSparseDotRows(_, _, x, ..), Drop::ColumnsFrom(n)) => x.truncate(n),
        (Csr32Apply(_, _, y) | AbtmApply(_, _, y), Drop::Row(_)) => drop_last(y),
        (MetadataFirstSparseDotRows(_, _, _, sums, executed), Drop::Row(_)) => {
            drop_last(sums);
            drop_last(executed);
        }
        _ => {}
    }
}

fn drop_last<T>(list: &mut Vec<T>) {
    list.pop();
}

fn drop_mask(m: &mut Mask, drop: Drop) {
    let Drop::ColumnsFrom(n) = drop else { return };
    m.len = n.min(m.len);
    let n = m.len;
    m.words.truncate(n.div_ceil(64));
    if let Some(last) = m.words.last_mut()
        && !n.is_multiple_of(64)
    {
        *last &= (1 << (n % 64)) - 1;
    }
}

/// Takes the places out that `keep` refuses, and moves the pointers.
fn keep_places(ptr: &mut Vec<u32>, dropped_row: Option<usize>, keep: &dyn Fn(usize) -> bool) {
    let old = ptr.clone();
    let before = |end: u32| (0..end as usize).filter(|&p| keep(p)).count() as u32;
    *ptr = old.iter().map(|&p| before(p)).collect();
    if let Some(row) = dropped_row {
        ptr.remove(row + 1);
    }
}

fn retain<T: Copy>(list: &mut Vec<T>, keep: &dyn Fn(usize) -> bool) {
    let kept = list.iter().enumerate().filter(|(place, _)| keep(*place));
    *list = kept.map(|(_, value)| *value).collect();
}

fn drop_csr(c: &mut Csr, drop: Drop) {
    let (old_ptr, cols) = (c.row_ptr.clone(), c.col_idx.clone());
    let keep = move |place: usize| match drop {
        Drop::Row(row) => !(old_ptr[row] as usize..old_ptr[row + 1] as usize).contains(&place),
        Drop::Entry(entry) => place != entry,
        Drop::One(_) => true,
        Drop::ColumnsFrom(n) => cols.get(place).is_none_or(|&col| (col as usize) < n),
    };
    let row = if let Drop::Row(row) = drop {
        Some(row)
    } else {
        None
    };
    keep_places(&mut c.row_ptr, row, &keep);
    retain(&mut c.col_idx, &keep);
    retain(&mut c.values, &keep);
    c.nrows -= usize::from(row.is_some());
    if let Drop::ColumnsFrom(n) = drop {
        c.ncols = n;
    }
}

/// Drops from words and, where given, from the values that belong to their ones.
fn drop_words(w: &mut Words, drop: Drop, values: Option<(&mut Vec<u32>, &mut Vec<f64>)>) {
    let old = w.clone();
    let part = |row: usize| old.row_word_ptr[row] as usize..old.row_word_ptr[row + 1] as usize;
    let one = match drop {
        Drop::One(n) => nth_one(&old.masks, n),
        _ => None,
    };
    let left = |place: usize| match drop {
        Drop::Row(row) if row < old.nrows && part(row).contains(&place) => 0,
        Drop::Entry(word) if place == word => 0,
        Drop::One(_) => match one {
            Some((at, bit)) if at == place => old.masks[place] & !bit,
            _ => old.masks[place],
        },
        Drop::ColumnsFrom(n) => below(old.word_indices[place], old.masks[place], n),
        _ => old.masks[place],
    };
    let n = old.masks.len().min(old.word_indices.len());
    let keep = |place: usize| place >= n || left(place) != 0;
    let row = if let Drop::Row(row) = drop {
        Some(row).filter(|&r| r < old.nrows)
    } else {
        None
    };
    keep_places(&mut w.row_word_ptr, row, &keep);
    retain(&mut w.word_indices, &keep);
    w.masks = (0..n).filter(|&p| keep(p)).map(left).collect();
    w.structural_nnz = count_ones(w);
    w.nrows -= usize::from(row.is_some());
    if let Drop::ColumnsFrom(n) = drop {
        w.ncols = n;
    }
    if let Some((ptr, list)) = values {
        drop_values(&old, n, &left, row, ptr, list);
    }
}

/// The bits of the word below column n.
fn below(word: u32, mask: u64, n: usize) -> u64 {
    let base = word as usize * 64;
    match n.saturating_sub(base) {
        0 => 0,
        64.. => mask,
        some => mask & ((1 << some) - 1),
    }
}

fn drop_values(
    old: &Words,
    words: usize,
    left: &dyn Fn(usize) -> u64,
    row: Option<usize>,
    ptr: &mut Vec<u32>,
    list: &mut Vec<f64>,
) {
    let bits = |place: usize| (0..64).filter(move |b| old.masks[place] >> b & 1 == 1);
    let kept: Vec<bool> = (0..words)
        .flat_map(|place| bits(place).map(move |b| left(place) >> b & 1 == 1))
        .collect();
    let keep = |place: usize| kept.get(place).copied().unwrap_or(true);
    let row = row.filter(|&r| r + 1 < ptr.len());
    keep_places(ptr, row, &keep);
    retain(list, &keep);
}

fn drop_store(s: &mut Store, drop: Drop) {
    let Store {
        words,
        row_value_ptr,
        values,
    } = s;
    let good = row_value_ptr.iter().all(|&p| p as usize <= values.len());
    let lists = good.then_some((row_value_ptr, values));
    drop_words(words, drop, lists);
}
