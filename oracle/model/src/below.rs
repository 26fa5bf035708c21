//! Calls of the crates below the C interface. Document 01 says what refusals, domain, counts and words are; what it doesn't name
//! (clearing, a word's lowest bit, a test of any list) is what the one-line comment at the call says.

use crate::answer::{
    Checked, NO_SUCH_PLACE, answer, list_bits, need, need_sizes, ratio, truth, verdict,
};
use crate::csr32::{part, pointers_hold};
use crate::words::{self, WIDTH, offsets};
use crate::{abtm, dense_block, metadata_first, restricted, topology};
use calls::{Below, Counts, Mask, Outcome, Store, Tiles, WordCall, Words, WordsRoom, bits};
use std::collections::BTreeSet;

/// What comes of a call of the crates below.
pub fn judge_below(call: &Below) -> Outcome {
    match call {
        Below::Refusal(number, expected, actual) => refusal(*number, *expected, *actual),
        Below::Sizes(nrows, ncols, left, right) => sizes(*nrows, *ncols, *left, *right),
        Below::Counts(part, whole) => counts(*part as usize, *whole as usize),
        Below::IsFinite(bits) => truth(Ok(f64::from_bits(*bits).is_finite())),
        Below::Narrow(n) => answer(Ok([*n as u64 % (1 << 32)])),
        Below::Saturating(a, b) => {
            let (a, b) = (*a as u128, *b as u128);
            let most = |n: u128| u64::try_from(n).unwrap_or(u64::MAX);
            answer(Ok([most(a + b), most(a * b)]))
        }
        Below::ClearU32(list, from) => cleared(list.iter().map(|&n| n.into()).collect(), *from),
        Below::ClearU64(list, from) => cleared(list.clone(), *from),
        Below::ClearUsize(list, from) => cleared(list.iter().map(|&n| n as u64).collect(), *from),
        Below::ClearF64(list, from) => cleared(list_bits(list), *from),
        Below::Word(call, a, b) => answer(Ok([word(*call, *a, *b)])),
        Below::MaskIsMember(m, index) => truth(Ok(is_member(m, *index))),
        Below::Pointers(nrows, list, left, right) => pointers(*nrows, list, *left, *right),
        Below::AllFinite(list) => {
            let solid = list.iter().filter(|x| !x.is_nan() && **x != 0.0).count();
            let mut outcome = truth(Ok(list.iter().all(|x| x.is_finite())));
            outcome.result.push(solid as u64);
            outcome
        }
        Below::CountBits(list) => answer(Ok([ones(list) as u64])),
        Below::ClearPast(rows, words, room) => clear_past(*rows, *words, room),
        Below::CheckLists(words) => verdict(topology::check(&counted(words))),
        Below::RowNumbers(words, row) => row_numbers(words, *row),
        Below::RowMasks(words, row) => row_masks(words, *row),
        Below::RowValues(store, row) => row_values(store, *row),
        Below::Report(counts) => report(counts),
        Below::TopologyWord(number, mask, n) => topology_word(*number, *mask, *n),
        Below::TileMasks(tiles, row) => tile_part(tiles, *row, |t| t.masks.clone()),
        Below::TileOffsets(tiles, row) => tile_part(tiles, *row, |t| wide(&t.value_offsets)),
        Below::TileMetas(tiles, row) => tile_part(tiles, *row, |t| wide(&t.metas)),
        Below::TileValue(meta, mask, thresholds, count, bits) => {
            let zero = f64::from_bits(*bits) == 0.0;
            let mut outcome = abtm::judge_value(*meta, *mask, *thresholds, *count);
            outcome.result.push(zero.into());
            outcome.result.push((*bits == 0).into());
            outcome
        }
        Below::Restriction([nrows, ncols, source, kept]) => joined(
            restricted::judge_retained_fraction(*kept, *source),
            restricted::judge_storage_bytes(*nrows, *ncols, *kept),
        ),
        Below::Region([_, members, kept, source]) => joined(
            restricted::judge_boundary_pruning_ratio(*kept, *source),
            restricted::judge_local_storage_bytes(*members, *kept),
        ),
        Below::BlockSize(six, n, col) => dense_block::judge_size(*six, *n, *col as usize),
        Below::Blocks(numbers) => blocks(*numbers),
        Below::StructuralSlots(csr) => dense_block::judge_structural_slots(csr),
        Below::BlockColumns(csr, six, pointers, columns) => {
            dense_block::judge_columns(csr, *six, [pointers.len(), columns.len()])
        }
    }
}

/// Two figures, neither of which can be refused.
fn joined(mut first: Outcome, second: Outcome) -> Outcome {
    first.result.extend(second.result);
    first
}

fn blocks([_, _, block_rows, blocks, slots, structural, valid]: [usize; 7]) -> Outcome {
    let ratios = joined(
        dense_block::judge_block_fill(structural, valid),
        dense_block::judge_value_padding_ratio(slots, structural),
    );
    let bytes = joined(
        dense_block::judge_metadata_bytes(block_rows, blocks),
        dense_block::judge_storage_bytes(block_rows, blocks, slots),
    );
    joined(ratios, bytes)
}

/// The number as it is told, in an answer that is refused and in one that is not.
fn refusal(number: u32, expected: usize, actual: usize) -> Outcome {
    let lengths = number == 6;
    Outcome {
        number,
        expected: if lengths { expected } else { 0 },
        actual: if lengths { actual } else { 0 },
        result: vec![number.into(), 0],
        lists: Vec::new(),
    }
}

/// Whether all four lie in the domain, the rows alone, the left list alone; and the two limits.
fn sizes(nrows: usize, ncols: usize, left: usize, right: usize) -> Outcome {
    let fit = |places: &[usize], stored: &[usize]| u64::from(need_sizes(places, stored).is_ok());
    answer(Ok([
        fit(&[nrows, ncols], &[left, right]),
        fit(&[nrows], &[]),
        fit(&[], &[left]),
        1 << 20,
        1 << 24,
    ]))
}

fn counts(part: usize, whole: usize) -> Outcome {
    answer(Ok([bits(part as f64), bits(ratio(part, whole))]))
}

/// The list with zeros from a place on.
fn zeros_from(mut list: Vec<u64>, from: usize) -> Vec<u64> {
    list.iter_mut().skip(from).for_each(|place| *place = 0);
    list
}

fn lists(lists: Vec<Vec<u64>>) -> Outcome {
    Outcome {
        lists,
        ..Outcome::default()
    }
}

fn cleared(list: Vec<u64>, from: usize) -> Outcome {
    lists(vec![zeros_from(list, from)])
}

/// The word with these members.
fn word_of(members: impl IntoIterator<Item = usize>) -> u64 {
    members.into_iter().map(|offset| 1 << offset).sum()
}

fn word(call: WordCall, a: u64, b: u64) -> u64 {
    let place = b as usize;
    let members: BTreeSet<usize> = offsets(a).collect();
    let others: BTreeSet<usize> = offsets(b).collect();
    let inside = (place < WIDTH).then_some(place);
    match call {
        WordCall::OnesBelow => members.range(..place).count() as u64,
        WordCall::Lowest => members.first().map_or(64, |&offset| offset as u64),
        WordCall::WithoutLowest => word_of(members.into_iter().skip(1)),
        WordCall::WithBit => word_of(&members | &inside.into_iter().collect()),
        WordCall::WithoutBit => word_of(&members - &inside.into_iter().collect()),
        WordCall::Trimmed => word_of(members.range(..place).copied()),
        WordCall::Union | WordCall::CombineUnion => word_of(&members | &others),
        WordCall::Intersection | WordCall::CombineIntersection => word_of(&members & &others),
        WordCall::AndNot | WordCall::CombineAndNot => word_of(&members - &others),
        WordCall::Xor | WordCall::CombineXor => word_of(&members ^ &others),
    }
}

/// False past the length, and where there is no such word.
fn is_member(mask: &Mask, index: usize) -> bool {
    let word = mask.words.get(index / WIDTH);
    index < mask.len && word.is_some_and(|&w| offsets(w).any(|o| o == index % WIDTH))
}

/// The pointer rules for the left list, and for both.
fn pointers(nrows: usize, list: &[u32], left: usize, right: usize) -> Outcome {
    let framed = nrows < list.len() && pointers_hold(list, nrows, left);
    answer(Ok([framed.into(), (framed && left == right).into()]))
}

fn ones(masks: &[u64]) -> usize {
    masks.iter().map(|&mask| offsets(mask).count()).sum()
}

fn clear_past(rows: usize, words: usize, room: &WordsRoom) -> Outcome {
    lists(vec![
        zeros_from(wide(&room.row_word_ptr), rows),
        zeros_from(wide(&room.word_indices), words),
        zeros_from(room.masks.clone(), words),
    ])
}

/// The words with the total that their masks have.
fn counted(words: &Words) -> Words {
    Words {
        structural_nnz: ones(&words.masks),
        ..words.clone()
    }
}

/// A part of a lent list, empty where the question is refused; the lent number stands for the refusal.
fn handed_back(asked: Checked, part: impl Fn() -> Vec<u64>) -> Outcome {
    let accepted = asked.is_ok();
    let mut outcome = verdict(asked);
    outcome.lists = vec![if accepted { part() } else { Vec::new() }];
    outcome
}

fn row_numbers(words: &Words, row: usize) -> Outcome {
    handed_back(topology::check_row(words, row), || {
        let numbers = &words.word_indices[part(&words.row_word_ptr, row)];
        numbers.iter().map(|&n| n.into()).collect()
    })
}

fn row_masks(words: &Words, row: usize) -> Outcome {
    handed_back(topology::check_row(words, row), || {
        words.masks[part(&words.row_word_ptr, row)].to_vec()
    })
}

fn row_values(store: &Store, row: usize) -> Outcome {
    let checked = metadata_first::check(store);
    let asked = checked.and_then(|()| need(row < store.words.nrows, NO_SUCH_PLACE));
    handed_back(asked, || {
        list_bits(&store.values[part(&store.row_value_ptr, row)])
    })
}

/// The five counts as they are, and the two ratios.
fn report(counts: &Counts) -> Outcome {
    let [candidates, _, skipped, words, active] = *counts;
    let empty = words.saturating_sub(active);
    let mut outcome = answer(Ok(counts.map(|n| n as u64)));
    outcome.result.push(bits(ratio(skipped, candidates)));
    outcome.result.push(bits(ratio(empty, words)));
    outcome
}

/// The rank, which may be refused, then the select, the first column, the ones, whether it has the offset.
fn topology_word(number: u32, mask: u64, n: usize) -> Outcome {
    let mut outcome = words::judge_rank(mask, n);
    let others = [
        words::judge_select(mask, n),
        words::judge_base_col(number),
        words::judge_popcount(mask),
        words::judge_contains_offset(mask, n),
    ];
    for other in others {
        outcome.result.extend(other.result);
    }
    outcome
}

fn wide(list: &[u32]) -> Vec<u64> {
    list.iter().map(|&n| n.into()).collect()
}

/// The row's part of one of the tile lists.
fn tile_part(tiles: &Tiles, row: usize, list: fn(&Tiles) -> Vec<u64>) -> Outcome {
    handed_back(abtm::check_row(tiles, row), || {
        list(tiles)[part(&tiles.row_tile_ptr, row)].to_vec()
    })
}
