use super::{f, words, words_room};
use crate::judge_below;
use calls::{Below, Outcome, WordCall};

fn gives(call: Below, result: &[u64], lists: &[&[u64]]) {
    let expected = Outcome {
        result: result.to_vec(),
        lists: lists.iter().map(|list| list.to_vec()).collect(),
        ..Outcome::default()
    };
    assert_eq!(judge_below(&call), expected, "{call:?}");
}

#[test]
fn lengths_are_told_under_6_alone() {
    for (number, expected, actual) in [(6, 70, 64), (7, 0, 0)] {
        let told = Outcome {
            number,
            expected,
            actual,
            result: vec![number.into(), 0],
            lists: vec![],
        };
        assert_eq!(judge_below(&Below::Refusal(number, 70, 64)), told);
    }
}

#[test]
fn the_limits_lie_in_the_domain() {
    let (places, stored) = (1 << 20, 1 << 24);
    let limits = [places as u64, stored as u64];
    let told = |fit: [u64; 3]| [&fit[..], &limits].concat();
    gives(
        Below::Sizes(places, places, stored, stored),
        &told([1, 1, 1]),
        &[],
    );
    gives(Below::Sizes(places + 1, 0, 0, 0), &told([0, 0, 1]), &[]);
    gives(Below::Sizes(0, 0, stored + 1, 0), &told([0, 1, 0]), &[]);
    gives(Below::Sizes(0, 0, 0, stored + 1), &told([0, 1, 1]), &[]);
}

#[test]
fn counts_above_2_to_the_53_round_to_even() {
    let n = 1 << 53;
    gives(
        Below::Counts(n + 1, 2),
        &[f(9007199254740992.0), f(4503599627370496.0)],
        &[],
    );
    gives(
        Below::Counts(n + 3, 0),
        &[f(9007199254740996.0), f(0.0)],
        &[],
    );
}

#[test]
fn one_word() {
    let word = |call, a, b, answer| gives(Below::Word(call, a, b), &[answer], &[]);
    word(WordCall::OnesBelow, 0b1011, 3, 2);
    word(WordCall::OnesBelow, u64::MAX, u64::MAX, 64);
    word(WordCall::Lowest, 8, 0, 3);
    word(WordCall::Lowest, 0, 0, 64);
    word(WordCall::WithoutLowest, 0b1100, 0, 0b1000);
    word(WordCall::WithoutLowest, 0, 0, 0);
    word(WordCall::WithBit, 1, 3, 9);
    word(WordCall::WithBit, 1, 64, 1);
    word(WordCall::WithoutBit, 9, 3, 1);
    word(WordCall::Trimmed, 0b1111, 2, 0b11);
    word(WordCall::Union, 6, 3, 7);
    word(WordCall::Intersection, 6, 3, 2);
    word(WordCall::AndNot, 6, 3, 4);
    word(WordCall::CombineXor, 6, 3, 5);
}

#[test]
fn zeros_from_a_place_on() {
    gives(Below::ClearU32(vec![1, 2, 3], 1), &[], &[&[1, 0, 0]]);
    gives(
        Below::ClearF64(vec![-0.0, 1.0], 5),
        &[],
        &[&[f(-0.0), f(1.0)]],
    );
    let room = words_room(2, 2, 2);
    gives(
        Below::ClearPast(1, 0, room),
        &[],
        &[&[9, 0], &[0, 0], &[0, 0]],
    );
}

#[test]
fn pointers_of_any_row_count() {
    gives(Below::Pointers(1, vec![0, 5], 5, 4), &[1, 0], &[]);
    gives(Below::Pointers(1, vec![0, 5], 5, 5), &[1, 1], &[]);
    gives(Below::Pointers(usize::MAX, vec![], 0, 0), &[0, 0], &[]);
    gives(
        Below::Pointers(1, vec![0, 0], 1 << 32, 1 << 32),
        &[0, 0],
        &[],
    );
}

#[test]
fn a_refused_part_is_empty() {
    let w = words((1, 70), &[0, 2], &[(0, 8), (1, 3)]);
    gives(Below::RowNumbers(w.clone(), 0), &[], &[&[0, 1]]);
    gives(Below::RowMasks(w.clone(), 0), &[], &[&[8, 3]]);
    let refused = judge_below(&Below::RowMasks(w, 1));
    assert_eq!((refused.number, refused.lists), (7, vec![vec![]]));
}
