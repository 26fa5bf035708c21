//! Masks: lengths around a word's end, good words and words damaged in each way.

use super::{HUGE, MOST, ONES, mask};
use calls::{Call, Mask};

const LENGTHS: [usize; 7] = [0, 1, 63, 64, 65, 127, 128];
/// An odd number, so that the words of a list that grows by it all differ.
const STEP: u64 = 0x9e37_79b9_7f4a_7c15;
const BOTH_ENDS: u64 = 0x8000_0000_0000_0001;

/// How the words of a length are made. From `Few` on they break a rule: a word too few, one too many, one too many that is 0, the
/// bit at the length set, the last word's bit 63 set.
#[derive(Clone, Copy, PartialEq)]
enum Form {
    Empty,
    Sparse,
    Mixed,
    Full,
    Few,
    Many,
    Longer,
    AtLength,
    AtEnd,
}

use Form::*;

const FORMS: [Form; 9] = [
    Empty, Sparse, Mixed, Full, Few, Many, Longer, AtLength, AtEnd,
];

/// The mask, where the length allows that damage.
fn made(len: usize, form: Form) -> Option<Mask> {
    let (first, step) = match form {
        Empty | Longer => (0, 0),
        Full => (ONES, 0),
        Sparse | AtLength | AtEnd => (BOTH_ENDS, 0),
        Mixed | Few | Many => (0x0123_4567_89ab_cdef, STEP),
    };
    let n = len.div_ceil(64);
    let count = match form {
        Few => n.checked_sub(1)?,
        Many | Longer => n + 1,
        _ => n,
    };
    let mut words: Vec<u64> = (0..count as u64)
        .map(|k| step.wrapping_mul(k).wrapping_add(first))
        .collect();
    let valid = len % 64;
    if let Some(last) = words.get_mut(len / 64)
        && valid != 0
    {
        *last &= (1 << valid) - 1;
    }
    match form {
        AtLength if valid == 0 => return None,
        AtEnd if valid == 0 || valid == 63 => return None,
        AtLength => words[len / 64] |= 1 << valid,
        AtEnd => words[len / 64] |= 1 << 63,
        _ => {}
    }
    Some(Mask { len, words })
}

pub fn calls() -> Vec<Call> {
    let mut all = Vec::new();
    for len in LENGTHS {
        builds(&mut all, len);
        for m in FORMS.iter().filter_map(|&form| made(len, form)) {
            questions(&mut all, &m);
        }
        let changed = [Sparse, Mixed, Few, Longer, AtLength];
        for m in changed.iter().filter_map(|&form| made(len, form)) {
            changes(&mut all, &m);
        }
        pairs(&mut all, len);
    }
    meetings(&mut all);
    over_size(&mut all);
    all
}

/// Lists that are exact, one word short, longer and empty, and hold something else; indices at the ends, repeated, unsorted,
/// around a word's end, at the length and far past it. 7 competes with 13.
fn builds(all: &mut Vec<Call>, len: usize) {
    let n = len.div_ceil(64).min(3);
    let last = len.saturating_sub(1);
    let lists = [
        vec![],
        vec![last, len / 2, 0, len / 3],
        vec![last, 0, last],
        vec![66, 65, 64, 63],
        vec![0, len],
        vec![HUGE, 0],
    ];
    for room in [n, n.saturating_sub(1), n + 2, 0] {
        all.push(Call::MaskNew(len, vec![STEP; room]));
        for list in &lists {
            all.push(Call::MaskFromIndices(len, list.clone(), vec![STEP; room]));
        }
    }
}

/// Every question, at the ends of words and of the mask; the members into lists that are exact, one short, longer, empty.
fn questions(all: &mut Vec<Call>, m: &Mask) {
    all.push(Call::MaskCheck(m.clone()));
    all.push(Call::MaskCountOnes(m.clone()));
    all.push(Call::MaskIsEmpty(m.clone()));
    let len = m.len;
    let ends = [len.saturating_sub(1), len, len.saturating_add(1), HUGE];
    for index in [0, 1, 62, 63, 64, 65, 66].into_iter().chain(ends) {
        all.push(Call::MaskContains(m.clone(), index));
    }
    let ones: usize = m.words.iter().map(|w| w.count_ones() as usize).sum();
    for room in [ones, ones.saturating_sub(1), ones + 2, 0] {
        all.push(Call::MaskIndices(m.clone(), vec![77; room]));
    }
}

/// Bits set and cleared, at the ends and past them (7, which leaves the words as they are); words joined, with bits that are
/// trimmed, and words past the end, which do nothing. 2^58 words have 2^64 bits.
fn changes(all: &mut Vec<Call>, m: &Mask) {
    let (len, last) = (m.len, m.len.saturating_sub(1));
    for index in [0, last, 63, 64, len, HUGE] {
        all.push(Call::MaskSet(m.clone(), index, true));
        all.push(Call::MaskSet(m.clone(), index, false));
    }
    let n = len.div_ceil(64);
    all.push(Call::MaskOrWord(m.clone(), 0, 0));
    all.push(Call::MaskOrWord(m.clone(), 0, 0x8000_0000_0000_0010));
    for word in [n.saturating_sub(1), n, 1 << 58, HUGE] {
        all.push(Call::MaskOrWord(m.clone(), word, ONES));
    }
}

fn both(all: &mut Vec<Call>, a: &Mask, b: &Mask) {
    all.push(Call::MaskUnionAssign(a.clone(), b.clone()));
    all.push(Call::MaskIntersectAssign(a.clone(), b.clone()));
    all.push(Call::MaskAndNotAssign(a.clone(), b.clone()));
    all.push(Call::MaskIntersects(a.clone(), b.clone()));
}

/// Good masks of one length; then a good and a damaged one beside masks of other lengths (6), damaged ones (5), both, and one
/// over size with too few words (1): of several refusals the first is told.
fn pairs(all: &mut Vec<Call>, len: usize) {
    let (longer, shorter) = (len + 1, len.saturating_sub(1));
    for a in [Sparse, Mixed].iter().filter_map(|&form| made(len, form)) {
        for b in [Empty, Sparse, Mixed] {
            both(all, &a, &made(len, b).expect("a good mask"));
        }
    }
    let over = Some(mask(MOST + 1, &[1, 2]));
    for a in [Mixed, Many].iter().filter_map(|&form| made(len, form)) {
        let others = [
            made(longer, Sparse),
            made(shorter, Sparse),
            made(len, Few),
            made(len, AtLength),
            made(longer, Many),
            over.clone(),
        ];
        for b in others.iter().flatten() {
            both(all, &a, b);
            both(all, b, &a);
        }
    }
}

/// Three words that have one bit each, in the first, the middle or the last: masks that meet in one word only, and masks that
/// have bits in one word and don't meet.
fn meetings(all: &mut Vec<Call>) {
    let single = |word: usize, bits: u64| {
        let mut words = [0; 3];
        words[word] = bits;
        mask(190, &words)
    };
    for word in 0..3 {
        for other in 0..3 {
            both(all, &single(word, 6), &single(other, 3));
            both(all, &single(word, 6), &single(other, 8));
        }
    }
}

/// 1 for a length of 2^20 + 1 and of 2^64 - 1, whatever else is wrong. The words are far too few, so that 5 competes.
fn over_size(all: &mut Vec<Call>) {
    for len in [MOST + 1, HUGE] {
        builds(all, len);
        for words in [&[][..], &[1, 2, 3], &[0, 0]] {
            let m = mask(len, words);
            questions(all, &m);
            changes(all, &m);
            both(all, &m, &m);
            both(all, &m, &mask(65, &[5, 1]));
        }
    }
}

/// A mask of many words, most of them 0 so that it stays short as text.
fn mostly_empty(len: usize) -> Mask {
    let n = len.div_ceil(64);
    let mut words = vec![0; n];
    words[0] = BOTH_ENDS;
    words[n / 2] = 6;
    words[n / 2 + 1] = ONES;
    words[n - 1] = 1;
    Mask { len, words }
}

fn with_words(mut m: Mask, n: usize) -> Mask {
    m.words.resize(n, 0);
    m
}

/// The largest mask of all, 16,384 words; one place less, where the last word is trimmed; one more, which is over size. A word
/// too few, one too many that is 0, the bit at the length. Two masks of 1,000,000 places, which just fit into a line.
pub fn long() -> Vec<Call> {
    let m = mostly_empty(MOST);
    let n = MOST / 64;
    let trimmed = mostly_empty(MOST - 1);
    let mut at_length = trimmed.clone();
    at_length.words[n - 1] |= 1 << 63;
    let (a, mut b) = (mostly_empty(1_000_000), mostly_empty(1_000_000));
    b.words[0] = 1;
    b.words[7000] = 8;
    b.words[15_624] = 3;
    vec![
        Call::MaskCheck(m.clone()),
        Call::MaskCheck(with_words(m.clone(), n - 1)),
        Call::MaskCheck(with_words(m.clone(), n + 1)),
        Call::MaskCheck(mostly_empty(MOST + 1)),
        Call::MaskCheck(at_length),
        Call::MaskCountOnes(m.clone()),
        Call::MaskIsEmpty(m.clone()),
        Call::MaskIsEmpty(mask(MOST, &vec![0; n])),
        Call::MaskContains(m.clone(), MOST - 64),
        Call::MaskContains(m.clone(), MOST),
        Call::MaskSet(m.clone(), MOST - 1, true),
        Call::MaskOrWord(trimmed, n - 1, ONES),
        Call::MaskIndices(m.clone(), vec![77; 69]),
        Call::MaskIndices(m, vec![77; 68]),
        Call::MaskNew(MOST, vec![7; n]),
        Call::MaskFromIndices(MOST, vec![MOST - 1, 0, MOST / 2, 64], vec![7; n]),
        Call::MaskAndNotAssign(a.clone(), b.clone()),
        Call::MaskIntersects(a, b),
    ]
}
