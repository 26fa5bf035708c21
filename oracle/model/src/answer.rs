//! Refusals, and the outcome of a call from what its checks and its work found.

use calls::{Outcome, bits};

/// A refusal of document 01: its number, and under 6 the two lengths.
#[derive(Clone, Copy, Debug, PartialEq, Eq)]
pub struct Refusal {
    number: u32,
    expected: usize,
    actual: usize,
}

pub const OVER_SIZE: Refusal = refusal(1);
pub const BAD_FRAME: Refusal = refusal(2);
pub const OUTSIDE_COLUMN: Refusal = refusal(3);
pub const NOT_FINITE: Refusal = refusal(4);
pub const BAD_MASK: Refusal = refusal(5);
pub const NO_SUCH_PLACE: Refusal = refusal(7);
pub const FRAMES_DIFFER: Refusal = refusal(8);
pub const BAD_THRESHOLDS: Refusal = refusal(9);
pub const NOT_SQUARE: Refusal = refusal(10);
pub const BAD_WORDS: Refusal = refusal(11);
pub const BAD_STORE: Refusal = refusal(12);
pub const SHORT_LIST: Refusal = refusal(13);

/// The most rows, columns and places of a mask.
const MOST_PLACES: usize = 1 << 20;
/// The most entries, words and packed values.
pub const MOST_STORED: usize = 1 << 24;

const fn refusal(number: u32) -> Refusal {
    Refusal {
        number,
        expected: 0,
        actual: 0,
    }
}

/// What a check or a piece of work finds, or the first refusal that applies.
pub type Checked<T = ()> = Result<T, Refusal>;

pub fn need(holds: bool, otherwise: Refusal) -> Checked {
    if holds { Ok(()) } else { Err(otherwise) }
}

/// Refusal 6.
pub fn need_length(expected: usize, actual: usize) -> Checked {
    let lengths_differ = Refusal {
        number: 6,
        expected,
        actual,
    };
    need(expected == actual, lengths_differ)
}

/// Refusal 1: `places` are row and column counts and mask lengths, `stored` the lengths of lists of stored things.
pub fn need_sizes(places: &[usize], stored: &[usize]) -> Checked {
    let fit = places.iter().all(|&n| n <= MOST_PLACES) && stored.iter().all(|&n| n <= MOST_STORED);
    need(fit, OVER_SIZE)
}

/// The outcome of a call that writes nothing.
pub fn answer<const N: usize>(found: Checked<[u64; N]>) -> Outcome {
    match found {
        Ok(result) => accepted(result, Vec::new()),
        Err(refusal) => refused::<N>(refusal, Vec::new()),
    }
}

/// The outcome of a check.
pub fn verdict(found: Checked) -> Outcome {
    answer(found.map(|()| []))
}

pub fn count(found: Checked<usize>) -> Outcome {
    answer(found.map(|n| [n as u64]))
}

pub fn truth(found: Checked<bool>) -> Outcome {
    answer(found.map(|is| [u64::from(is)]))
}

/// The outcome of a select: whether there is such a column, and the column.
pub fn selection(found: Checked<Option<usize>>) -> Outcome {
    answer(found.map(|column| match column {
        Some(column) => [1, column as u64],
        None => [0, 0],
    }))
}

/// The outcome of a call whose answer is one f64.
pub fn number(x: f64) -> Outcome {
    answer(Ok([bits(x)]))
}

/// The outcome of a product or a mask change, which leaves its target as it was where it is refused.
pub fn change(after: Checked<Vec<u64>>, before: Vec<u64>) -> Outcome {
    match after {
        Ok(list) => accepted([], vec![list]),
        Err(refusal) => refused::<0>(refusal, vec![before]),
    }
}

/// What a build makes: its answer, and the used part of each list.
pub struct Built<const N: usize, const L: usize> {
    pub result: [u64; N],
    pub used: [Vec<u64>; L],
}

/// The outcome of a build from the lengths of its lent lists. Refusal 13 is the last of all, so it stands here.
pub fn build<const N: usize, const L: usize>(
    made: Checked<Built<N, L>>,
    room: [usize; L],
) -> Outcome {
    match made.and_then(|built| fitting(built, room)) {
        Ok(built) => {
            let parts = built.used.into_iter().zip(room);
            accepted(
                built.result,
                parts.map(|(used, n)| padded(used, n)).collect(),
            )
        }
        Err(refusal) => refused::<N>(refusal, room.map(|n| vec![0; n]).into()),
    }
}

fn fitting<const N: usize, const L: usize>(
    built: Built<N, L>,
    room: [usize; L],
) -> Checked<Built<N, L>> {
    let fit = built.used.iter().zip(room).all(|(used, n)| used.len() <= n);
    need(fit, SHORT_LIST).map(|()| built)
}

/// The used part, then zeros.
fn padded(mut used: Vec<u64>, len: usize) -> Vec<u64> {
    used.resize(len, 0);
    used
}

fn accepted<const N: usize>(result: [u64; N], lists: Vec<Vec<u64>>) -> Outcome {
    Outcome {
        result: result.into(),
        lists,
        ..Outcome::default()
    }
}

fn refused<const N: usize>(refusal: Refusal, lists: Vec<Vec<u64>>) -> Outcome {
    Outcome {
        number: refusal.number,
        expected: refusal.expected,
        actual: refusal.actual,
        result: vec![0; N],
        lists,
    }
}

/// A list of f64 as an outcome has it.
pub fn list_bits(list: &[f64]) -> Vec<u64> {
    list.iter().map(|&x| bits(x)).collect()
}

/// One division of counts, each first rounded to the nearest f64; 0.0 where there is nothing to divide by.
pub fn ratio(part: usize, whole: usize) -> f64 {
    if whole == 0 {
        0.0
    } else {
        part as f64 / whole as f64
    }
}

/// The sum of size × count over the terms; the most that a usize holds where it is larger.
pub fn bytes(terms: &[(usize, usize)]) -> Outcome {
    let product = |&(size, count): &(usize, usize)| size as u128 * count as u128;
    let sum: u128 = terms.iter().map(product).sum();
    count(Ok(usize::try_from(sum).unwrap_or(usize::MAX)))
}
