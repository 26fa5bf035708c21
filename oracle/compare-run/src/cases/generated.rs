//! Larger matrices by a generator: 200 rows, of few columns, of 5,000 with many in one word, of as many as there can be.

use super::combine::{OPERATIONS, words_in};
use super::{HUGE, MOST, csr, store_room, words_room};
use crate::good;
use crate::make::{store_of, words_of};
use crate::rng::Rng;
use calls::{Call, Csr, Words};

const ROWS: usize = 200;

pub fn calls() -> Vec<Call> {
    let mut all = Vec::new();
    product(&mut all);
    for (ncols, few_words) in [(300, false), (5000, true), (MOST, false)] {
        let a = matrix(&mut Rng::new(1), ncols, few_words);
        let b = matrix(&mut Rng::new(2), ncols, few_words);
        builds(&mut all, &a);
        let of = |c| words_of(model::judge, c).expect("a good plot list");
        set_operations(&mut all, &of(&a), &of(&b));
    }
    dots(&mut all);
    all
}

/// Rows of up to six entries, a column now and then twice; zeros of both signs among the values, which are short as text.
fn matrix(rng: &mut Rng, ncols: usize, few_words: bool) -> Csr {
    let (mut ptr, mut cols, mut values) = (vec![0], vec![], vec![]);
    for _ in 0..ROWS {
        for _ in 0..rng.below(7) {
            let col = if few_words {
                rng.below(4) * 1216 + rng.below(64)
            } else {
                rng.below(ncols)
            };
            let again = rng.once_in(10) && !cols.is_empty();
            cols.push(if again {
                cols[cols.len() - 1]
            } else {
                col as u32
            });
            values.push(rng.pick(&[0.0, -0.0, 1.5, -1.5, 5e-324, 1e-310]));
        }
        ptr.push(cols.len() as u32);
    }
    csr(ROWS, ncols, &ptr, &cols, &values)
}

/// The products of 300 rows of up to eight entries with full fractions; and 3 and 6 in the same matrix of fewer columns.
fn product(all: &mut Vec<Call>) {
    let mut rng = Rng::new(3);
    let fraction = |rng: &mut Rng| (rng.draw() >> 11) as f64 / (1u64 << 40) as f64 - 4096.0;
    let (mut ptr, mut cols, mut values) = (vec![0], vec![], vec![]);
    for _ in 0..300 {
        for _ in 0..rng.below(9) {
            cols.push(rng.below(100) as u32);
            values.push(fraction(&mut rng));
        }
        ptr.push(cols.len() as u32);
    }
    let x: Vec<f64> = (0..100).map(|_| fraction(&mut rng)).collect();
    let c = csr(300, 100, &ptr, &cols, &values);
    let narrow = Csr {
        ncols: 90,
        ..c.clone()
    };
    all.push(Call::Csr32Check(c.clone()));
    all.push(Call::Csr32Apply(c, x.clone(), vec![5e-324; 300]));
    all.push(Call::Csr32Apply(narrow, x, vec![5e-324; 300]));
}

/// The words into lists just long enough and one word short, the store too; questions to some rows.
fn builds(all: &mut Vec<Call>, c: &Csr) {
    let w = words_of(model::judge, c).expect("a good plot list");
    let (r, n, ones) = (ROWS + 1, w.masks.len(), w.structural_nnz);
    for room in [words_room(r, n, n), words_room(r, n, n - 1)] {
        all.push(Call::TopologyFromCsr32(c.clone(), room));
    }
    for room in [[r, n, n, r, ones], [r, n, n, r, ones - 1]] {
        all.push(Call::MetadataFirstFromCsr32(c.clone(), store_room(room)));
    }
    all.push(Call::TopologyCheck(w.clone()));
    all.push(Call::TopologyStats(w.clone()));
    for row in [100, ROWS - 1, ROWS, HUGE] {
        all.push(Call::TopologyRowWords(w.clone(), row));
        all.push(Call::TopologyRowPopcount(w.clone(), row));
        all.push(Call::TopologyRowRank(w.clone(), row, w.ncols));
        all.push(Call::TopologyRowSelect(w.clone(), row, 2));
    }
}

/// Each operation into lists just long enough; the operands swapped; a record with itself; a list one place short.
fn set_operations(all: &mut Vec<Call>, a: &Words, b: &Words) {
    let r = ROWS + 1;
    // Of so many columns few are in both: the xor is nearly the union.
    let apart = a.ncols == MOST;
    let count = if apart { 3 } else { OPERATIONS.len() };
    for operation in OPERATIONS.into_iter().take(count) {
        let n = words_in(operation, a, b);
        all.push(operation(a.clone(), b.clone(), words_room(r, n, n)));
    }
    let n = words_in(Call::TopologyAndNot, b, a);
    all.push(Call::TopologyAndNot(
        b.clone(),
        a.clone(),
        words_room(r, n, n),
    ));
    all.push(Call::TopologyXor(a.clone(), a.clone(), words_room(r, 0, 0)));
    let n = words_in(Call::TopologyUnion, a, b);
    all.push(Call::TopologyUnion(
        a.clone(),
        b.clone(),
        words_room(r, n - 1, n),
    ));
}

/// The dots of 200 rows of 300 columns under a mask, with NaN and infinities in the vector.
fn dots(all: &mut Vec<Call>) {
    let mut rng = Rng::new(4);
    let c = matrix(&mut rng, 300, false);
    let s = store_of(model::judge, &c).expect("a good plot list");
    let x: Vec<f64> = (0..300)
        .map(|_| good::float(&mut rng, good::Style::Wild))
        .collect();
    let tenths: Vec<f64> = (0..300).map(|col| col as f64 / 10.0).collect();
    for x in [x, tenths] {
        let m = good::mask(&mut rng, 300);
        let (sums, executed) = (vec![7.5; ROWS], vec![77; ROWS]);
        let call = Call::MetadataFirstSparseDotRows(s.clone(), m, x, sums, executed);
        all.push(call);
    }
}
