//! Inputs with one fault and with two: each way of each refusal, and which of two refusals decides.

use crate::judge;
use calls::{Blocks, Call, Csr, Mask, Store, Tiles, Words};

pub const PLACES_OVER: usize = (1 << 20) + 1;
/// Two more than the limit, so that a list that then loses one is still too long.
pub const STORED_OVER: usize = (1 << 24) + 2;

/// The number, expected and actual of a refusal.
pub type Told = (u32, usize, usize);

/// A change of a good input, and the refusal that it brings.
pub struct Fault<T> {
    told: Told,
    put: Box<dyn Fn(&mut T)>,
}

impl<T> Fault<T> {
    pub fn number(&self) -> u32 {
        self.told.0
    }
}

pub fn fault<T>(number: u32, put: impl Fn(&mut T) + 'static) -> Fault<T> {
    fault_told((number, 0, 0), put)
}

pub fn fault_told<T>(told: Told, put: impl Fn(&mut T) + 'static) -> Fault<T> {
    Fault {
        told,
        put: Box::new(put),
    }
}

/// The faults of a part as faults of the whole.
pub fn within<T: 'static, U: 'static>(
    faults: Vec<Fault<U>>,
    part: fn(&mut T) -> &mut U,
) -> Vec<Fault<T>> {
    let lift = |f: Fault<U>| fault_told(f.told, move |whole| (f.put)(part(whole)));
    faults.into_iter().map(lift).collect()
}

/// Takes the last place off.
pub fn shorten<T>(list: &mut Vec<T>) {
    list.pop();
}

/// Gives a count or length another value, but for one that is over size already.
pub fn alter(count: &mut usize, to: usize) {
    if *count < PLACES_OVER {
        *count = to;
    }
}

/// What a refused call leaves in the lists that it was lent.
pub enum Left<T> {
    Nothing,
    Zeros(fn(&T) -> Vec<usize>),
    Untouched(fn(&T) -> Vec<u64>),
}

/// The good input is accepted; each fault brings its refusal; of two faults that bring different ones the earlier of the list
/// decides, whichever was put in first.
pub fn in_order<T: Clone>(good: &T, faults: &[Fault<T>], call: fn(T) -> Call, left: Left<T>) {
    let accepted = judge(&call(good.clone()));
    assert_eq!(accepted.number, 0);
    let fields = accepted.result.len();
    for (place, first) in faults.iter().enumerate() {
        refused(good, &[first], first.told, call, fields, &left);
        for later in &faults[place + 1..] {
            if later.told != first.told {
                refused(good, &[first, later], first.told, call, fields, &left);
                refused(good, &[later, first], first.told, call, fields, &left);
            }
        }
    }
}

fn refused<T: Clone>(
    good: &T,
    faults: &[&Fault<T>],
    told: Told,
    call: fn(T) -> Call,
    fields: usize,
    left: &Left<T>,
) {
    let mut bad = good.clone();
    for fault in faults {
        (fault.put)(&mut bad);
    }
    let lists = match left {
        Left::Nothing => Vec::new(),
        Left::Zeros(lengths) => lengths(&bad).into_iter().map(|n| vec![0; n]).collect(),
        Left::Untouched(list) => vec![list(&bad)],
    };
    let call = call(bad);
    let outcome = judge(&call);
    let found = (outcome.number, outcome.expected, outcome.actual);
    let tells: Vec<Told> = faults.iter().map(|fault| fault.told).collect();
    assert_eq!(found, told, "{} with {tells:?}", call.name());
    assert_eq!(outcome.result, vec![0; fields], "{}", call.name());
    assert!(outcome.lists == lists, "{} with {tells:?}", call.name());
}

/// 1 and 5 of `good_mask`.
pub fn mask_faults() -> Vec<Fault<Mask>> {
    vec![
        fault(1, |m: &mut Mask| m.len = PLACES_OVER),
        fault(1, |m: &mut Mask| m.len = usize::MAX),
        fault(5, |m: &mut Mask| shorten(&mut m.words)),
        fault(5, |m: &mut Mask| m.words.push(0)),
        fault(5, |m: &mut Mask| m.words.clear()),
        fault(5, |m: &mut Mask| m.words[1] |= 1 << 6),
        fault(5, |m: &mut Mask| m.words[1] |= 1 << 63),
    ]
}

/// 1, 2, 3, 4 of `good_csr`.
pub fn csr_faults() -> Vec<Fault<Csr>> {
    vec![
        fault(1, |c: &mut Csr| c.nrows = PLACES_OVER),
        fault(1, |c: &mut Csr| c.nrows = usize::MAX),
        fault(1, |c: &mut Csr| c.ncols = PLACES_OVER),
        fault(1, |c: &mut Csr| c.ncols = usize::MAX),
        fault(1, |c: &mut Csr| c.col_idx = vec![0; STORED_OVER]),
        fault(1, |c: &mut Csr| c.values = vec![0.0; STORED_OVER]),
        fault(2, |c: &mut Csr| c.row_ptr.push(5)),
        fault(2, |c: &mut Csr| shorten(&mut c.row_ptr)),
        fault(2, |c: &mut Csr| c.row_ptr.clear()),
        fault(2, |c: &mut Csr| c.row_ptr[0] = 1),
        fault(2, |c: &mut Csr| c.row_ptr[1] = 6),
        fault(2, |c: &mut Csr| c.row_ptr[1] = u32::MAX),
        fault(2, |c: &mut Csr| c.row_ptr[2] = 4),
        fault(2, |c: &mut Csr| c.row_ptr[2] = 6),
        fault(2, |c: &mut Csr| shorten(&mut c.col_idx)),
        fault(2, |c: &mut Csr| c.values.push(1.0)),
        fault(3, |c: &mut Csr| c.col_idx[0] = 70),
        fault(3, |c: &mut Csr| c.col_idx[3] = u32::MAX),
        fault(4, |c: &mut Csr| c.values[0] = f64::NAN),
        fault(4, |c: &mut Csr| c.values[1] = f64::INFINITY),
        fault(4, |c: &mut Csr| c.values[4] = f64::NEG_INFINITY),
    ]
}

/// 1 and 11 of `good_words`.
pub fn words_faults() -> Vec<Fault<Words>> {
    vec![
        fault(1, |t: &mut Words| t.nrows = PLACES_OVER),
        fault(1, |t: &mut Words| t.nrows = usize::MAX),
        fault(1, |t: &mut Words| t.ncols = PLACES_OVER),
        fault(1, |t: &mut Words| t.ncols = usize::MAX),
        fault(1, |t: &mut Words| t.word_indices = vec![0; STORED_OVER]),
        fault(1, |t: &mut Words| t.masks = vec![0; STORED_OVER]),
        fault(11, |t: &mut Words| t.row_word_ptr.push(3)),
        fault(11, |t: &mut Words| shorten(&mut t.row_word_ptr)),
        fault(11, |t: &mut Words| t.row_word_ptr.clear()),
        fault(11, |t: &mut Words| t.row_word_ptr[0] = 1),
        fault(11, |t: &mut Words| t.row_word_ptr[1] = 4),
        fault(11, |t: &mut Words| *t.row_word_ptr.last_mut().unwrap() = 2),
        fault(11, |t: &mut Words| *t.row_word_ptr.last_mut().unwrap() = 4),
        fault(11, |t: &mut Words| shorten(&mut t.masks)),
        fault(11, |t: &mut Words| t.word_indices.push(5)),
        fault(11, |t: &mut Words| t.word_indices.swap(0, 1)),
        fault(11, |t: &mut Words| t.word_indices[1] = 0),
        fault(11, |t: &mut Words| t.word_indices[1] = 2),
        fault(11, |t: &mut Words| t.word_indices[1] = u32::MAX),
        fault(11, |t: &mut Words| (t.masks[1], t.structural_nnz) = (0, 2)),
        fault(11, |t: &mut Words| {
            (t.masks[1], t.structural_nnz) = (3 | 1 << 6, 5)
        }),
        fault(11, |t: &mut Words| {
            (t.masks[1], t.structural_nnz) = (3 | 1 << 63, 5)
        }),
        fault(11, |t: &mut Words| t.structural_nnz = 3),
        fault(11, |t: &mut Words| t.structural_nnz = 5),
        fault(11, |t: &mut Words| t.structural_nnz = usize::MAX),
    ]
}

/// 1, 11, 12 of `good_store`.
pub fn store_faults() -> Vec<Fault<Store>> {
    let mut faults = vec![fault(1, |s: &mut Store| s.values = vec![0.0; STORED_OVER])];
    faults.extend(within(words_faults(), |s: &mut Store| &mut s.words));
    faults.extend([
        fault(12, |s: &mut Store| s.row_value_ptr.push(4)),
        fault(12, |s: &mut Store| shorten(&mut s.row_value_ptr)),
        fault(12, |s: &mut Store| s.row_value_ptr.clear()),
        fault(12, |s: &mut Store| s.row_value_ptr[0] = 1),
        fault(12, |s: &mut Store| s.row_value_ptr[1] = 2),
        fault(12, |s: &mut Store| s.row_value_ptr[1] = 4),
        fault(12, |s: &mut Store| s.row_value_ptr[1] = 5),
        fault(12, |s: &mut Store| s.row_value_ptr[2] = 3),
        fault(12, |s: &mut Store| s.row_value_ptr[2] = u32::MAX),
        fault(12, |s: &mut Store| shorten(&mut s.values)),
        fault(12, |s: &mut Store| s.values.push(1.0)),
        fault(12, |s: &mut Store| {
            s.row_value_ptr[2] += 1;
            s.values.push(1.0);
        }),
        fault(12, |s: &mut Store| s.values[0] = f64::NAN),
        fault(12, |s: &mut Store| s.values[2] = f64::INFINITY),
        fault(12, |s: &mut Store| s.values[3] = f64::NEG_INFINITY),
    ]);
    faults
}

/// 1 and 12 of `good_tiles`.
pub fn tiles_faults() -> Vec<Fault<Tiles>> {
    let mut faults = vec![
        fault(1, |t: &mut Tiles| t.masks = vec![0; STORED_OVER]),
        fault(1, |t: &mut Tiles| t.value_offsets = vec![0; STORED_OVER]),
        fault(1, |t: &mut Tiles| t.metas = vec![0; STORED_OVER]),
    ];
    faults.extend(short_tiles_faults());
    faults
}

/// The same without long lists, for the calls that need a mask and vectors too.
pub fn short_tiles_faults() -> Vec<Fault<Tiles>> {
    let mut faults = vec![
        fault(1, |t: &mut Tiles| t.nrows = PLACES_OVER),
        fault(1, |t: &mut Tiles| t.nrows = usize::MAX),
        fault(1, |t: &mut Tiles| t.ncols = PLACES_OVER),
        fault(1, |t: &mut Tiles| t.ncols = usize::MAX),
        fault(12, |t: &mut Tiles| t.row_tile_ptr.push(3)),
        fault(12, |t: &mut Tiles| shorten(&mut t.row_tile_ptr)),
        fault(12, |t: &mut Tiles| t.row_tile_ptr.clear()),
        fault(12, |t: &mut Tiles| t.row_tile_ptr[0] = 1),
        fault(12, |t: &mut Tiles| t.row_tile_ptr[1] = 4),
        fault(12, |t: &mut Tiles| *t.row_tile_ptr.last_mut().unwrap() = 2),
        fault(12, |t: &mut Tiles| *t.row_tile_ptr.last_mut().unwrap() = 4),
        fault(12, |t: &mut Tiles| shorten(&mut t.masks)),
        fault(12, |t: &mut Tiles| t.value_offsets.push(67)),
        fault(12, |t: &mut Tiles| shorten(&mut t.metas)),
        fault(12, |t: &mut Tiles| t.matrix_nnz = 4),
        fault(12, |t: &mut Tiles| t.matrix_nnz = 6),
        fault(12, |t: &mut Tiles| t.matrix_nnz = usize::MAX),
    ];
    faults.extend(tile_faults());
    faults.extend(slot_faults());
    faults
}

/// Words that don't rise, empty masks, bits past the last column, kind 3.
fn tile_faults() -> Vec<Fault<Tiles>> {
    vec![
        fault(12, |t: &mut Tiles| t.metas[1] = 2 << 30),
        fault(12, |t: &mut Tiles| (t.metas[0], t.metas[1]) = (1, 2 << 30)),
        fault(12, |t: &mut Tiles| t.metas[1] = 2 + (2 << 30)),
        fault(12, |t: &mut Tiles| t.metas[1] = u32::MAX >> 1),
        fault(12, |t: &mut Tiles| t.metas[0] = 3 << 30),
        fault(12, |t: &mut Tiles| t.metas[1] = 1 + (3 << 30)),
        // An empty Dense tile has 64 slots all the same.
        fault(12, |t: &mut Tiles| {
            (t.masks[1], t.matrix_nnz) = (0, 3);
            t.values[1..65].fill(0.0);
        }),
        fault(12, |t: &mut Tiles| {
            (t.masks[1], t.matrix_nnz) = (3 | 1 << 6, 6);
            t.values[7] = 1.0;
        }),
        fault(12, |t: &mut Tiles| {
            (t.masks[1], t.matrix_nnz) = (3 | 1 << 63, 6);
            t.values[64] = 1.0;
        }),
    ]
}

/// Gaps and overlaps of offsets, too few and too many values, values that no build gives.
fn slot_faults() -> Vec<Fault<Tiles>> {
    vec![
        fault(12, |t: &mut Tiles| t.value_offsets[0] = 1),
        fault(12, |t: &mut Tiles| t.value_offsets[1] = 0),
        fault(12, |t: &mut Tiles| t.value_offsets[2] = 64),
        fault(12, |t: &mut Tiles| t.value_offsets[2] = u32::MAX),
        fault(12, |t: &mut Tiles| {
            t.value_offsets[2] = 66;
            t.values.insert(65, 0.0);
        }),
        fault(12, |t: &mut Tiles| shorten(&mut t.values)),
        fault(12, |t: &mut Tiles| t.values.push(0.0)),
        fault(12, |t: &mut Tiles| t.values.clear()),
        fault(12, |t: &mut Tiles| t.values[0] = f64::NAN),
        fault(12, |t: &mut Tiles| t.values[2] = f64::NAN),
        fault(12, |t: &mut Tiles| t.values[66] = f64::NAN),
        fault(12, |t: &mut Tiles| t.values[0] = 0.0),
        fault(12, |t: &mut Tiles| t.values[1] = -0.0),
        fault(12, |t: &mut Tiles| t.values[65] = 0.0),
        fault(12, |t: &mut Tiles| t.values[3] = -0.0),
        fault(12, |t: &mut Tiles| t.values[3] = 1.0),
        fault(12, |t: &mut Tiles| t.values[3] = f64::NAN),
        // Past the last column.
        fault(12, |t: &mut Tiles| t.values[64] = 5e-324),
        fault(12, |t: &mut Tiles| t.values[64] = -0.0),
    ]
}

/// 1 and 12 of `good_blocks`.
pub fn blocks_faults() -> Vec<Fault<Blocks>> {
    let mut faults = vec![fault(1, |b: &mut Blocks| b.col_idx = vec![0; STORED_OVER])];
    faults.extend(short_blocks_faults());
    faults
}

/// The same without a long list.
pub fn short_blocks_faults() -> Vec<Fault<Blocks>> {
    vec![
        fault(1, |b: &mut Blocks| b.nrows = PLACES_OVER),
        fault(1, |b: &mut Blocks| b.nrows = usize::MAX),
        fault(1, |b: &mut Blocks| b.ncols = PLACES_OVER),
        fault(1, |b: &mut Blocks| b.ncols = usize::MAX),
        // Wrong pointers: their number, the first, the last, a fall.
        fault(12, |b: &mut Blocks| b.row_ptr.push(3)),
        fault(12, |b: &mut Blocks| shorten(&mut b.row_ptr)),
        fault(12, |b: &mut Blocks| b.row_ptr.clear()),
        fault(12, |b: &mut Blocks| b.row_ptr[0] = 1),
        fault(12, |b: &mut Blocks| b.row_ptr[1] = 4),
        fault(12, |b: &mut Blocks| b.row_ptr[1] = u32::MAX),
        fault(12, |b: &mut Blocks| *b.row_ptr.last_mut().unwrap() = 2),
        fault(12, |b: &mut Blocks| *b.row_ptr.last_mut().unwrap() = 4),
        fault(12, |b: &mut Blocks| alter(&mut b.nrows, 7)),
        fault(12, |b: &mut Blocks| alter(&mut b.nrows, 3)),
        // Block columns that are equal, that fall, that are outside the frame.
        fault(12, |b: &mut Blocks| b.col_idx[1] = 0),
        fault(12, |b: &mut Blocks| b.col_idx.swap(0, 1)),
        fault(12, |b: &mut Blocks| b.col_idx[1] = 3),
        fault(12, |b: &mut Blocks| b.col_idx[2] = u32::MAX),
        fault(12, |b: &mut Blocks| alter(&mut b.ncols, 6)),
        // Values too few, too many, or those of the other width.
        fault(12, |b: &mut Blocks| shorten(&mut b.values)),
        fault(12, |b: &mut Blocks| b.values.push(0.0)),
        fault(12, |b: &mut Blocks| b.values.clear()),
        fault(12, |b: &mut Blocks| b.values = vec![0.0; 108]),
        fault(12, |b: &mut Blocks| b.six = true),
        fault(12, |b: &mut Blocks| shorten(&mut b.col_idx)),
        fault(12, |b: &mut Blocks| b.col_idx.push(2)),
    ]
}
