//! Random inputs for the user code, good and damaged, inside document 01's domain.

pub use random::Random;

#[derive(Clone, Debug)]
pub struct Csr {
    pub nrows: usize,
    pub ncols: usize,
    pub row_ptr: Vec<u32>,
    pub col_idx: Vec<u32>,
    pub values: Vec<f64>,
}

/// All that one run of the user code is given.
#[derive(Clone, Debug)]
pub struct Case {
    pub a: Csr,
    pub b: Csr,
    pub mask_len: usize,
    pub members: Vec<usize>,
    pub other_len: usize,
    pub other_members: Vec<usize>,
    pub x: Vec<f64>,
    pub y: Vec<f64>,
    /// Rows, columns, offsets, ordinals and indices that are asked for.
    pub places: Vec<usize>,
    pub bits: u64,
    /// Of tiles: Sparse up to the first, Dense from the second on.
    pub thresholds: (u8, u8),
    /// Two reports to be added.
    pub counts: [[usize; 5]; 2],
}

const WIDTHS: [usize; 12] = [0, 1, 5, 63, 64, 65, 70, 127, 128, 129, 200, 1000];

impl Case {
    pub fn new(seed: u64) -> Self {
        let mut random = Random(seed);
        let r = &mut random;
        let (nrows, ncols) = shape(r);
        let a = damaged(r, nrows, ncols, 10);
        let (nrows, ncols) = if r.one_in(10) {
            (r.below(6), width(r))
        } else {
            (nrows, ncols)
        };
        let b = damaged(r, nrows, ncols, 30);
        let mask_len = near(r, a.ncols);
        let other_len = near(r, mask_len);
        Self {
            members: members(r, mask_len),
            other_members: members(r, other_len),
            x: list(r, a.ncols, vector_value),
            y: list(r, a.nrows, vector_value),
            places: places(r, &a),
            bits: r.next(),
            thresholds: thresholds(r),
            counts: [counts(r), counts(r)],
            a,
            b,
            mask_len,
            other_len,
        }
    }
}

/// Few rows, or now and then as many as columns, so that a mask can be expanded.
fn shape(r: &mut Random) -> (usize, usize) {
    if r.one_in(6) {
        let side = r.pick(&[0, 1, 5, 63, 64, 65, 70]);
        return (side, side);
    }
    (r.below(6), width(r))
}

/// hybit's own, or low ones, so that all kinds of tiles come up; some are out of range.
fn thresholds(r: &mut Random) -> (u8, u8) {
    match r.below(8) {
        0 => (8, 40),
        1 => r.pick(&[(0, 1), (4, 4), (1, 65), (63, 64), (255, 255), (9, 8)]),
        _ => {
            let sparse = 1 + r.below(6);
            (sparse as u8, (sparse + 1 + r.below(8)) as u8)
        }
    }
}

/// Mostly few columns, around the ends of words.
fn width(r: &mut Random) -> usize {
    match r.one_in(40) {
        true => r.pick(&[5000, 70_000]) + r.below(64),
        false => r.pick(&WIDTHS),
    }
}

/// The length, or now and then one beside it.
fn near(r: &mut Random, len: usize) -> usize {
    match r.below(12) {
        0 => len + 1,
        1 => len.saturating_sub(1),
        _ => len,
    }
}

fn list(r: &mut Random, len: usize, value: fn(&mut Random) -> f64) -> Vec<f64> {
    (0..near(r, len)).map(|_| value(r)).collect()
}

/// Any f64 may stand in a vector.
fn vector_value(r: &mut Random) -> f64 {
    match r.below(12) {
        0 => f64::NAN,
        1 => f64::INFINITY,
        2 => f64::NEG_INFINITY,
        _ => stored_value(r),
    }
}

/// A finite value; the largest ones make merged values infinite.
fn stored_value(r: &mut Random) -> f64 {
    match r.below(20) {
        0 => f64::MAX,
        1 => -0.0,
        2 => 0.0,
        3 => f64::from_bits(r.below(1000) as u64),
        4..12 => r.below(9) as f64 - 4.0,
        _ => (r.next() >> 11) as f64 / (1u64 << 52) as f64 - 1.0,
    }
}

fn members(r: &mut Random, len: usize) -> Vec<usize> {
    let mut members: Vec<usize> = match len {
        0 => Vec::new(),
        _ => (0..r.below(2 * len.min(40)))
            .map(|_| r.below(len))
            .collect(),
    };
    if r.one_in(12) {
        members.push(len + r.below(70));
    }
    members
}

fn places(r: &mut Random, a: &Csr) -> Vec<usize> {
    let mut places = vec![0, 63, 64, 65, a.nrows, a.ncols, a.ncols + 1, usize::MAX];
    places.extend((0..4).map(|_| r.below(a.ncols + 2)));
    places.extend((0..4).map(|_| r.below(64)));
    places
}

fn counts(r: &mut Random) -> [usize; 5] {
    let mut counts = [0; 5].map(|_| r.below(1000));
    if r.one_in(5) {
        counts[r.below(3)] = usize::MAX - r.below(500);
    }
    if r.one_in(5) {
        counts[3] = usize::MAX - r.below(500);
    }
    // hybit subtracts below zero where more words are active than there are.
    counts[4] = counts[4].min(counts[3]);
    counts
}

/// A matrix, one in `rarity` with a fault.
fn damaged(r: &mut Random, nrows: usize, ncols: usize, rarity: usize) -> Csr {
    let mut m = good(r, nrows, ncols);
    if !r.one_in(rarity) {
        return m;
    }
    let (rows, entries) = (m.row_ptr.len(), m.values.len());
    match r.below(9) {
        0 => m.row_ptr.truncate(rows - 1),
        1 => m.row_ptr.push(entries as u32),
        2 => m.row_ptr[0] = 1,
        3 => m.row_ptr[rows - 1] += 1,
        4 => m.row_ptr[rows / 2] = entries as u32 + 1,
        5 => m.values.push(1.0),
        6 => m.col_idx.push(0),
        7 if entries > 0 => m.col_idx[r.below(entries)] = (ncols + r.below(3)) as u32,
        8 if entries > 0 => m.values[r.below(entries)] = r.pick(&[f64::NAN, f64::INFINITY]),
        _ => m.nrows += 1,
    }
    m
}

/// Unsorted rows with copies: at most two of a column, or any number where the values are whole and sums exact, since hybit
/// adds three and more copies in an order of its own.
fn good(r: &mut Random, nrows: usize, ncols: usize) -> Csr {
    let whole = r.one_in(3);
    let most = if whole { usize::MAX } else { 2 };
    let mut m = Csr {
        nrows,
        ncols,
        row_ptr: vec![0],
        col_idx: Vec::new(),
        values: Vec::new(),
    };
    for _ in 0..nrows {
        let mut copies = vec![0; ncols];
        let wanted = if r.one_in(4) { 0 } else { r.below(40) };
        let narrow = if r.one_in(3) { ncols.min(8) } else { ncols };
        for _ in 0..wanted.min(2 * narrow) {
            let col = r.below(narrow);
            if copies[col] < most {
                copies[col] += 1;
                m.col_idx.push(col as u32);
                m.values.push(match whole {
                    true => r.below(9) as f64 - 4.0,
                    false => stored_value(r),
                });
            }
        }
        m.row_ptr.push(m.col_idx.len() as u32);
    }
    m
}
