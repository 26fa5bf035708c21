//! All inputs of tiny shapes. The items are shared out among the threads by their number.

use crate::Sink;
use crate::make::{Judge, store_of, words_of};
use crate::{blocks, restricted, tiles};
use calls::{Call, Csr, Mask, Store, StoreRoom, Words, WordsRoom};

/// Which items are this thread's: every `of`-th, from `first` on.
pub struct Share {
    pub first: usize,
    pub of: usize,
    next: usize,
}

impl Share {
    pub fn new(first: usize, of: usize) -> Share {
        Share { first, of, next: 0 }
    }

    pub fn mine(&mut self) -> bool {
        self.next += 1;
        self.next % self.of == self.first
    }
}

/// All tiny inputs.
pub fn all(sink: &mut impl Sink, judge: Judge, share: &mut Share) {
    masks(sink, share);
    mask_pairs(sink, share);
    mask_builds(sink, share);
    words_by_value(sink, share);
    figures(sink, share);
    totals(sink, share);
    raw_plot_lists(sink, share);
    raw_words(sink, share);
    topologies(sink, judge, share);
    topology_pairs(sink, judge, share);
    valued_patterns(sink, judge, share);
    entry_sequences(sink, share);
    tiles::exhaustive::all(sink, judge, share);
    restricted::exhaustive::all(sink, judge, share);
    blocks::exhaustive::all(sink, judge, share);
}

/// Masks up to 5 long, one bit too many among them.
pub fn tiny_masks(longest: usize) -> impl Iterator<Item = Mask> {
    (0..=longest).flat_map(|len| {
        let none = (len == 0).then_some(Mask { len, words: vec![] });
        let some = (0..1u64 << (len + 1)).map(move |word| Mask {
            len,
            words: vec![word],
        });
        none.into_iter().chain(some)
    })
}

fn masks(sink: &mut impl Sink, share: &mut Share) {
    for m in tiny_masks(5).filter(|_| share.mine()) {
        sink.call(&Call::MaskCheck(m.clone()));
        sink.call(&Call::MaskCountOnes(m.clone()));
        sink.call(&Call::MaskIsEmpty(m.clone()));
        for index in (0..=m.len + 1).chain([63, 64, usize::MAX]) {
            sink.call(&Call::MaskContains(m.clone(), index));
            sink.call(&Call::MaskSet(m.clone(), index, false));
            sink.call(&Call::MaskSet(m.clone(), index, true));
        }
        for room in 0..=m.len + 1 {
            sink.call(&Call::MaskIndices(m.clone(), vec![77; room]));
        }
        for bits in 0..1 << (m.len + 1) {
            sink.call(&Call::MaskOrWord(m.clone(), 0, bits));
        }
        sink.call(&Call::MaskOrWord(m.clone(), 1, 1));
    }
}

fn mask_pairs(sink: &mut impl Sink, share: &mut Share) {
    for a in tiny_masks(4) {
        for b in tiny_masks(4).filter(|_| share.mine()) {
            sink.call(&Call::MaskUnionAssign(a.clone(), b.clone()));
            sink.call(&Call::MaskIntersectAssign(a.clone(), b.clone()));
            sink.call(&Call::MaskAndNotAssign(a.clone(), b.clone()));
            sink.call(&Call::MaskIntersects(a.clone(), b));
        }
    }
}

fn mask_builds(sink: &mut impl Sink, share: &mut Share) {
    for len in (0..=130).filter(|_| share.mine()) {
        for room in 0..=4 {
            sink.call(&Call::MaskNew(len, vec![99; room]));
        }
        for index in [0, len.saturating_sub(1), len] {
            sink.call(&Call::MaskFromIndices(len, vec![index], vec![99; 3]));
        }
    }
    for len in 0..=3 {
        for list in lists(&[0, 1, 2, 3], 3).into_iter().filter(|_| share.mine()) {
            for room in 0..=2 {
                sink.call(&Call::MaskFromIndices(len, list.clone(), vec![99; room]));
            }
        }
    }
}

/// All lists of these elements up to the given length.
pub fn lists<T: Copy>(elements: &[T], longest: usize) -> Vec<Vec<T>> {
    let mut all = vec![vec![]];
    let mut from = 0;
    for _ in 0..longest {
        let to = all.len();
        for place in from..to {
            for &element in elements {
                let mut list = all[place].clone();
                list.push(element);
                all.push(list);
            }
        }
        from = to;
    }
    all
}

fn words_by_value(sink: &mut impl Sink, share: &mut Share) {
    let shifts = [0, 56];
    for mask in (0..256u64).flat_map(|m| shifts.map(|s| m << s)) {
        if !share.mine() {
            continue;
        }
        sink.call(&Call::WordPopcount(mask));
        for n in (0..=66).chain([usize::MAX]) {
            sink.call(&Call::WordContainsOffset(mask, n));
            sink.call(&Call::WordRank(mask, n));
            sink.call(&Call::WordSelect(mask, n));
        }
    }
    for word in (0..1000).chain([1 << 14, (1 << 26) - 1, 1 << 26, u32::MAX]) {
        if share.mine() {
            sink.call(&Call::WordBaseCol(word));
        }
    }
}

/// Numbers on both sides of what an f64 and a usize hold exactly.
pub const COUNTS: [usize; 16] = [
    0,
    1,
    2,
    3,
    7,
    10,
    63,
    64,
    1 << 53,
    (1 << 53) + 1,
    (1 << 53) + 3,
    (1 << 54) + 6,
    1 << 63,
    (1 << 63) + 1025,
    usize::MAX - 1,
    usize::MAX,
];

fn figures(sink: &mut impl Sink, share: &mut Share) {
    for a in COUNTS.into_iter().chain(4..40) {
        for b in COUNTS.into_iter().chain(4..40) {
            if !share.mine() {
                continue;
            }
            sink.call(&Call::TopologyAverageWordNnz(a, b));
            sink.call(&Call::TopologyWordFillRatio(a, b));
            sink.call(&Call::TopologyMetadataBytesPerNnz(a, b));
            sink.call(&Call::MetadataFirstPruningRatio(a, b));
            sink.call(&Call::MetadataFirstEmptyWordRatio(a, b));
            for c in COUNTS {
                sink.call(&Call::MetadataFirstTotalEstimatedBytes(a, b, c));
            }
        }
    }
}

fn totals(sink: &mut impl Sink, share: &mut Share) {
    for place in 0..5 {
        for a in COUNTS {
            for b in COUNTS.into_iter().filter(|_| share.mine()) {
                let (mut left, mut right) = ([1, 2, 3, 4, 5], [6, 7, 8, 9, 10]);
                left[place] = a;
                right[place] = b;
                sink.call(&Call::MetadataFirstAccumulate(left, right));
            }
        }
    }
}

/// Plot lists of any small lists, most of them bad.
fn raw_plot_lists(sink: &mut impl Sink, share: &mut Share) {
    let values = lists(&[1.0, f64::NAN], 2);
    let columns = lists(&[0, 1, 2], 2);
    let pointers = lists(&[0, 1, 2], 3);
    for shape in 0..9 {
        for (row_ptr, col_idx) in pairs(&pointers, &columns) {
            if !share.mine() {
                continue;
            }
            for values in &values {
                let c = Csr {
                    nrows: shape / 3,
                    ncols: shape % 3,
                    row_ptr: row_ptr.clone(),
                    col_idx: col_idx.clone(),
                    values: values.clone(),
                };
                sink.call(&Call::Csr32Check(c.clone()));
                sink.call(&Call::Csr32MetadataBytes(c.clone()));
                sink.call(&Call::Csr32StorageBytes(c));
            }
        }
    }
}

pub fn pairs<'a, A, B>(left: &'a [A], right: &'a [B]) -> impl Iterator<Item = (&'a A, &'a B)> {
    left.iter()
        .flat_map(move |a| right.iter().map(move |b| (a, b)))
}

/// Words of any small lists, most of them bad.
fn raw_words(sink: &mut impl Sink, share: &mut Share) {
    let pointers = lists(&[0, 1, 2], 3);
    let numbers = lists(&[0, 1], 2);
    let masks = lists(&[0, 1, 2, 3], 2);
    for (row_word_ptr, word_indices) in pairs(&pointers, &numbers) {
        for (masks, ncols) in pairs(&masks, &[1, 2, 65]) {
            if !share.mine() {
                continue;
            }
            for structural_nnz in 0..=2 {
                let words = Words {
                    nrows: row_word_ptr.len().saturating_sub(1),
                    ncols: *ncols,
                    row_word_ptr: row_word_ptr.clone(),
                    word_indices: word_indices.clone(),
                    masks: masks.clone(),
                    structural_nnz,
                };
                sink.call(&Call::TopologyCheck(words.clone()));
                sink.call(&Call::TopologyStats(words));
            }
        }
    }
}

/// A plot list with a value for each place of the shape that has one, row by row.
fn plot_list(nrows: usize, ncols: usize, cells: &[Option<f64>]) -> Csr {
    let mut c = Csr {
        nrows,
        ncols,
        row_ptr: vec![0],
        col_idx: vec![],
        values: vec![],
    };
    for row in 0..nrows {
        for col in 0..ncols {
            if let Some(value) = cells[row * ncols + col] {
                c.col_idx.push(col as u32);
                c.values.push(value);
            }
        }
        c.row_ptr.push(c.col_idx.len() as u32);
    }
    c
}

/// All plot lists of up to 2 rows and 3 columns whose places hold nothing or one of these values.
pub fn patterns(values: &'static [f64]) -> impl Iterator<Item = Csr> {
    let shapes = (0..=2).flat_map(|nrows| (0..=3).map(move |ncols| (nrows, ncols)));
    let states = values.len() + 1;
    shapes.flat_map(move |(nrows, ncols)| {
        let places = nrows * ncols;
        (0..states.pow(places as u32)).map(move |number| {
            let state = |place: usize| number / states.pow(place as u32) % states;
            let cell = |place| state(place).checked_sub(1).map(|v| values[v]);
            let cells: Vec<Option<f64>> = (0..places).map(cell).collect();
            plot_list(nrows, ncols, &cells)
        })
    })
}

fn words_room(nrows: usize, words: usize) -> WordsRoom {
    WordsRoom {
        row_word_ptr: vec![7; nrows + 1],
        word_indices: vec![7; words],
        masks: vec![7; words],
    }
}

fn topologies(sink: &mut impl Sink, judge: Judge, share: &mut Share) {
    for c in patterns(&[1.0]).filter(|_| share.mine()) {
        for words in 0..=3 {
            let room = words_room(c.nrows, words);
            sink.call(&Call::TopologyFromCsr32(c.clone(), room));
        }
        let w = words_of(judge, &c).expect("a good plot list");
        sink.call(&Call::TopologyCheck(w.clone()));
        sink.call(&Call::TopologyStats(w.clone()));
        for row in (0..=c.nrows).chain([usize::MAX]) {
            row_questions(sink, &w, row);
        }
    }
}

fn row_questions(sink: &mut impl Sink, w: &Words, row: usize) {
    sink.call(&Call::TopologyRowWords(w.clone(), row));
    sink.call(&Call::TopologyRowNonemptyWords(w.clone(), row));
    sink.call(&Call::TopologyRowPopcount(w.clone(), row));
    for n in (0..=w.ncols + 1).chain([64, usize::MAX]) {
        sink.call(&Call::TopologyRowContains(w.clone(), row, n));
        sink.call(&Call::TopologyRowRank(w.clone(), row, n));
        sink.call(&Call::TopologyRowSelect(w.clone(), row, n));
    }
}

fn topology_pairs(sink: &mut impl Sink, judge: Judge, share: &mut Share) {
    let all: Vec<Words> = patterns(&[1.0])
        .filter_map(|c| words_of(judge, &c))
        .collect();
    for (a, b) in pairs(&all, &all) {
        if !share.mine() {
            continue;
        }
        let room = words_room(a.nrows, 2);
        sink.call(&Call::TopologyUnion(a.clone(), b.clone(), room.clone()));
        sink.call(&Call::TopologyIntersection(
            a.clone(),
            b.clone(),
            room.clone(),
        ));
        sink.call(&Call::TopologyAndNot(a.clone(), b.clone(), room.clone()));
        sink.call(&Call::TopologyXor(a.clone(), b.clone(), room));
    }
}

fn store_room(c: &Csr) -> StoreRoom {
    let n = c.col_idx.len();
    StoreRoom {
        words: words_room(c.nrows, n),
        row_value_ptr: vec![7; c.nrows + 1],
        values: vec![7.0; n],
    }
}

const FINITE_X: [f64; 3] = [0.3, -2.0, 1e308];
const WILD_X: [f64; 3] = [f64::INFINITY, -0.0, f64::NAN];

fn valued_patterns(sink: &mut impl Sink, judge: Judge, share: &mut Share) {
    for c in patterns(&[1.0, -1.0, 0.1, -0.0]) {
        if !share.mine() {
            continue;
        }
        sink.call(&Call::MetadataFirstCheckMerge(c.clone()));
        sink.call(&Call::MetadataFirstFromCsr32(c.clone(), store_room(&c)));
        for x in [FINITE_X, WILD_X] {
            let (x, y) = (x[..c.ncols].to_vec(), vec![7.0; c.nrows]);
            sink.call(&Call::Csr32Apply(c.clone(), x, y));
        }
        let s = store_of(judge, &c).expect("a plot list that packs");
        sink.call(&Call::MetadataFirstCheck(s.clone()));
        sink.call(&Call::MetadataFirstStats(s.clone()));
        for row in 0..=c.nrows {
            sink.call(&Call::MetadataFirstRowValues(s.clone(), row));
        }
        let x = if share.next.is_multiple_of(3) {
            WILD_X
        } else {
            FINITE_X
        };
        dots(sink, s, &x);
    }
}

/// The dots of all rows and of one too many, under every mask.
fn dots(sink: &mut impl Sink, s: Store, x: &[f64; 3]) {
    let (nrows, ncols) = (s.words.nrows, s.words.ncols);
    let mask = |word: u64| Mask {
        len: ncols,
        words: vec![word; ncols.div_ceil(64)],
    };
    let x = x[..ncols].to_vec();
    let mut one = Call::MetadataFirstSparseDotRow(s.clone(), 0, mask(0), x.clone());
    let (sums, executed) = (vec![7.0; nrows], vec![7; nrows]);
    let mut every = Call::MetadataFirstSparseDotRows(s, mask(0), x, sums, executed);
    for word in 0..1 << ncols {
        for asked in 0..=nrows {
            if let Call::MetadataFirstSparseDotRow(_, row, m, _) = &mut one {
                (*row, *m) = (asked, mask(word));
            }
            sink.call(&one);
        }
        if let Call::MetadataFirstSparseDotRows(_, m, ..) = &mut every {
            *m = mask(word);
        }
        sink.call(&every);
    }
}

/// One row of up to 4 entries in 2 columns, in every order and with every number of copies.
fn entry_sequences(sink: &mut impl Sink, share: &mut Share) {
    let values = [1.0, -1.0, 0.1, f64::MAX];
    let entries: Vec<(u32, f64)> = values.iter().flat_map(|&v| [(0, v), (1, v)]).collect();
    for list in lists(&entries, 4).into_iter().filter(|_| share.mine()) {
        let c = Csr {
            nrows: 1,
            ncols: 2,
            row_ptr: vec![0, list.len() as u32],
            col_idx: list.iter().map(|e| e.0).collect(),
            values: list.iter().map(|e| e.1).collect(),
        };
        sink.call(&Call::Csr32Apply(c.clone(), vec![0.7, -3.0], vec![7.0]));
        sink.call(&Call::TopologyFromCsr32(c.clone(), words_room(1, 1)));
        sink.call(&Call::MetadataFirstCheckMerge(c.clone()));
        sink.call(&Call::MetadataFirstFromCsr32(c.clone(), store_room(&c)));
        let mut short = store_room(&c);
        short.values.clear();
        sink.call(&Call::MetadataFirstFromCsr32(c, short));
    }
}
