//! Inputs made by chance from a fixed seed, most of them damaged: no call stops, and each outcome has the form that document 01 gives it.

use crate::judge;
use calls::*;

/// A xorshift generator.
struct Chance(u64);

impl Chance {
    fn next(&mut self) -> u64 {
        self.0 ^= self.0 << 13;
        self.0 ^= self.0 >> 7;
        self.0 ^= self.0 << 17;
        self.0
    }

    fn below(&mut self, n: u64) -> u64 {
        (self.next() >> 33) % n
    }

    fn pick<T: Copy>(&mut self, from: &[T]) -> T {
        from[self.below(from.len() as u64) as usize]
    }

    /// A count: small as a rule, at times of any size.
    fn count(&mut self) -> usize {
        let edges = [
            63,
            64,
            65,
            1 << 20,
            (1 << 20) + 1,
            usize::MAX - 1,
            usize::MAX,
        ];
        if self.below(8) == 0 {
            self.pick(&edges)
        } else {
            self.below(4) as usize
        }
    }

    fn list<T>(&mut self, mut one: impl FnMut(&mut Chance) -> T) -> Vec<T> {
        let n = self.below(4);
        (0..n).map(|_| one(self)).collect()
    }

    fn pointers(&mut self) -> Vec<u32> {
        let mut pointers = self.list(Chance::small);
        if self.below(2) == 0 {
            pointers.insert(0, 0);
        }
        if self.below(2) == 0 {
            pointers.sort_unstable();
        }
        pointers
    }

    /// A pointer, column or word number.
    fn small(&mut self) -> u32 {
        let any = self.pick(&[u32::MAX, u32::MAX - 1, 1 << 24]);
        if self.below(16) == 0 {
            any
        } else {
            self.below(3) as u32
        }
    }

    fn bits(&mut self) -> u64 {
        self.pick(&[0, 1, 1, 2, 3, 3, 5, 7, 1 << 63, u64::MAX])
    }

    fn value(&mut self) -> f64 {
        let common = [0.0, -0.0, 1.0, -1.0, 1.5, f64::MAX, f64::MIN, 5e-324];
        let rare = [f64::NAN, f64::INFINITY, f64::NEG_INFINITY];
        if self.below(24) == 0 {
            self.pick(&rare)
        } else {
            self.pick(&common)
        }
    }

    fn columns(&mut self) -> usize {
        self.pick(&[0, 2, 2, 3, 3, 64, 65])
    }

    /// The bits of a word of a frame that are below its columns.
    fn word(&mut self, word: usize, ncols: usize) -> u64 {
        let width = (ncols - 64 * word).min(64);
        self.bits() & (u64::MAX >> (64 - width))
    }

    fn mask(&mut self) -> Mask {
        let len = self.columns();
        let words = (0..len.div_ceil(64)).map(|word| self.word(word, len));
        let mut mask = Mask {
            words: words.collect(),
            len,
        };
        match self.below(6) {
            0 => mask.len = self.count(),
            1 => mask.words = self.list(Chance::bits),
            _ => {}
        }
        mask
    }

    /// A plot list, with one of its parts replaced at times.
    fn csr(&mut self) -> Csr {
        let (nrows, ncols) = (self.below(3) as usize, self.columns());
        let mut row_ptr = vec![0];
        let (mut col_idx, mut values) = (vec![], vec![]);
        for _ in 0..nrows {
            for _ in 0..if ncols == 0 { 0 } else { self.below(4) } {
                col_idx.push(self.below(ncols as u64) as u32);
                values.push(self.value());
            }
            row_ptr.push(col_idx.len() as u32);
        }
        let mut csr = Csr {
            nrows,
            ncols,
            row_ptr,
            col_idx,
            values,
        };
        match self.below(10) {
            0 => csr.nrows = self.count(),
            1 => csr.ncols = self.count(),
            2 => csr.row_ptr = self.pointers(),
            3 => csr.col_idx = self.list(Chance::small),
            4 => csr.values = self.list(Chance::value),
            _ => {}
        }
        csr
    }

    fn words(&mut self) -> Words {
        let (nrows, ncols) = (self.below(3) as usize, self.columns());
        let mut row_word_ptr = vec![0];
        let (mut word_indices, mut masks) = (vec![], vec![]);
        for _ in 0..nrows {
            for word in 0..ncols.div_ceil(64) {
                let bits = self.word(word, ncols);
                if bits != 0 {
                    word_indices.push(word as u32);
                    masks.push(bits);
                }
            }
            row_word_ptr.push(masks.len() as u32);
        }
        let structural_nnz = masks.iter().map(|m| m.count_ones() as usize).sum();
        Words {
            nrows,
            ncols,
            row_word_ptr,
            word_indices,
            masks,
            structural_nnz,
        }
    }

    fn damaged_words(&mut self) -> Words {
        let mut words = self.words();
        match self.below(12) {
            0 => words.nrows = self.count(),
            1 => words.ncols = self.count(),
            2 => words.row_word_ptr = self.pointers(),
            3 => words.word_indices = self.list(Chance::small),
            4 => words.masks = self.list(Chance::bits),
            5 => words.structural_nnz = self.count(),
            _ => {}
        }
        words
    }

    fn store(&mut self) -> Store {
        let mut words = self.words();
        let mut row_value_ptr = vec![0];
        let mut total = 0;
        for ends in words.row_word_ptr.windows(2) {
            let masks = &words.masks[ends[0] as usize..ends[1] as usize];
            total += masks.iter().map(|m| m.count_ones()).sum::<u32>();
            row_value_ptr.push(total);
        }
        if self.below(3) == 0 {
            words = self.damaged_words();
        }
        let mut values: Vec<f64> = (0..total).map(|_| self.value()).collect();
        match self.below(8) {
            0 => row_value_ptr = self.pointers(),
            1 => values = self.list(Chance::value),
            _ => {}
        }
        Store {
            words,
            row_value_ptr,
            values,
        }
    }

    /// Tiles, with one of their parts replaced at times.
    fn tiles(&mut self) -> Tiles {
        let words = self.words();
        let (mut value_offsets, mut metas, mut values) = (vec![], vec![], vec![]);
        for (&word, &mask) in words.word_indices.iter().zip(&words.masks) {
            let kind = self.below(3) as u32;
            value_offsets.push(values.len() as u32);
            metas.push(word + (kind << 30));
            for offset in 0..64 {
                if mask >> offset & 1 == 1 {
                    values.push(self.pick(&[1.0, -2.0, f64::MAX, f64::INFINITY]));
                } else if kind == 2 {
                    values.push(0.0);
                }
            }
        }
        let mut tiles = Tiles {
            nrows: words.nrows,
            ncols: words.ncols,
            row_tile_ptr: words.row_word_ptr,
            masks: words.masks,
            value_offsets,
            metas,
            values,
            matrix_nnz: words.structural_nnz,
        };
        match self.below(16) {
            0 => tiles.nrows = self.count(),
            1 => tiles.ncols = self.count(),
            2 => tiles.row_tile_ptr = self.pointers(),
            3 => tiles.masks = self.list(Chance::bits),
            4 => tiles.value_offsets = self.list(Chance::small),
            5 => tiles.metas = self.list(Chance::small),
            6 => tiles.values = self.list(Chance::value),
            7 => tiles.matrix_nnz = self.count(),
            _ => {}
        }
        tiles
    }

    /// Blocks, with one of their parts replaced at times.
    fn blocks(&mut self) -> Blocks {
        let (nrows, ncols) = (self.below(8) as usize, self.columns());
        let (six, mut row_ptr, mut col_idx) = (self.below(2) == 0, vec![0], vec![]);
        let w = if six { 6 } else { 3 };
        for _ in 0..nrows.div_ceil(w) {
            let stored = |_: &u32| self.below(2) == 0;
            col_idx.extend((0..ncols.div_ceil(w) as u32).filter(stored));
            row_ptr.push(col_idx.len() as u32);
        }
        let values = (0..col_idx.len() * w * w).map(|_| self.value()).collect();
        let mut blocks = Blocks {
            nrows,
            ncols,
            six,
            row_ptr,
            col_idx,
            values,
        };
        match self.below(12) {
            0 => blocks.nrows = self.count(),
            1 => blocks.ncols = self.count(),
            2 => blocks.row_ptr = self.pointers(),
            3 => blocks.col_idx = self.list(Chance::small),
            4 => blocks.values = self.list(Chance::value),
            5 => blocks.six = !six,
            _ => {}
        }
        blocks
    }

    fn tiles_room(&mut self) -> TilesRoom {
        TilesRoom {
            row_tile_ptr: self.list(|_| 9),
            masks: self.list(|_| 9),
            value_offsets: self.list(|_| 9),
            metas: self.list(|_| 9),
            values: self.list(|_| 9.0),
        }
    }

    /// A vector, as a rule of the record's columns.
    fn vector(&mut self, n: usize) -> Vec<f64> {
        if n > 65 || self.below(4) == 0 {
            return self.list(Chance::value);
        }
        (0..n).map(|_| self.value()).collect()
    }

    fn room(&mut self) -> WordsRoom {
        WordsRoom {
            row_word_ptr: self.list(|_| 9),
            word_indices: self.list(|_| 9),
            masks: self.list(|_| 9),
        }
    }

    fn store_room(&mut self) -> StoreRoom {
        StoreRoom {
            words: self.room(),
            row_value_ptr: self.list(|_| 9),
            values: self.list(|_| 9.0),
        }
    }
}

/// What a refused call leaves of its lists.
enum Left {
    Zeros(Vec<usize>),
    Untouched(Vec<u64>),
    Nothing,
}

fn lengths(room: &WordsRoom) -> Vec<usize> {
    vec![
        room.row_word_ptr.len(),
        room.word_indices.len(),
        room.masks.len(),
    ]
}

fn mask_call(c: &mut Chance) -> (Call, Left) {
    let m = c.mask();
    let words = m.words.clone();
    match c.below(8) {
        0 => (Call::MaskContains(m, c.count()), Left::Nothing),
        1 => (Call::MaskSet(m, c.count(), true), Left::Untouched(words)),
        2 => (
            Call::MaskOrWord(m, c.count(), c.bits()),
            Left::Untouched(words),
        ),
        3 => (Call::MaskUnionAssign(m, c.mask()), Left::Untouched(words)),
        4 => (Call::MaskIntersects(m, c.mask()), Left::Nothing),
        5 => {
            let room = c.list(|_| 9);
            let left = Left::Zeros(vec![room.len()]);
            (Call::MaskIndices(m, room), left)
        }
        6 => {
            let left = Left::Zeros(vec![words.len()]);
            (
                Call::MaskFromIndices(m.len, c.list(Chance::count), words),
                left,
            )
        }
        _ => (Call::MaskCountOnes(m), Left::Nothing),
    }
}

fn csr_call(c: &mut Chance) -> (Call, Left) {
    let csr = c.csr();
    match c.below(5) {
        0 => {
            let y = c.list(Chance::value);
            let left = Left::Untouched(y.iter().map(|&v| bits(v)).collect());
            (Call::Csr32Apply(csr, c.list(Chance::value), y), left)
        }
        1 => (Call::Csr32StorageBytes(csr), Left::Nothing),
        2 => {
            let room = c.room();
            let left = Left::Zeros(lengths(&room));
            (Call::TopologyFromCsr32(csr, room), left)
        }
        3 => {
            let room = c.store_room();
            let mut all = lengths(&room.words);
            all.extend([room.row_value_ptr.len(), room.values.len()]);
            (Call::MetadataFirstFromCsr32(csr, room), Left::Zeros(all))
        }
        _ => (Call::MetadataFirstCheckMerge(csr), Left::Nothing),
    }
}

fn words_call(c: &mut Chance) -> (Call, Left) {
    let t = c.damaged_words();
    match c.below(6) {
        0 => (Call::TopologyRowWords(t, c.count()), Left::Nothing),
        1 => (
            Call::TopologyRowContains(t, c.count(), c.count()),
            Left::Nothing,
        ),
        2 => (
            Call::TopologyRowRank(t, c.count(), c.count()),
            Left::Nothing,
        ),
        3 => (
            Call::TopologyRowSelect(t, c.count(), c.count()),
            Left::Nothing,
        ),
        4 => (Call::TopologyStats(t), Left::Nothing),
        _ => {
            let room = c.room();
            let left = Left::Zeros(lengths(&room));
            let other = if c.below(2) == 0 {
                t.clone()
            } else {
                c.damaged_words()
            };
            (Call::TopologyXor(t, other, room), left)
        }
    }
}

fn store_call(c: &mut Chance) -> (Call, Left) {
    let s = c.store();
    match c.below(4) {
        0 => (Call::MetadataFirstRowValues(s, c.count()), Left::Nothing),
        1 => (Call::MetadataFirstStats(s), Left::Nothing),
        2 => {
            let (row, m) = (c.count(), c.mask());
            let x = c.vector(s.words.ncols);
            (Call::MetadataFirstSparseDotRow(s, row, m, x), Left::Nothing)
        }
        _ => {
            let (sums, executed) = (c.list(|_| 9.0), c.list(|_| 9));
            let left = Left::Zeros(vec![sums.len(), executed.len()]);
            let x = c.vector(s.words.ncols);
            (
                Call::MetadataFirstSparseDotRows(s, c.mask(), x, sums, executed),
                left,
            )
        }
    }
}

fn tiles_call(c: &mut Chance) -> (Call, Left) {
    let t = c.tiles();
    match c.below(6) {
        0 => (Call::AbtmRowTiles(t, c.count()), Left::Nothing),
        1 => (Call::AbtmStats(t), Left::Nothing),
        2 => {
            let (x, y) = (c.vector(t.ncols), c.list(Chance::value));
            let left = Left::Untouched(y.iter().map(|&v| bits(v)).collect());
            (Call::AbtmApply(t, x, y), left)
        }
        3 => {
            let (m, room) = (c.mask(), c.list(|_| 9));
            let left = Left::Zeros(vec![room.len()]);
            (Call::AbtmExpandMaskOneHop(t, m, room), left)
        }
        4 => (Call::AbtmCheck(t), Left::Nothing),
        _ => {
            let room = c.tiles_room();
            let lengths = vec![
                room.row_tile_ptr.len(),
                room.masks.len(),
                room.value_offsets.len(),
                room.metas.len(),
                room.values.len(),
            ];
            let (sparse, dense) = (c.below(3) as u8, c.below(5) as u8);
            let call = Call::AbtmFromCsr32(c.csr(), sparse, dense, room);
            (call, Left::Zeros(lengths))
        }
    }
}

fn restricted_call(c: &mut Chance) -> (Call, Left) {
    let room = CsrRoom {
        row_ptr: c.list(|_| 9),
        col_idx: c.list(|_| 9),
        values: c.list(|_| 9.0),
    };
    let mut lengths = vec![room.row_ptr.len(), room.col_idx.len(), room.values.len()];
    match c.below(5) {
        0 => {
            let call = Call::RestrictedFromCsr32(c.csr(), c.mask(), room);
            (call, Left::Zeros(lengths))
        }
        1 => {
            let call = Call::RestrictedFromAbtm(c.tiles(), c.mask(), room);
            (call, Left::Zeros(lengths))
        }
        2 => {
            let members = c.list(|_| 9);
            lengths.insert(0, members.len());
            let call = Call::LocalFromCsr32(c.csr(), c.mask(), members, room);
            (call, Left::Zeros(lengths))
        }
        3 => (
            Call::LocalCheck(c.count(), c.list(Chance::small)),
            Left::Nothing,
        ),
        _ => {
            let (size, members) = (c.count(), c.list(Chance::small));
            let (global, local) = (c.vector(size), c.list(Chance::value));
            let left = Left::Untouched(local.iter().map(|&v| bits(v)).collect());
            (Call::LocalGatherInput(size, members, global, local), left)
        }
    }
}

fn blocks_call(c: &mut Chance) -> (Call, Left) {
    let b = c.blocks();
    match c.below(4) {
        0 => (Call::DenseBlockCheck(b), Left::Nothing),
        1 => (Call::DenseBlockFastBlockFraction(b), Left::Nothing),
        2 => {
            let (x, y) = (c.vector(b.ncols), c.vector(b.nrows));
            let left = Left::Untouched(y.iter().map(|&v| bits(v)).collect());
            (Call::DenseBlockApply(b, x, y), left)
        }
        _ => {
            let values = c.pick(&[0, 8, 9, 40, 400]);
            let room = CsrRoom {
                row_ptr: c.list(|_| 9),
                col_idx: c.list(|_| 9),
                values: vec![9.0; values],
            };
            let lengths = vec![room.row_ptr.len(), room.col_idx.len(), values];
            let call = Call::DenseBlockFromCsr32(c.csr(), b.six, room);
            (call, Left::Zeros(lengths))
        }
    }
}

/// The form of a refused outcome.
fn refused_as_it_should_be(call: &Call, outcome: &Outcome, left: Left) {
    assert!(outcome.result.iter().all(|&n| n == 0), "{call:?}");
    let lengths = (outcome.expected, outcome.actual);
    assert_eq!(outcome.number == 6, lengths.0 != lengths.1, "{call:?}");
    assert!(outcome.number == 6 || lengths == (0, 0), "{call:?}");
    let lists = match left {
        Left::Zeros(lengths) => lengths.into_iter().map(|n| vec![0; n]).collect(),
        Left::Untouched(list) => vec![list],
        Left::Nothing => vec![],
    };
    assert_eq!(outcome.lists, lists, "{call:?}");
}

#[test]
fn no_input_stops_a_call() {
    let mut chance = Chance(0x9e37_79b9_7f4a_7c15);
    let makers = [
        mask_call,
        csr_call,
        words_call,
        store_call,
        tiles_call,
        restricted_call,
        blocks_call,
    ];
    let mut seen = [0; 14];
    for round in 0..500_000 {
        let (call, left) = makers[round % makers.len()](&mut chance);
        let outcome = judge(&call);
        seen[outcome.number as usize] += 1;
        if outcome.number != 0 {
            refused_as_it_should_be(&call, &outcome, left);
        }
    }
    // Every refusal of these calls was met, so the rounds reached past the first checks.
    for number in 0..14 {
        assert!(seen[number] > 0, "{number} never given: {seen:?}");
    }
}
