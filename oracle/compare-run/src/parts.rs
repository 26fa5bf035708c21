//! The numbers and lists that a call is made of, in the order of its fields. Damage, shrinking and the text form go by them, so
//! a new call needs its lines here and in `kind` alone.

use calls::{
    Below, Blocks, Call, Csr, CsrRoom, Mask, Store, StoreRoom, Tiles, TilesRoom, Words, WordsRoom,
};

pub enum Part<'a> {
    Size(&'a mut usize),
    Num8(&'a mut u8),
    Num32(&'a mut u32),
    Num64(&'a mut u64),
    Flag(&'a mut bool),
    Sizes(&'a mut Vec<usize>),
    Nums32(&'a mut Vec<u32>),
    Nums64(&'a mut Vec<u64>),
    Floats(&'a mut Vec<f64>),
}

use Part::*;

/// How many kinds of call there are.
pub const KINDS: usize = 77;

macro_rules! kinds {
    ($($number:literal $variant:ident)*) => {
        /// The place of the call's kind in the enum.
        pub fn kind(call: &Call) -> usize {
            match call {
                $(Call::$variant(..) => $number,)*
            }
        }
    };
}

kinds! {
    0 MaskCheck
    1 MaskContains
    2 MaskCountOnes
    3 MaskIsEmpty
    4 MaskNew
    5 MaskFromIndices
    6 MaskSet
    7 MaskOrWord
    8 MaskIndices
    9 MaskUnionAssign
    10 MaskIntersectAssign
    11 MaskAndNotAssign
    12 MaskIntersects
    13 Csr32Check
    14 Csr32Apply
    15 Csr32MetadataBytes
    16 Csr32StorageBytes
    17 TopologyCheck
    18 TopologyFromCsr32
    19 TopologyRowWords
    20 TopologyRowNonemptyWords
    21 TopologyRowPopcount
    22 TopologyRowContains
    23 TopologyRowRank
    24 TopologyRowSelect
    25 TopologyStats
    26 TopologyUnion
    27 TopologyIntersection
    28 TopologyAndNot
    29 TopologyXor
    30 MetadataFirstCheck
    31 MetadataFirstCheckMerge
    32 MetadataFirstFromCsr32
    33 MetadataFirstRowValues
    34 MetadataFirstStats
    35 MetadataFirstSparseDotRow
    36 MetadataFirstSparseDotRows
    37 WordBaseCol
    38 WordPopcount
    39 WordContainsOffset
    40 WordRank
    41 WordSelect
    42 TopologyAverageWordNnz
    43 TopologyWordFillRatio
    44 TopologyMetadataBytesPerNnz
    45 MetadataFirstPruningRatio
    46 MetadataFirstEmptyWordRatio
    47 MetadataFirstTotalEstimatedBytes
    48 MetadataFirstAccumulate
    49 AbtmValidate
    50 AbtmCheck
    51 AbtmFromCsr32
    52 AbtmTileKind
    53 AbtmTileBaseCol
    54 AbtmRowTiles
    55 AbtmStats
    56 AbtmMetadataBytesPerNnz
    57 AbtmTotalEstimatedBytes
    58 AbtmApply
    59 AbtmExpandMaskOneHop
    60 RestrictedFromCsr32
    61 RestrictedFromAbtm
    62 RestrictedRetainedFraction
    63 RestrictedStorageBytes
    64 LocalFromCsr32
    65 LocalCheck
    66 LocalGatherInput
    67 LocalBoundaryPruningRatio
    68 LocalStorageBytes
    69 DenseBlockFromCsr32
    70 DenseBlockCheck
    71 DenseBlockApply
    72 DenseBlockFastBlockFraction
    73 DenseBlockBlockFill
    74 DenseBlockValuePaddingRatio
    75 DenseBlockMetadataBytes
    76 DenseBlockStorageBytes
}

fn mask(m: &mut Mask) -> Vec<Part<'_>> {
    vec![Size(&mut m.len), Nums64(&mut m.words)]
}

fn csr(c: &mut Csr) -> Vec<Part<'_>> {
    vec![
        Size(&mut c.nrows),
        Size(&mut c.ncols),
        Nums32(&mut c.row_ptr),
        Nums32(&mut c.col_idx),
        Floats(&mut c.values),
    ]
}

fn words(w: &mut Words) -> Vec<Part<'_>> {
    vec![
        Size(&mut w.nrows),
        Size(&mut w.ncols),
        Nums32(&mut w.row_word_ptr),
        Nums32(&mut w.word_indices),
        Nums64(&mut w.masks),
        Size(&mut w.structural_nnz),
    ]
}

fn store(s: &mut Store) -> Vec<Part<'_>> {
    let rest = vec![Nums32(&mut s.row_value_ptr), Floats(&mut s.values)];
    join(words(&mut s.words), rest)
}

fn words_room(room: &mut WordsRoom) -> Vec<Part<'_>> {
    vec![
        Nums32(&mut room.row_word_ptr),
        Nums32(&mut room.word_indices),
        Nums64(&mut room.masks),
    ]
}

fn store_room(room: &mut StoreRoom) -> Vec<Part<'_>> {
    let rest = vec![Nums32(&mut room.row_value_ptr), Floats(&mut room.values)];
    join(words_room(&mut room.words), rest)
}

fn tiles(t: &mut Tiles) -> Vec<Part<'_>> {
    vec![
        Size(&mut t.nrows),
        Size(&mut t.ncols),
        Nums32(&mut t.row_tile_ptr),
        Nums64(&mut t.masks),
        Nums32(&mut t.value_offsets),
        Nums32(&mut t.metas),
        Floats(&mut t.values),
        Size(&mut t.matrix_nnz),
    ]
}

fn tiles_room(room: &mut TilesRoom) -> Vec<Part<'_>> {
    vec![
        Nums32(&mut room.row_tile_ptr),
        Nums64(&mut room.masks),
        Nums32(&mut room.value_offsets),
        Nums32(&mut room.metas),
        Floats(&mut room.values),
    ]
}

fn csr_room(room: &mut CsrRoom) -> Vec<Part<'_>> {
    vec![
        Nums32(&mut room.row_ptr),
        Nums32(&mut room.col_idx),
        Floats(&mut room.values),
    ]
}

fn blocks(b: &mut Blocks) -> Vec<Part<'_>> {
    vec![
        Size(&mut b.nrows),
        Size(&mut b.ncols),
        Flag(&mut b.six),
        Nums32(&mut b.row_ptr),
        Nums32(&mut b.col_idx),
        Floats(&mut b.values),
    ]
}

fn join<'a>(mut first: Vec<Part<'a>>, rest: Vec<Part<'a>>) -> Vec<Part<'a>> {
    first.extend(rest);
    first
}

/// All parts of the call.
pub fn parts(call: &mut Call) -> Vec<Part<'_>> {
    use Call::*;
    match call {
        MaskCheck(m) | MaskCountOnes(m) | MaskIsEmpty(m) => mask(m),
        MaskContains(m, i) => join(mask(m), vec![Size(i)]),
        MaskNew(len, room) => vec![Size(len), Nums64(room)],
        MaskFromIndices(len, list, room) => vec![Size(len), Sizes(list), Nums64(room)],
        MaskSet(m, i, value) => join(mask(m), vec![Size(i), Flag(value)]),
        MaskOrWord(m, word, bits) => join(mask(m), vec![Size(word), Num64(bits)]),
        MaskIndices(m, room) => join(mask(m), vec![Sizes(room)]),
        MaskUnionAssign(a, b)
        | MaskIntersectAssign(a, b)
        | MaskAndNotAssign(a, b)
        | MaskIntersects(a, b) => join(mask(a), mask(b)),
        Csr32Check(c)
        | Csr32MetadataBytes(c)
        | Csr32StorageBytes(c)
        | MetadataFirstCheckMerge(c) => csr(c),
        Csr32Apply(c, x, y) => join(csr(c), vec![Floats(x), Floats(y)]),
        TopologyFromCsr32(c, room) => join(csr(c), words_room(room)),
        MetadataFirstFromCsr32(c, room) => join(csr(c), store_room(room)),
        _ => parts_above(call),
    }
}

/// The parts of a call to words or to a store.
fn parts_above(call: &mut Call) -> Vec<Part<'_>> {
    use Call::*;
    match call {
        TopologyCheck(w) | TopologyStats(w) => words(w),
        TopologyRowWords(w, r) | TopologyRowNonemptyWords(w, r) | TopologyRowPopcount(w, r) => {
            join(words(w), vec![Size(r)])
        }
        TopologyRowContains(w, r, c) | TopologyRowRank(w, r, c) | TopologyRowSelect(w, r, c) => {
            join(words(w), vec![Size(r), Size(c)])
        }
        TopologyUnion(a, b, room)
        | TopologyIntersection(a, b, room)
        | TopologyAndNot(a, b, room)
        | TopologyXor(a, b, room) => join(join(words(a), words(b)), words_room(room)),
        MetadataFirstCheck(s) | MetadataFirstStats(s) => store(s),
        MetadataFirstRowValues(s, r) => join(store(s), vec![Size(r)]),
        MetadataFirstSparseDotRow(s, r, m, x) => join(
            store(s),
            join(vec![Size(r)], join(mask(m), vec![Floats(x)])),
        ),
        MetadataFirstSparseDotRows(s, m, x, sums, executed) => {
            let lists = vec![Floats(x), Floats(sums), Nums32(executed)];
            join(store(s), join(mask(m), lists))
        }
        _ => parts_of_tiles(call),
    }
}

/// The parts of a call to tiles.
fn parts_of_tiles(call: &mut Call) -> Vec<Part<'_>> {
    use Call::*;
    match call {
        AbtmCheck(t) | AbtmStats(t) => tiles(t),
        AbtmRowTiles(t, row) => join(tiles(t), vec![Size(row)]),
        AbtmApply(t, x, y) => join(tiles(t), vec![Floats(x), Floats(y)]),
        AbtmExpandMaskOneHop(t, m, room) => join(tiles(t), join(mask(m), vec![Nums64(room)])),
        AbtmFromCsr32(c, sparse, dense, room) => {
            let thresholds = vec![Num8(sparse), Num8(dense)];
            join(csr(c), join(thresholds, tiles_room(room)))
        }
        _ => parts_of_restricted(call),
    }
}

/// The parts of a call to restricted or local lists.
fn parts_of_restricted(call: &mut Call) -> Vec<Part<'_>> {
    use Call::*;
    match call {
        RestrictedFromCsr32(c, m, room) => join(csr(c), join(mask(m), csr_room(room))),
        RestrictedFromAbtm(t, m, room) => join(tiles(t), join(mask(m), csr_room(room))),
        LocalFromCsr32(c, m, members, room) => {
            let lists = join(vec![Nums32(members)], csr_room(room));
            join(csr(c), join(mask(m), lists))
        }
        LocalCheck(size, members) => vec![Size(size), Nums32(members)],
        LocalGatherInput(size, members, global, local) => {
            vec![Size(size), Nums32(members), Floats(global), Floats(local)]
        }
        _ => parts_of_blocks(call),
    }
}

/// The parts of a call to blocks.
fn parts_of_blocks(call: &mut Call) -> Vec<Part<'_>> {
    use Call::*;
    match call {
        DenseBlockFromCsr32(c, six, room) => join(csr(c), join(vec![Flag(six)], csr_room(room))),
        DenseBlockCheck(b) | DenseBlockFastBlockFraction(b) => blocks(b),
        DenseBlockApply(b, x, y) => join(blocks(b), vec![Floats(x), Floats(y)]),
        _ => numbers(call),
    }
}

/// The parts of a call with numbers alone.
fn numbers(call: &mut Call) -> Vec<Part<'_>> {
    use Call::*;
    match call {
        WordBaseCol(word) | AbtmTileKind(word) | AbtmTileBaseCol(word) => vec![Num32(word)],
        AbtmValidate(sparse, dense) => vec![Num8(sparse), Num8(dense)],
        WordPopcount(mask) => vec![Num64(mask)],
        WordContainsOffset(mask, n) | WordRank(mask, n) | WordSelect(mask, n) => {
            vec![Num64(mask), Size(n)]
        }
        TopologyAverageWordNnz(a, b)
        | TopologyWordFillRatio(a, b)
        | TopologyMetadataBytesPerNnz(a, b)
        | MetadataFirstPruningRatio(a, b)
        | MetadataFirstEmptyWordRatio(a, b)
        | AbtmMetadataBytesPerNnz(a, b)
        | AbtmTotalEstimatedBytes(a, b)
        | RestrictedRetainedFraction(a, b)
        | LocalBoundaryPruningRatio(a, b)
        | LocalStorageBytes(a, b)
        | DenseBlockBlockFill(a, b)
        | DenseBlockValuePaddingRatio(a, b)
        | DenseBlockMetadataBytes(a, b) => vec![Size(a), Size(b)],
        MetadataFirstTotalEstimatedBytes(a, b, c)
        | RestrictedStorageBytes(a, b, c)
        | DenseBlockStorageBytes(a, b, c) => vec![Size(a), Size(b), Size(c)],
        MetadataFirstAccumulate(a, b) => a.iter_mut().chain(b).map(Size).collect(),
        _ => unreachable!("every other call has its line above"),
    }
}

/// All parts of a call of the crates below.
pub fn parts_below(call: &mut Below) -> Vec<Part<'_>> {
    match call {
        Below::Refusal(n, expected, actual) => vec![Num32(n), Size(expected), Size(actual)],
        Below::Sizes(a, b, c, d) => vec![Size(a), Size(b), Size(c), Size(d)],
        Below::Counts(a, b) | Below::Word(_, a, b) => vec![Num64(a), Num64(b)],
        Below::IsFinite(bits) => vec![Num64(bits)],
        Below::Narrow(n) => vec![Size(n)],
        Below::Saturating(a, b) => vec![Size(a), Size(b)],
        Below::ClearU32(list, from) => vec![Nums32(list), Size(from)],
        Below::ClearU64(list, from) => vec![Nums64(list), Size(from)],
        Below::ClearUsize(list, from) => vec![Sizes(list), Size(from)],
        Below::ClearF64(list, from) => vec![Floats(list), Size(from)],
        Below::MaskIsMember(m, i) => join(mask(m), vec![Size(i)]),
        Below::Pointers(n, list, a, b) => vec![Size(n), Nums32(list), Size(a), Size(b)],
        Below::AllFinite(list) => vec![Floats(list)],
        Below::CountBits(list) => vec![Nums64(list)],
        Below::ClearPast(rows, n, room) => join(vec![Size(rows), Size(n)], words_room(room)),
        Below::CheckLists(w) => {
            let mut all = words(w);
            all.pop();
            all
        }
        Below::RowNumbers(w, row) | Below::RowMasks(w, row) => join(words(w), vec![Size(row)]),
        Below::RowValues(s, row) => join(store(s), vec![Size(row)]),
        Below::Report(counts) => counts.iter_mut().map(Size).collect(),
        Below::Restriction(numbers) | Below::Region(numbers) => {
            numbers.iter_mut().map(Size).collect()
        }
        Below::BlockSize(six, n, col) => vec![Flag(six), Size(n), Num32(col)],
        Below::Blocks(numbers) => numbers.iter_mut().map(Size).collect(),
        Below::StructuralSlots(c) => csr(c),
        Below::BlockColumns(c, six, pointers, columns) => {
            let lists = vec![Flag(six), Nums32(pointers), Nums32(columns)];
            join(csr(c), lists)
        }
        Below::TopologyWord(number, mask, n) => vec![Num32(number), Num64(mask), Size(n)],
        Below::TileMasks(t, row) | Below::TileOffsets(t, row) | Below::TileMetas(t, row) => {
            join(tiles(t), vec![Size(row)])
        }
        Below::TileValue(meta, mask, [sparse, dense], count, bits) => vec![
            Num32(meta),
            Num64(mask),
            Num8(sparse),
            Num8(dense),
            Size(count),
            Num64(bits),
        ],
    }
}
