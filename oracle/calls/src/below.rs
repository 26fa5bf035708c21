//! Calls of the crates below the C interface that it doesn't export. The program `recorded` replays them under numbers from 200
//! on. The model alone judges them: hybit has few of them, and those are judged through C calls that rest on the same functions.

use crate::{Counts, Csr, Mask, Store, Tiles, Words, WordsRoom};

#[derive(Clone, Debug, PartialEq)]
pub enum Below {
    /// A refusal's number, expected and actual.
    Refusal(u32, usize, usize),
    /// Rows, columns, and the lengths of two lists.
    Sizes(usize, usize, usize, usize),
    /// A count, and one to divide it by.
    Counts(u64, u64),
    /// A float by its bits.
    IsFinite(u64),
    Narrow(usize),
    /// Two numbers to add and to multiply.
    Saturating(usize, usize),
    /// The lent list, and the place from which it is cleared.
    ClearU32(Vec<u32>, usize),
    ClearU64(Vec<u64>, usize),
    ClearUsize(Vec<usize>, usize),
    ClearF64(Vec<f64>, usize),
    /// A word, with an offset or a second word.
    Word(WordCall, u64, u64),
    MaskIsMember(Mask, usize),
    /// Rows, pointers, and the lengths of two lists.
    Pointers(usize, Vec<u32>, usize, usize),
    /// Whether all are finite, and how many are neither NaN nor zero.
    AllFinite(Vec<f64>),
    CountBits(Vec<u64>),
    /// The used rows and words, and the lent lists.
    ClearPast(usize, usize, WordsRoom),
    /// The total is not asked.
    CheckLists(Words),
    /// The row's part of the word numbers.
    RowNumbers(Words, usize),
    RowMasks(Words, usize),
    RowValues(Store, usize),
    /// The counts of a row dot's report, and its ratios.
    Report(Counts),
    /// A word of a topology by its number and mask, with an offset that is an ordinal too: its methods.
    TopologyWord(u32, u64, usize),
    /// The row's part of the masks.
    TileMasks(Tiles, usize),
    TileOffsets(Tiles, usize),
    TileMetas(Tiles, usize),
    /// A meta and a mask, thresholds and a count, a float by its bits: what the crate of a tile says of each.
    TileValue(u32, u64, [u8; 2], usize, u64),
    /// The four numbers of a restriction: rows, columns, entries of the source, entries that are kept. Its figures.
    Restriction([usize; 4]),
    /// The four numbers of a region: the global size, members, entries that are kept, source entries of its rows. Its figures.
    Region([usize; 4]),
    /// Whether the width is 6, a row or column count, a column: what the width says of each.
    BlockSize(bool, usize, u32),
    /// The seven numbers of blocks, in the order of the C struct. Their figures.
    Blocks([usize; 7]),
    /// The distinct places with an entry.
    StructuralSlots(Csr),
    /// Whether the width is 6, and the lent pointers and block columns.
    BlockColumns(Csr, bool, Vec<u32>, Vec<u32>),
}

/// The calls of one word, in the order of their numbers.
#[derive(Clone, Copy, Debug, PartialEq)]
pub enum WordCall {
    OnesBelow,
    Lowest,
    WithoutLowest,
    WithBit,
    WithoutBit,
    Trimmed,
    Union,
    Intersection,
    AndNot,
    Xor,
    CombineUnion,
    CombineIntersection,
    CombineAndNot,
    CombineXor,
}

impl WordCall {
    pub const OFFSETS: [WordCall; 4] = [
        WordCall::OnesBelow,
        WordCall::WithBit,
        WordCall::WithoutBit,
        WordCall::Trimmed,
    ];
    pub const PAIRS: [WordCall; 8] = [
        WordCall::Union,
        WordCall::Intersection,
        WordCall::AndNot,
        WordCall::Xor,
        WordCall::CombineUnion,
        WordCall::CombineIntersection,
        WordCall::CombineAndNot,
        WordCall::CombineXor,
    ];
}

impl Below {
    /// The number under which the call is recorded.
    pub fn number(&self) -> usize {
        match self {
            Below::Refusal(..) => 200,
            Below::Sizes(..) => 201,
            Below::Counts(..) => 202,
            Below::IsFinite(..) => 203,
            Below::Narrow(..) => 204,
            Below::Saturating(..) => 205,
            Below::ClearU32(..) => 210,
            Below::ClearU64(..) => 211,
            Below::ClearUsize(..) => 212,
            Below::ClearF64(..) => 213,
            Below::Word(call, ..) => 220 + *call as usize,
            Below::MaskIsMember(..) => 240,
            Below::Pointers(..) => 241,
            Below::AllFinite(..) => 242,
            Below::CountBits(..) => 243,
            Below::ClearPast(..) => 244,
            Below::CheckLists(..) => 245,
            Below::RowNumbers(..) => 246,
            Below::RowMasks(..) => 247,
            Below::RowValues(..) => 248,
            Below::Report(..) => 249,
            Below::TopologyWord(..) => 250,
            Below::TileMasks(..) => 251,
            Below::TileOffsets(..) => 252,
            Below::TileMetas(..) => 253,
            Below::TileValue(..) => 254,
            Below::Restriction(..) => 255,
            Below::Region(..) => 256,
            Below::BlockSize(..) => 257,
            Below::Blocks(..) => 258,
            Below::StructuralSlots(..) => 259,
            Below::BlockColumns(..) => 260,
        }
    }
}
