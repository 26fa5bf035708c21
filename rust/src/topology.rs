//! `AbtmTopology`: the places of a matrix's entries, as words of 64 columns.

use crate::calls::{self, Room, Used, Words};
use crate::error::{FRAMES, RANK_COLUMN, RANK_OFFSET, Refusal, TOPOLOGY_ROW, accepted};
use crate::{Csr32Matrix, HybitError};

/// How many columns a word stands for.
pub const ABTM_TOPOLOGY_WORD_BITS: usize = 64;

/// The largest number of words of a matrix.
const WORD_LIMIT: usize = 1 << 24;

/// One word of a row: its number, and a bit for each of its columns.
#[derive(Clone, Copy, Debug, PartialEq, Eq)]
pub struct AbtmTopologyWord {
    word_index: u32,
    mask: u64,
}

impl AbtmTopologyWord {
    /// The word's number.
    pub fn word_index(self) -> u32 {
        self.word_index
    }

    /// The word's first column.
    pub fn base_col(self) -> usize {
        calls::word_base_col(self.word_index)
    }

    /// The bits.
    pub fn mask(self) -> u64 {
        self.mask
    }

    /// How many bits are set.
    pub fn popcount(self) -> usize {
        calls::word_popcount(self.mask)
    }

    /// Whether bit `offset` is set; false from 64 on.
    pub fn contains_offset(self, offset: usize) -> bool {
        calls::word_contains_offset(self.mask, offset)
    }

    /// How many bits below `offset` are set; `offset` is at most 64.
    pub fn rank(self, offset: usize) -> Result<usize, HybitError> {
        calls::word_rank(self.mask, offset).map_err(|refusal| refusal.named(RANK_OFFSET))
    }

    /// The bit with `ordinal` set bits below it, if there is one.
    pub fn select(self, ordinal: usize) -> Option<usize> {
        accepted(calls::word_select(self.mask, ordinal))
    }
}

/// The words of one row.
#[derive(Clone, Copy, Debug)]
pub struct AbtmTopologyRow<'a> {
    ncols: usize,
    word_indices: &'a [u32],
    masks: &'a [u64],
}

impl<'a> AbtmTopologyRow<'a> {
    /// How many words the row has.
    pub fn nonempty_words(self) -> usize {
        accepted(self.ask(|row| calls::topology_row_nonempty_words(row, 0)))
    }

    /// How many columns the row holds.
    pub fn popcount(self) -> usize {
        accepted(self.ask(|row| calls::topology_row_popcount(row, 0)))
    }

    /// The words, ascending.
    pub fn words(self) -> impl Iterator<Item = AbtmTopologyWord> + 'a {
        let parts = self.word_indices.iter().zip(self.masks);
        parts.map(|(&word_index, &mask)| AbtmTopologyWord { word_index, mask })
    }

    /// Whether the row holds the column; false from the column count on.
    pub fn contains(self, col: usize) -> bool {
        accepted(self.ask(|row| calls::topology_row_contains(row, 0, col)))
    }

    /// How many columns below `col` the row holds; `col` is at most the column count.
    pub fn rank(self, col: usize) -> Result<usize, HybitError> {
        self.ask(|row| calls::topology_row_rank(row, 0, col))
            .map_err(|refusal| refusal.named(RANK_COLUMN))
    }

    /// The row's column with `ordinal` columns below it, if there is one.
    pub fn select(self, ordinal: usize) -> Option<usize> {
        accepted(self.ask(|row| calls::topology_row_select(row, 0, ordinal)))
    }

    /// Lends the row as a matrix of one row, so that the call checks the row and not the whole matrix. The call refuses a
    /// count of columns that is not the row's.
    fn ask<T>(self, call: impl FnOnce(Words<'_>) -> Result<T, Refusal>) -> Result<T, Refusal> {
        let structural_nnz = self
            .masks
            .iter()
            .map(|mask| mask.count_ones() as usize)
            .sum();
        call(self.view(&[0, self.masks.len() as u32], structural_nnz))
    }

    pub(crate) fn view<'b>(self, row_word_ptr: &'b [u32; 2], structural_nnz: usize) -> Words<'b>
    where
        'a: 'b,
    {
        Words {
            nrows: 1,
            ncols: self.ncols,
            row_word_ptr,
            word_indices: self.word_indices,
            masks: self.masks,
            structural_nnz,
        }
    }

    pub(crate) fn word_count(self) -> u32 {
        self.masks.len() as u32
    }
}

/// The figures of a topology.
#[derive(Clone, Copy, Debug, Default, PartialEq, Eq)]
pub struct AbtmTopologyStats {
    /// Rows.
    pub nrows: usize,
    /// Columns.
    pub ncols: usize,
    /// Present columns of all rows.
    pub structural_nnz: usize,
    /// Words of all rows.
    pub nonempty_words: usize,
    /// The bytes of the pointers, word numbers and masks.
    pub metadata_bytes: usize,
}

impl AbtmTopologyStats {
    /// Present columns for each word; 0.0 without words.
    pub fn average_word_nnz(self) -> f64 {
        calls::topology_average_word_nnz(self.structural_nnz, self.nonempty_words)
    }

    /// The same for each of the 64 columns of a word.
    pub fn word_fill_ratio(self) -> f64 {
        calls::topology_word_fill_ratio(self.structural_nnz, self.nonempty_words)
    }

    /// Bytes for each present column; 0.0 without columns.
    pub fn metadata_bytes_per_nnz(self) -> f64 {
        calls::topology_metadata_bytes_per_nnz(self.metadata_bytes, self.structural_nnz)
    }
}

/// For each row the words with a present column, ascending.
#[derive(Clone, Debug, PartialEq, Eq)]
pub struct AbtmTopology {
    nrows: usize,
    ncols: usize,
    row_word_ptr: Vec<u32>,
    word_indices: Vec<u32>,
    masks: Vec<u64>,
    structural_nnz: usize,
}

impl AbtmTopology {
    /// The words of a matrix: every stored entry's column is present, zeros included.
    pub fn from_csr32(csr: &Csr32Matrix) -> Result<Self, HybitError> {
        let most = most_words(csr);
        Self::built(csr.nrows(), csr.ncols(), most, |room| {
            calls::topology_from_csr32(csr.view(), room)
        })
        .map_err(|refusal| refusal.plain())
    }

    /// The number of rows.
    pub fn nrows(&self) -> usize {
        self.nrows
    }

    /// The number of columns.
    pub fn ncols(&self) -> usize {
        self.ncols
    }

    /// The present columns of all rows.
    pub fn structural_nnz(&self) -> usize {
        self.structural_nnz
    }

    /// The words of all rows.
    pub fn nonempty_words(&self) -> usize {
        self.masks.len()
    }

    /// A row.
    pub fn row(&self, row: usize) -> Result<AbtmTopologyRow<'_>, HybitError> {
        if row >= self.nrows {
            return Err(HybitError::InvalidArgument(TOPOLOGY_ROW));
        }
        let part = self.row_word_ptr[row] as usize..self.row_word_ptr[row + 1] as usize;
        Ok(AbtmTopologyRow {
            ncols: self.ncols,
            word_indices: &self.word_indices[part.clone()],
            masks: &self.masks[part],
        })
    }

    /// The figures.
    pub fn stats(&self) -> AbtmTopologyStats {
        let stats = accepted(calls::topology_stats(self.view()));
        AbtmTopologyStats {
            nrows: stats.nrows,
            ncols: stats.ncols,
            structural_nnz: stats.structural_nnz,
            nonempty_words: stats.nonempty_words,
            metadata_bytes: stats.metadata_bytes,
        }
    }

    /// Checks the words again.
    pub fn validate(&self) -> Result<(), HybitError> {
        calls::topology_check(self.view()).map_err(|refusal| refusal.plain())
    }

    /// The columns that both hold, row by row.
    pub fn intersection(&self, other: &Self) -> Result<Self, HybitError> {
        self.combine(other, calls::topology_intersection)
    }

    /// The columns that either holds. More than 16,777,216 words are `SizeOverflow`.
    pub fn union(&self, other: &Self) -> Result<Self, HybitError> {
        self.combine(other, calls::topology_union)
    }

    /// The columns that this one holds and the other does not.
    pub fn and_not(&self, other: &Self) -> Result<Self, HybitError> {
        self.combine(other, calls::topology_and_not)
    }

    /// The columns that one of them holds and the other does not. More than 16,777,216 words are `SizeOverflow`.
    pub fn xor(&self, other: &Self) -> Result<Self, HybitError> {
        self.combine(other, calls::topology_xor)
    }

    /// Lends lists for the words of both: with shorter ones the library would count the result's words by a walk of its own.
    /// A result with more words than the limit is refused before the lists' lengths are looked at.
    fn combine(
        &self,
        other: &Self,
        operation: fn(Words<'_>, Words<'_>, Room<'_>) -> Result<Used, Refusal>,
    ) -> Result<Self, HybitError> {
        let most = (self.masks.len() + other.masks.len()).min(WORD_LIMIT);
        Self::built(self.nrows, self.ncols, most, |room| {
            operation(self.view(), other.view(), room)
        })
        .map_err(|refusal| refusal.named(FRAMES))
    }

    /// Lends lists for at most `most` words to a build and keeps the parts that it used.
    pub(crate) fn built(
        nrows: usize,
        ncols: usize,
        most: usize,
        build: impl FnOnce(Room<'_>) -> Result<Used, Refusal>,
    ) -> Result<Self, Refusal> {
        let mut topology = Self {
            nrows,
            ncols,
            row_word_ptr: vec![0; nrows + 1],
            word_indices: vec![0; most],
            masks: vec![0; most],
            structural_nnz: 0,
        };
        let used = build(Room {
            row_word_ptr: &mut topology.row_word_ptr,
            word_indices: &mut topology.word_indices,
            masks: &mut topology.masks,
        })?;
        topology.word_indices.truncate(used.words);
        topology.masks.truncate(used.words);
        topology.word_indices.shrink_to_fit();
        topology.masks.shrink_to_fit();
        topology.structural_nnz = used.structural_nnz;
        Ok(topology)
    }

    pub(crate) fn view(&self) -> Words<'_> {
        Words {
            nrows: self.nrows,
            ncols: self.ncols,
            row_word_ptr: &self.row_word_ptr,
            word_indices: &self.word_indices,
            masks: &self.masks,
            structural_nnz: self.structural_nnz,
        }
    }
}

/// The most words that the matrix can have: a row has no more than entries, and no more than its columns make.
pub(crate) fn most_words(csr: &Csr32Matrix) -> usize {
    let words_in_all = csr.nrows() * csr.ncols().div_ceil(ABTM_TOPOLOGY_WORD_BITS);
    csr.nnz().min(words_in_all)
}
