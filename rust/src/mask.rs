//! `DofMask`: a set of the places below a length.

use crate::HybitError;
use crate::calls;
use crate::error::{MASK_INDEX, Refusal, accepted};

/// The largest length of a mask.
const LIMIT: usize = 1 << 20;

/// A length and its words of 64 bits; bit `i % 64` of word `i / 64` is set where `i` is a member.
#[derive(Clone, Debug, PartialEq, Eq)]
pub struct DofMask {
    len: usize,
    words: Vec<u64>,
}

impl DofMask {
    /// The empty mask of that length.
    ///
    /// # Panics
    ///
    /// For a length above 1,048,576, which hybit accepts; [`Self::try_new`] returns an error there.
    pub fn new(len: usize) -> Self {
        match Self::try_new(len) {
            Ok(mask) => mask,
            Err(_) => panic!("a mask of length {len} is above 1048576"),
        }
    }

    /// The empty mask of that length; `SizeOverflow` for a length above 1,048,576.
    pub fn try_new(len: usize) -> Result<Self, HybitError> {
        Self::built(len, |words| calls::mask_new(len, words)).map_err(|refusal| refusal.plain())
    }

    /// The mask of the listed members; `SizeOverflow` for a length above 1,048,576.
    pub fn from_indices(len: usize, indices: &[usize]) -> Result<Self, HybitError> {
        Self::built(len, |words| calls::mask_from_indices(len, indices, words))
            .map_err(|refusal| refusal.named(MASK_INDEX))
    }

    /// The length.
    pub fn len(&self) -> usize {
        self.len
    }

    /// Whether the mask has no member.
    pub fn is_empty(&self) -> bool {
        accepted(calls::mask_is_empty(self.view()))
    }

    /// The words.
    pub fn words(&self) -> &[u64] {
        &self.words
    }

    /// Puts `index` in or out.
    pub fn set(&mut self, index: usize, value: bool) -> Result<(), HybitError> {
        calls::mask_set(self.len, &mut self.words, index, value)
            .map_err(|refusal| refusal.named(MASK_INDEX))
    }

    /// Whether `index` is a member; false from the length on.
    pub fn contains(&self, index: usize) -> bool {
        accepted(calls::mask_contains(self.view(), index))
    }

    /// How many members there are.
    pub fn count_ones(&self) -> usize {
        accepted(calls::mask_count_ones(self.view()))
    }

    /// Joins the other mask's members.
    pub fn union_assign(&mut self, other: &Self) -> Result<(), HybitError> {
        calls::mask_union_assign(self.len, &mut self.words, other.view())
            .map_err(|refusal| refusal.plain())
    }

    /// Keeps the members that the other mask has too.
    pub fn intersect_assign(&mut self, other: &Self) -> Result<(), HybitError> {
        calls::mask_intersect_assign(self.len, &mut self.words, other.view())
            .map_err(|refusal| refusal.plain())
    }

    /// Keeps the members that the other mask does not have. Private in hybit.
    pub fn and_not_assign(&mut self, other: &Self) -> Result<(), HybitError> {
        calls::mask_and_not_assign(self.len, &mut self.words, other.view())
            .map_err(|refusal| refusal.plain())
    }

    /// Whether the two masks have a member in common.
    pub fn intersects(&self, other: &Self) -> Result<bool, HybitError> {
        calls::mask_intersects(self.view(), other.view()).map_err(|refusal| refusal.plain())
    }

    /// The members, ascending.
    pub fn indices(&self) -> Vec<usize> {
        let mut members = vec![0; self.count_ones()];
        let count = accepted(calls::mask_indices(self.view(), &mut members));
        members.truncate(count);
        members
    }

    /// Joins the members of one word; bits from the length on are dropped, a word past the end changes nothing. Private in hybit.
    pub fn or_word(&mut self, word_index: usize, bits: u64) {
        accepted(calls::mask_or_word(
            self.len,
            &mut self.words,
            word_index,
            bits,
        ));
    }

    /// Lends the words of a mask of that length to a build. A length above the limit is refused whatever list is lent, so no
    /// more is allocated.
    pub(crate) fn built(
        len: usize,
        build: impl FnOnce(&mut [u64]) -> Result<(), Refusal>,
    ) -> Result<Self, Refusal> {
        let mut words = vec![0; len.min(LIMIT).div_ceil(64)];
        build(&mut words)?;
        Ok(Self { len, words })
    }

    pub(crate) fn view(&self) -> calls::Mask<'_> {
        calls::Mask {
            len: self.len,
            words: &self.words,
        }
    }
}
