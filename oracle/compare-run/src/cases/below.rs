//! Calls of the crates below the C interface.

use super::values::{COUNTS, WORDS};
use super::{HUGE, INF, MOST, NAN, ONES, blocks, mask, records, stores, tile_stores, words_room};
use calls::{Below, Call, WordCall};

pub fn calls() -> Vec<Below> {
    let mut all = Vec::new();
    refusals(&mut all);
    domain(&mut all);
    counts(&mut all);
    clears(&mut all);
    words(&mut all);
    masks(&mut all);
    pointers(&mut all);
    lists(&mut all);
    record_parts(&mut all);
    reports(&mut all);
    topology_words(&mut all);
    tile_parts(&mut all);
    tile_values(&mut all);
    restrictions(&mut all);
    block_sizes(&mut all);
    block_figures(&mut all);
    block_columns(&mut all);
    all
}

/// Document 01's thirteen refusals; expected and actual are told under 6 alone.
fn refusals(all: &mut Vec<Below>) {
    for number in 1..=13 {
        for (expected, actual) in [(70, 64), (0, MOST), (HUGE, 0), (1, HUGE)] {
            all.push(Below::Refusal(number, expected, actual));
        }
    }
}

/// Sizes at the limits and one past them, in each of the four places; numbers at the end of 32 bits.
fn domain(all: &mut Vec<Below>) {
    let most = 1 << 24;
    for n in [
        0,
        1,
        MOST - 1,
        MOST,
        MOST + 1,
        most - 1,
        most,
        most + 1,
        HUGE,
    ] {
        all.push(Below::Sizes(n, 0, n, 0));
        all.push(Below::Sizes(n, 1, 1, 1));
        all.push(Below::Sizes(1, n, 1, 1));
        all.push(Below::Sizes(1, 1, n, 1));
        all.push(Below::Sizes(1, 1, 1, n));
    }
    for n in [0, 1, (1 << 32) - 1, 1 << 32, (1 << 32) + 5, HUGE] {
        all.push(Below::Narrow(n));
    }
}

/// Sums and products at and past the largest; the figures of restrictions and regions, each number in its own field.
fn restrictions(all: &mut Vec<Below>) {
    for a in [0, 1, 3, 4, 12, 1 << 32, HUGE / 12, HUGE - 1, HUGE] {
        for b in [0, 1, 4, 12, 1 << 32, HUGE / 4, HUGE / 4 + 1, HUGE] {
            all.push(Below::Saturating(a, b));
        }
    }
    for numbers in [
        [3, 130, 10, 6],
        [0, 0, 0, 0],
        [1, 64, 3, 1],
        [5, 65, 0, 7],
        [HUGE, HUGE, HUGE, HUGE],
        [0, HUGE, 1, 0],
        [HUGE / 4, 0, 3, 0],
        [2, 1, (1 << 53) + 1, HUGE / 12],
    ] {
        all.push(Below::Restriction(numbers));
        all.push(Below::Region(numbers));
    }
}

/// Counts as floats and their ratios; which floats are finite.
fn counts(all: &mut Vec<Below>) {
    for a in COUNTS.map(|n| n as u64) {
        for b in COUNTS.map(|n| n as u64) {
            all.push(Below::Counts(a, b));
        }
    }
    let ratios = [(2, 3), (3, 2), (1, 10), (7, 49), (u64::MAX - 1, u64::MAX)];
    all.extend(ratios.map(|(a, b)| Below::Counts(a, b)));
    let floats = [
        0.0,
        1.5,
        5e-324,
        f64::MIN_POSITIVE,
        f64::MAX,
        INF,
        NAN,
        f64::from_bits(0x7ff0_0000_0000_0001),
    ];
    for x in floats {
        all.push(Below::IsFinite(x.to_bits()));
        all.push(Below::IsFinite((-x).to_bits()));
    }
}

/// Lists cleared from the start, from within, from the end and from past it; 0.0 replaces -0.0, NaN and the infinities too.
fn clears(all: &mut Vec<Below>) {
    let floats = [1.5, -0.0, INF, NAN, -2.5, 6.0];
    for n in [0, 1, 5, 6] {
        for from in [0, 1, 2, 3, 4, 5, 6, 7, HUGE] {
            let list = |most: usize| [11, 0, most, 44, 55, 66][..n].to_vec();
            let narrow = list(u32::MAX as usize).iter().map(|&v| v as u32).collect();
            let wide = list(HUGE).iter().map(|&v| v as u64).collect();
            all.push(Below::ClearU32(narrow, from));
            all.push(Below::ClearU64(wide, from));
            all.push(Below::ClearUsize(list(HUGE), from));
            all.push(Below::ClearF64(floats[..n].to_vec(), from));
        }
    }
    all.push(Below::ClearU32(vec![7; 4096], 1000));
    for (rows, words) in [
        (0, 0),
        (0, 5),
        (4, 0),
        (1, 2),
        (3, 3),
        (4, 4),
        (5, 6),
        (HUGE, HUGE),
    ] {
        all.push(Below::ClearPast(rows, words, words_room(4, 5, 3)));
        all.push(Below::ClearPast(rows, words, words_room(0, 4, 3)));
    }
}

/// One word: bits below an offset, set, cleared and trimmed, for offsets past the word too; its lowest bit until none is left;
/// two words joined, each operation by its function and by its name.
fn words(all: &mut Vec<Below>) {
    for word in WORDS {
        for call in WordCall::OFFSETS {
            for offset in [0, 1, 4, 63, 64, 65, 128, u64::MAX] {
                all.push(Below::Word(call, word, offset));
            }
        }
        let mut rest = word;
        for _ in 0..=word.count_ones() {
            all.push(Below::Word(WordCall::Lowest, rest, 0));
            all.push(Below::Word(WordCall::WithoutLowest, rest, 0));
            rest &= rest.wrapping_sub(1);
        }
    }
    for a in WORDS {
        for b in WORDS {
            all.extend(WordCall::PAIRS.map(|call| Below::Word(call, a, b)));
        }
    }
}

/// Whether an index is a member, of good masks and of any others: words that are missing, and bits past the length.
fn masks(all: &mut Vec<Below>) {
    let lists: [&[u64]; 5] = [
        &[],
        &[1],
        &[0x8000_0000_0000_0001; 2],
        &[ONES; 2],
        &[6, 3, ONES],
    ];
    for words in lists {
        for len in [0, 1, 63, 64, 65, 127, 128, MOST, MOST + 1, HUGE] {
            for index in [0, 1, 62, 63, 64, 65, 126, 127, 128, 191, 192, MOST, HUGE] {
                all.push(Below::MaskIsMember(mask(len, words), index));
            }
        }
    }
}

/// The pointer rules for any pointers and any numbers: 2^32 is no u32, so its low bits must not be taken for it; with the largest
/// row count there is no row count + 1.
fn pointers(all: &mut Vec<Below>) {
    let lists: [&[u32]; 15] = [
        &[],
        &[0],
        &[5],
        &[0, 0],
        &[0, 5],
        &[5, 0],
        &[0, u32::MAX],
        &[0, 2, 2, 5],
        &[1, 2, 2, 5],
        &[0, 3, 2, 5],
        &[0, 6, 6, 5],
        &[0, 2, 5, 4],
        &[0, 0, 0, 0],
        &[0, 5, 5, 5],
        &[0, 5, u32::MAX, 5],
    ];
    let far = [(1 << 32) - 1, 1 << 32, (1 << 32) + 5, HUGE];
    for list in lists {
        for nrows in [0, 1, 2, 3, HUGE] {
            for n in [0, 4, 5, 6].into_iter().chain(far) {
                all.push(Below::Pointers(nrows, list.to_vec(), n, n));
            }
            for (left, right) in [(5, 4), (4, 5), (0, 5), (5, HUGE), (HUGE, 5)] {
                all.push(Below::Pointers(nrows, list.to_vec(), left, right));
            }
        }
    }
}

/// Values that are all finite, and one that isn't at each place; one NaN or zero at each place among others; the bits of masks,
/// short lists and long.
fn lists(all: &mut Vec<Below>) {
    all.push(Below::AllFinite(vec![]));
    all.push(Below::AllFinite(vec![f64::MAX, -0.0, 5e-324, f64::MIN]));
    for place in 0..20 {
        for value in [NAN, INF, -INF] {
            let mut list = vec![0.0; 20];
            list[place] = value;
            all.push(Below::AllFinite(list));
        }
        for value in [NAN, -0.0] {
            let mut list = vec![-1.0; 20];
            list[place] = value;
            all.push(Below::AllFinite(list));
        }
    }
    let masks: [&[u64]; 6] = [
        &[],
        &[0],
        &[ONES; 3],
        &[0, 1, 0x8000_0000_0000_0000, 0x0123_4567_89ab_cdef, 0, ONES],
        &[0xaaaa_aaaa_aaaa_aaaa; 100],
        &[7; 4096],
    ];
    all.extend(masks.map(|list| Below::CountBits(list.to_vec())));
}

/// The check without the total, and a row's parts of the lists, of good records and of damaged ones; 7 for the row.
fn record_parts(all: &mut Vec<Below>) {
    for w in records::all() {
        all.push(Below::CheckLists(w.clone()));
        for row in [0, 1, 2, 3, 4, HUGE] {
            all.push(Below::RowNumbers(w.clone(), row));
            all.push(Below::RowMasks(w.clone(), row));
        }
    }
    for s in stores::damaged().into_iter().chain([stores::trial()]) {
        for row in [0, 1, 2, 3, HUGE] {
            all.push(Below::RowValues(s.clone(), row));
        }
    }
}

/// The methods of a topology's word: the offsets and ordinals around its end, 7 for a rank above 64.
fn topology_words(all: &mut Vec<Below>) {
    for (number, word) in WORDS.into_iter().enumerate() {
        for n in [0, 1, 2, 3, 4, 31, 32, 62, 63, 64, 65, 128, HUGE] {
            all.push(Below::TopologyWord(number as u32, word, n));
        }
    }
    for number in [16_383, 67_108_863, 67_108_864, u32::MAX] {
        all.push(Below::TopologyWord(number, 6, 1));
    }
}

/// A report's counts and ratios: no candidates and no words, more active words than words, counts that are rounded.
fn reports(all: &mut Vec<Below>) {
    let half = (1 << 53) + 1;
    let reports = [
        [0, 0, 5, 0, 3],
        [3, 2, 1, 2, 2],
        [3, 1, 2, 2, 1],
        [7, 3, 9, 1, 3],
        [half, 0, half, HUGE, 1],
        [HUGE, 0, 1, HUGE, HUGE],
        [3, 1, half, 5, 0],
    ];
    all.extend(reports.map(Below::Report));
}

/// The parts of every row of tiles and of rows past the last (7), and of tiles that are refused.
fn tile_parts(all: &mut Vec<Below>) {
    for part in [Below::TileMasks, Below::TileOffsets, Below::TileMetas] {
        for t in tile_stores::damaged() {
            all.push(part(t, 2));
        }
        for row in [0, 1, 2, 3, HUGE] {
            all.push(part(tile_stores::trial(), row));
        }
    }
}

/// Each kind but 3 with the lowest and highest word numbers and its slots; counts at the thresholds; zeros of either sign.
fn tile_values(all: &mut Vec<Below>) {
    for kind in 0..3 {
        for word in [0, 1, 63, 64, (1 << 30) - 1] {
            for mask in [0, 1, 1 << 63, 0x00f0_0000_0000_0f00, ONES] {
                let meta = (kind << 30) + word;
                all.push(Below::TileValue(meta, mask, [8, 40], 8, 0));
            }
        }
    }
    for thresholds in [[1, 2], [4, 32], [8, 40], [63, 64], [1, 64]] {
        for count in [0, 1, 2, 4, 5, 8, 9, 31, 32, 39, 40, 63, 64, 65, HUGE] {
            all.push(Below::TileValue(0, 1, thresholds, count, 0));
        }
    }
    for x in [0.0, -0.0, 5e-324, -5e-324, 1.0, INF, -INF, NAN] {
        all.push(Below::TileValue(0, 1, [8, 40], 1, x.to_bits()));
    }
}

/// Counts and columns on both sides of multiples of the widths, and the largest.
fn block_sizes(all: &mut Vec<Below>) {
    for six in blocks::BOTH {
        for n in (0..=13).chain([MOST - 1, MOST, MOST + 1, HUGE - 3, HUGE - 1, HUGE]) {
            let col = n.min(u32::MAX as usize - n % 7) as u32;
            all.push(Below::BlockSize(six, n, col));
        }
    }
}

/// Each number in its own field, ratios to 0, bytes at and past the largest.
fn block_figures(all: &mut Vec<Below>) {
    for numbers in [
        [4, 4, 2, 2, 18, 2, 12],
        [0, 0, 0, 0, 0, 0, 0],
        [7, 13, 2, 3, 108, 5, 79],
        [1, 2, 3, 4, 5, 6, 7],
        [HUGE, HUGE, HUGE, HUGE, HUGE, HUGE, HUGE],
        [0, 0, HUGE / 4, 0, 0, 1, 0],
        [0, 0, 0, HUGE / 4, HUGE / 8, 0, 1],
        [0, 0, 1, 1, HUGE / 8, (1 << 53) + 1, 3],
    ] {
        all.push(Below::Blocks(numbers));
    }
}

/// The block columns and the places with an entry of the plot lists whose blocks are built, into the same lists.
fn block_columns(all: &mut Vec<Below>) {
    for call in blocks::short() {
        if let Call::DenseBlockFromCsr32(c, six, room) = call {
            all.push(Below::StructuralSlots(c.clone()));
            all.push(Below::BlockColumns(c, six, room.row_ptr, room.col_idx));
        }
    }
}
