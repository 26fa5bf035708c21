//! The Rust's blocks. Blocks that are handed in are made from a plot list with the same values, and figures from a list with those
//! counts. The Rust shows the lists of its blocks in the form `{:?}` alone, so they are read from it.

use super::{
    MOST_LISTED, Made, Reason, accepted, csr_of, csr_within, filled, many_copies, numbers, refused,
    same_bits, told, with_lists, within, zeros,
};
use calls::{Blocks, Call, Csr, CsrRoom, Outcome, bits};
use hybit_core::LinearOperator;
use hybit_matrix::{DenseBlockCsrOperator as Operator, DenseBlockSize};
use std::cell::RefCell;
use std::fmt::{self, Write};
use std::rc::Rc;

/// What the Rust makes of a call to blocks.
pub fn judge(call: &Call) -> Result<Outcome, Reason> {
    use Call::*;
    let float = |value: f64| Ok(accepted(vec![bits(value)]));
    match call {
        DenseBlockFromCsr32(c, six, room) => from_csr32(c, size(*six), room),
        DenseBlockCheck(b) => blocks_of(b).map(|_| accepted(vec![])),
        DenseBlockApply(b, x, y) => apply(b, x, y),
        DenseBlockFastBlockFraction(b) => float(blocks_of(b)?.operator.fast_block_fraction()),
        DenseBlockBlockFill(structural, valid) => {
            float(with_places(*structural, *valid)?.block_fill())
        }
        DenseBlockValuePaddingRatio(slots, structural) => {
            float(with_slots(*slots, *structural)?.value_padding_ratio())
        }
        DenseBlockMetadataBytes(block_rows, blocks) => {
            let made = with_blocks(3, *block_rows, *blocks)?;
            Ok(accepted(vec![made.metadata_bytes() as u64]))
        }
        DenseBlockStorageBytes(block_rows, blocks, slots) => {
            let of_width = |w: &usize| blocks.checked_mul(w * w) == Some(*slots);
            let width = [3, 6].into_iter().find(of_width);
            let width = width.ok_or(Reason::NoSuchList)?;
            let made = with_blocks(width, *block_rows, *blocks)?;
            Ok(accepted(vec![made.storage_bytes() as u64]))
        }
        _ => unreachable!("every other call is answered before"),
    }
}

fn size(six: bool) -> DenseBlockSize {
    if six {
        DenseBlockSize::B6
    } else {
        DenseBlockSize::B3
    }
}

/// The fields of an object by its form `{:?}`: each name with its numbers, values by their bits.
#[derive(Default)]
struct Shown {
    token: String,
    fields: Vec<(String, Vec<u64>)>,
}

impl Write for Shown {
    fn write_str(&mut self, text: &str) -> fmt::Result {
        for c in text.chars() {
            match c {
                ':' => self.fields.push((std::mem::take(&mut self.token), vec![])),
                ' ' | ',' | '[' | ']' | '{' | '}' => self.end_of_token(),
                _ => self.token.push(c),
            }
        }
        Ok(())
    }
}

impl Shown {
    fn of(operator: &Operator) -> Shown {
        let mut shown = Shown::default();
        write!(shown, "{operator:?}").expect("a form that is written");
        shown
    }

    /// A number of the last field; the names of the type and of the width are none.
    fn end_of_token(&mut self) {
        if let Some((name, list)) = self.fields.last_mut()
            && !self.token.is_empty()
        {
            let number = if name == "values" {
                self.token.parse().map(bits).ok()
            } else {
                self.token.parse().ok()
            };
            list.extend(number);
        }
        self.token.clear();
    }

    fn take(&mut self, name: &str) -> Vec<u64> {
        let field = self.fields.iter_mut().find(|(known, _)| known == name);
        std::mem::take(&mut field.expect("a field of the Rust's blocks").1)
    }
}

fn from_csr32(c: &Csr, size: DenseBlockSize, room: &CsrRoom) -> Result<Outcome, Reason> {
    csr_within(c)?;
    let rooms = [room.row_ptr.len(), room.col_idx.len(), room.values.len()];
    let made = match csr_of(c) {
        Ok(_) if many_copies(c) => return Err(Reason::Copies),
        Ok(csr) => Operator::from_csr32(&csr, size),
        Err(error) => Err(error),
    };
    let made = match made {
        Ok(made) => made,
        Err(error) => return Ok(with_lists(refused(error, 7), zeros(&rooms))),
    };
    let mut shown = Shown::of(&made);
    let lists = ["row_ptr", "col_idx", "values"].map(|name| shown.take(name));
    let answer = [
        made.rows(),
        made.cols(),
        lists[0].len() - 1,
        made.unique_blocks(),
        made.dense_value_slots(),
        made.structural_slots(),
        shown.take("valid_dense_slots")[0] as usize,
    ];
    let lists = lists.into_iter().zip(rooms);
    let lists: Result<Vec<_>, _> = lists.map(|(list, room)| filled(list, room)).collect();
    let answer = accepted(answer.map(|n| n as u64).to_vec());
    Ok(with_lists(answer, lists?))
}

/// The plot list with the values of these blocks. The first place of a block has an entry whatever it holds, so that the block is
/// there; an infinite value stands as the largest finite one twice. None where the lists don't lead to blocks.
fn plot_list(b: &Blocks) -> Option<Csr> {
    let (w, n) = (size(b.six).width(), b.col_idx.len());
    let framed = b.row_ptr.len() == b.nrows.div_ceil(w) + 1
        && b.row_ptr.iter().all(|&p| p as usize <= n)
        && b.row_ptr.is_sorted()
        && n.checked_mul(w * w) == Some(b.values.len());
    if !framed {
        return None;
    }
    let mut c = Csr {
        nrows: b.nrows,
        ncols: b.ncols,
        row_ptr: vec![0],
        col_idx: vec![],
        values: vec![],
    };
    for row in 0..b.nrows {
        let (block_row, local) = (row / w, row % w);
        for block in b.row_ptr[block_row] as usize..b.row_ptr[block_row + 1] as usize {
            add_row(b, block, local, &mut c)?;
        }
        c.row_ptr.push(c.col_idx.len() as u32);
    }
    Some(c)
}

/// One row of a block, as far as it lies in the frame.
fn add_row(b: &Blocks, block: usize, row: usize, c: &mut Csr) -> Option<()> {
    let w = size(b.six).width();
    let base = b.col_idx[block].checked_mul(w as u32)?;
    for col in 0..w {
        let value = b.values[(block * w + row) * w + col];
        let first = (row, col) == (0, 0);
        let column = base.checked_add(col as u32)?;
        let inside = (column as usize) < b.ncols;
        let entry = inside && value != 0.0 && !value.is_nan();
        if first || entry {
            let copies = if value.is_infinite() { 2 } else { 1 };
            let finite = if entry {
                value.clamp(f64::MIN, f64::MAX)
            } else {
                0.0
            };
            c.col_idx.extend(vec![column; copies]);
            c.values.extend(vec![finite; copies]);
        }
    }
    Some(())
}

/// The Rust's blocks in the same places; their values may differ where no build gives such values.
struct Held {
    operator: Operator,
    same_values: bool,
}

fn make_blocks(b: &Blocks) -> Result<Held, Reason> {
    let c = plot_list(b).ok_or(Reason::BadBlocks)?;
    let made = csr_of(&c).and_then(|csr| Operator::from_csr32(&csr, size(b.six)));
    let operator = made.map_err(|_| Reason::BadBlocks)?;
    let mut shown = Shown::of(&operator);
    let same = |list: Vec<u64>, other: &[u32]| {
        list.len() == other.len() && list.iter().zip(other).all(|(a, b)| *a == u64::from(*b))
    };
    let values = shown.take("values");
    let placed = same(shown.take("row_ptr"), &b.row_ptr)
        && same(shown.take("col_idx"), &b.col_idx)
        && values.len() == b.values.len();
    if !placed {
        return Err(Reason::BadBlocks);
    }
    let same_values = values == numbers(&b.values);
    Ok(Held {
        operator,
        same_values,
    })
}

// Questions come in runs to the same record, so the last one made is kept.
thread_local! {
    static BLOCKS: RefCell<Option<(Blocks, Made<Held>)>> = const { RefCell::new(None) };
}

/// Equal by the bits of the values, since 0.0 == -0.0 and no NaN equals another.
fn same_blocks(a: &Blocks, b: &Blocks) -> bool {
    (a.nrows, a.ncols, a.six) == (b.nrows, b.ncols, b.six)
        && a.row_ptr == b.row_ptr
        && a.col_idx == b.col_idx
        && same_bits(&a.values, &b.values)
}

fn blocks_of(b: &Blocks) -> Made<Held> {
    within(&[b.nrows, b.ncols], &[b.col_idx.len()])?;
    BLOCKS.with_borrow_mut(|kept| {
        if let Some((key, made)) = kept
            && same_blocks(key, b)
        {
            return made.clone();
        }
        let made = make_blocks(b).map(Rc::new);
        *kept = Some((b.clone(), made.clone()));
        made
    })
}

fn apply(b: &Blocks, x: &[f64], y: &[f64]) -> Result<Outcome, Reason> {
    let made = blocks_of(b)?;
    if !made.same_values {
        return Err(Reason::BlockValue);
    }
    let mut y = y.to_vec();
    let answer = made.operator.apply(x, &mut y).map(|()| vec![]);
    Ok(with_lists(told(answer, 0), vec![numbers(&y)]))
}

/// Blocks of a plot list with so many entries in its first block row, at least one in each block of it.
fn counted(w: usize, nrows: usize, ncols: usize, entries: usize) -> Result<Operator, Reason> {
    let listed = [nrows, ncols, entries].iter().all(|&n| n <= MOST_LISTED);
    let rows = nrows.min(w);
    let blocks = if rows == 0 { 0 } else { ncols.div_ceil(w) };
    if !listed || entries < blocks || entries > rows * ncols {
        return Err(Reason::NoSuchList);
    }
    let places = (0..rows).flat_map(|row| (0..ncols).map(move |col| (row, col)));
    let (first, others): (Vec<_>, Vec<_>) =
        places.partition(|&(row, col)| row == 0 && col.is_multiple_of(w));
    let mut chosen: Vec<_> = first.into_iter().chain(others).take(entries).collect();
    chosen.sort_unstable();
    let ends = (0..=nrows).map(|row| chosen.partition_point(|place| place.0 < row) as u32);
    let c = Csr {
        nrows,
        ncols,
        row_ptr: ends.collect(),
        col_idx: chosen.iter().map(|place| place.1 as u32).collect(),
        values: vec![1.0; entries],
    };
    let made = csr_of(&c).and_then(|csr| Operator::from_csr32(&csr, size(w == 6)));
    Ok(made.expect("a good plot list"))
}

/// Blocks with so many places inside the frame, which then has up to six rows.
fn with_places(structural: usize, valid: usize) -> Result<Operator, Reason> {
    let frames = [3, 6]
        .into_iter()
        .flat_map(|w| (1..=w).map(move |r| (w, r)));
    let fitting = frames.filter(|&(_, rows)| valid.is_multiple_of(rows));
    let made = fitting.map(|(w, rows)| counted(w, rows, valid / rows, structural));
    made.reduce(Result::or).expect("one row always fits")
}

fn with_slots(slots: usize, structural: usize) -> Result<Operator, Reason> {
    let widths = [3, 6].into_iter();
    let fitting = widths.filter(|&w| slots.is_multiple_of(w * w));
    let made = fitting.map(|w| counted(w, w, slots / w, structural));
    made.reduce(Result::or).unwrap_or(Err(Reason::NoSuchList))
}

fn with_blocks(w: usize, block_rows: usize, blocks: usize) -> Result<Operator, Reason> {
    if block_rows > MOST_LISTED || blocks > MOST_LISTED {
        return Err(Reason::NoSuchList);
    }
    if block_rows == 0 && blocks > 0 {
        return Err(Reason::NoSuchList);
    }
    counted(w, block_rows * w, blocks * w, blocks)
}
