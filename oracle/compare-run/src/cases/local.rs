//! Local lists: the rows and columns of a region under new numbers, members that are handed in, the gathering, figures.

use super::{HUGE, INF, MOST, NAN, csr, mask};
use crate::restricted::{mask_of, room};
use calls::{Call, Csr, Mask};

pub fn calls() -> Vec<Call> {
    let mut all = Vec::new();
    regions(&mut all);
    rooms(&mut all);
    refusals(&mut all);
    shapes(&mut all);
    members(&mut all);
    gathers(&mut all);
    figures(&mut all);
    all
}

/// A square of 130: rows 0, 64 and 129 have entries, unsorted, 64 twice in row 64, a -0.0.
fn square() -> Csr {
    let mut ptr = vec![3; 131];
    ptr[0] = 0;
    ptr[65..130].fill(7);
    ptr[130] = 10;
    let cols = [129, 0, 64, 64, 63, 64, 129, 0, 65, 128];
    let values = [1.0, 2.0, -0.0, 4.0, 5.0, 0.5, 7.0, 8.0, 9.0, 0.1];
    csr(130, 130, &ptr, &cols, &values)
}

fn local(c: &Csr, m: &Mask, members: usize, lengths: [usize; 3]) -> Call {
    Call::LocalFromCsr32(c.clone(), m.clone(), vec![7; members], room(lengths))
}

/// No member, one with entries and one without, the ends of words, half, all but one, all.
fn regions(all: &mut Vec<Call>) {
    let c = square();
    let some: [Vec<usize>; 9] = [
        vec![],
        vec![0],
        vec![1],
        vec![64],
        vec![129],
        vec![0, 129],
        vec![63, 64],
        vec![0, 64, 129],
        vec![63, 64, 65, 127, 128, 129],
    ];
    let most = [
        (0..130).step_by(2).collect(),
        (1..130).collect(),
        (0..129).collect(),
        (0..130).filter(|&n| n != 64).collect(),
        (0..130).collect::<Vec<usize>>(),
    ];
    for region in some.iter().chain(&most) {
        let n = region.len();
        let m = mask_of(130, region.iter().copied());
        all.push(local(&c, &m, n, [n + 1, 10, 10]));
    }
}

/// Lists just long enough, each one place short, each one longer, all longer, none.
fn rooms(all: &mut Vec<Call>) {
    let (c, m) = (square(), mask_of(130, [0, 64, 129]));
    let needed = [3, 4, 7, 7];
    let call = |[members, pointers, columns, values]: [usize; 4]| {
        local(&c, &m, members, [pointers, columns, values])
    };
    all.push(call(needed));
    for place in 0..4 {
        for change in [-1, 1] {
            let mut lengths = needed;
            lengths[place] = lengths[place].strict_add_signed(change);
            all.push(call(lengths));
        }
    }
    all.push(call(needed.map(|n| n + 3)));
    all.push(call([0; 4]));
}

/// 1; 2, 3, 4; 5; 10; 6, each before the next and all before 13.
fn refusals(all: &mut Vec<Call>) {
    let good = mask_of(130, [0, 64]);
    let changes: [fn(&mut Csr); 9] = [
        |c| c.nrows = MOST + 1,
        |c| c.ncols = HUGE,
        |c| c.row_ptr[0] = 1,
        |c| c.values.truncate(9),
        |c| c.col_idx[9] = 130,
        |c| c.values[9] = NAN,
        |c| c.values[0] = INF,
        |c| c.ncols = 131,
        |c| {
            c.nrows = 129;
            c.row_ptr.truncate(130);
            c.col_idx.truncate(7);
            c.values.truncate(7);
        },
    ];
    let masks = [
        good.clone(),
        mask(MOST + 1, &[]),
        mask(130, &[0, 0, 4]),
        mask(131, &[0, 0, 7]),
    ];
    for change in changes {
        let mut c = square();
        change(&mut c);
        for m in &masks {
            all.push(local(&c, m, 2, [3, 10, 10]));
        }
        all.push(local(&c, &good, 0, [0, 0, 0]));
    }
    for m in [mask(130, &[0, 0]), mask(129, &[0, 0, 1]), mask(0, &[])] {
        all.push(local(&square(), &m, 2, [3, 10, 10]));
        all.push(local(&square(), &m, 0, [0, 0, 0]));
    }
}

/// No rows and columns, one row, no entries.
fn shapes(all: &mut Vec<Call>) {
    for n in [0, 1, 64, 65] {
        let c = csr(n, n, &vec![0; n + 1], &[], &[]);
        for m in [mask_of(n, []), mask_of(n, 0..n)] {
            all.push(local(&c, &m, n, [n + 1, 0, 0]));
            all.push(local(&c, &m, n + 1, [n + 2, 1, 1]));
        }
    }
    let c = csr(1, 1, &[0, 3], &[0, 0, 0], &[1e16, 1.0, -1e16]);
    all.push(local(&c, &mask(1, &[1]), 1, [2, 3, 3]));
    all.push(local(&c, &mask(1, &[0]), 1, [2, 3, 3]));
}

/// Sizes and members: rising and not, equal ones, equal to the size, past it; 1 before 12.
fn member_lists() -> Vec<(usize, Vec<u32>)> {
    let most = MOST as u32;
    vec![
        (0, vec![]),
        (0, vec![0]),
        (5, vec![]),
        (5, vec![0]),
        (5, vec![4]),
        (5, vec![5]),
        (5, vec![u32::MAX]),
        (5, vec![0, 1, 2, 3, 4]),
        (5, vec![0, 1, 2, 3, 4, 5]),
        (5, vec![1, 3]),
        (5, vec![3, 1]),
        (5, vec![1, 1]),
        (5, vec![0, 0]),
        (5, vec![0, 2, 2, 4]),
        (5, vec![0, 4, 3]),
        (MOST, vec![0, most - 1]),
        (MOST, vec![most]),
        (MOST + 1, vec![0, most]),
        (MOST + 1, vec![most, 0]),
        (HUGE, vec![]),
        (MOST, (0..4096).collect()),
        (4095, (0..4096).collect()),
        (4096, (0..4096).collect()),
    ]
}

fn members(all: &mut Vec<Call>) {
    for (size, list) in member_lists() {
        all.push(Call::LocalCheck(size, list));
    }
}

/// 1 and 12 before 6 of the global vector, that before 6 of the local one; what is gathered, NaN and -0.0 among it.
fn gathers(all: &mut Vec<Call>) {
    for (size, list) in member_lists() {
        if size > 1000 {
            all.push(Call::LocalGatherInput(size, list, vec![1.5], vec![7.5]));
            continue;
        }
        let n = list.len();
        let global: Vec<f64> = (0..size).map(|place| place as f64 / 4.0).collect();
        let gather = |x: usize, y: usize| {
            let mut x_list = global.clone();
            x_list.resize(x, 0.5);
            Call::LocalGatherInput(size, list.clone(), x_list, vec![7.5; y])
        };
        all.push(gather(size, n));
        if n < 10 {
            all.push(gather(size + 1, n));
            all.push(gather(size, n + 1));
            all.push(gather(size + 1, n + 1));
            all.push(gather(size.saturating_sub(1), n));
            all.push(gather(size, n.saturating_sub(1)));
            all.push(gather(0, 0));
        }
    }
    let wild = vec![NAN, -0.0, INF, -INF, 5e-324];
    for list in [vec![0, 1, 2, 3, 4], vec![0, 3], vec![1, 2, 4]] {
        let local = vec![7.5; list.len()];
        all.push(Call::LocalGatherInput(5, list, wild.clone(), local));
    }
}

/// Ratios of nothing, of thirds, of counts that an f64 rounds; more kept than there were; bytes at and past the largest.
fn figures(all: &mut Vec<Call>) {
    let counts = [0, 1, 2, 3, 10, (1 << 53) + 1, HUGE - 1, HUGE];
    for a in counts {
        for b in counts {
            all.push(Call::LocalBoundaryPruningRatio(a, b));
            all.push(Call::LocalStorageBytes(a, b));
        }
    }
    for n in [HUGE / 8 - 1, HUGE / 8, HUGE / 8 + 1] {
        all.push(Call::LocalStorageBytes(n, 0));
        all.push(Call::LocalStorageBytes(n, 1));
    }
    for n in [HUGE / 12 - 1, HUGE / 12, HUGE / 12 + 1] {
        all.push(Call::LocalStorageBytes(0, n));
        all.push(Call::LocalStorageBytes(1, n));
    }
}
