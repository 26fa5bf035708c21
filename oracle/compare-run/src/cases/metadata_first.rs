//! Packing: merged values and their rounding, and lent lists of each length.

use super::{INF, MOST, NAN, csr, store_room};
use crate::make::words_of;
use calls::{Call, Csr};

const LARGEST: f64 = f64::MAX;

pub fn calls() -> Vec<Call> {
    let mut all = Vec::new();
    let groups = [
        vec![trial()],
        copies(),
        rows_of_one(),
        rows_of_two(),
        refused(),
    ];
    for c in groups.concat() {
        packs(&mut all, &c);
    }
    for c in windows() {
        far_columns(&mut all, &c);
    }
    all
}

/// The search for an infinite merged value, then packing into lists just long enough, each of the five one place short, all
/// longer, none. The refusals of the plot list and 4 come before 13.
fn packs(all: &mut Vec<Call>, c: &Csr) {
    let made = words_of(model::judge, c);
    let (w, n) = made.map_or((2, 3), |w| (w.masks.len(), w.structural_nnz));
    let r = c.row_ptr.len();
    let exact = [r, w, w, r, n];
    all.push(Call::MetadataFirstCheckMerge(c.clone()));
    let mut rooms = vec![exact, [r + 1, w + 2, w + 3, r + 4, n + 5], [0; 5]];
    for list in 0..5 {
        let (mut short, mut longer) = (exact, exact);
        short[list] = short[list].saturating_sub(1);
        longer[list] += 1;
        rooms.extend([short, longer]);
    }
    for room in rooms {
        all.push(Call::MetadataFirstFromCsr32(c.clone(), store_room(room)));
    }
}

/// Three rows of 130 columns: four copies of a column in an order that counts, -0.0, an empty row, cancelling values, the least
/// and the largest finite value.
fn trial() -> Csr {
    csr(
        3,
        130,
        &[0, 8, 8, 14],
        &[129, 0, 64, 0, 0, 63, 0, 127, 70, 70, 69, 128, 5, 70],
        &[
            2.5, 1e16, -0.0, 1.0, -1e16, 3.0, 1.0, 0.1, 1.0, -1.0, 5e-324, LARGEST, -7.25, 0.0,
        ],
    )
}

/// Three to six copies of a column, in orders that show in the rounding, alone and among other columns.
fn copies() -> Vec<Csr> {
    let lists: [&[f64]; 8] = [
        &[0.1, 0.2, 0.3],
        &[0.3, 0.2, 0.1],
        &[1e16, 1.0, -1e16],
        &[1.0, 1e16, -1e16],
        &[1e16, 1.0, 1.0, -1e16],
        &[1.0, 1e-16, 1e-16, 1e-16],
        &[1e-16, 1e-16, 1e-16, 1.0, -1.0],
        &[0.1, 0.7, -0.3, 1e8, 0.2, -1e8],
    ];
    let mut all = Vec::new();
    for values in lists {
        let n = values.len() as u32;
        all.push(csr(1, 10, &[0, n], &vec![9; values.len()], values));
        // Each copy after an entry of another column.
        let cols: Vec<u32> = (0..2 * n)
            .map(|k| if k % 2 == 0 { k } else { 69 })
            .collect();
        let among = values.iter().flat_map(|&v| [2.0, v]).collect::<Vec<f64>>();
        all.push(csr(1, 70, &[0, 2 * n], &cols, &among));
    }
    all
}

/// One row: document 01's; copies whose sum is on its way beyond the largest value and comes back or doesn't, by one column and
/// by two; cancelling values and zeros, whose column stays; no entries, no columns, no rows.
fn rows_of_one() -> Vec<Csr> {
    let row = |ncols, cols: [u32; 4], values: [f64; 4]| csr(1, ncols, &[0, 4], &cols, &values);
    let worked = [65, 3, 3, 64];
    let twice = [LARGEST, LARGEST, -LARGEST, -LARGEST];
    vec![
        row(70, worked, [2.0, 1.0, 0.5, 4.0]),
        row(10, [9; 4], [0.1, 0.2, 0.3, -0.6]),
        row(10, [9; 4], [1.0, LARGEST, -LARGEST, LARGEST]),
        row(10, [9; 4], twice),
        row(70, worked, twice),
        row(10, [9, 8, 9, 8], twice),
        row(10, [9; 4], [1.0, -1.0, -0.0, -0.0]),
        row(10, [9, 8, 9, 8], [-0.0, 0.0, -0.0, -0.0]),
        csr(1, 70, &[0, 0], &[], &[]),
        csr(1, 0, &[0, 0], &[], &[]),
        csr(0, 70, &[0], &[], &[]),
    ]
}

/// The largest value in one column of two rows is merged in neither; then a merged infinity in the last row alone.
fn rows_of_two() -> Vec<Csr> {
    let values = [LARGEST, -LARGEST, LARGEST, LARGEST];
    vec![
        csr(2, 10, &[0, 2, 3], &[9, 3, 9], &values[..3]),
        csr(2, 10, &[0, 2, 4], &[9, 3, 9, 9], &values),
        csr(
            2,
            10,
            &[0, 2, 4],
            &[9, 3, 9, 9],
            &[1.0, 2.0, -LARGEST, -LARGEST],
        ),
    ]
}

/// Plot lists refused by 1, 2, 3 and 4, and of several faults the first, a merged infinity among them.
fn refused() -> Vec<Csr> {
    let cols = [65, 3, 3, 64];
    let over = [2.0, LARGEST, LARGEST, 4.0];
    let infinite = [2.0, LARGEST, INF, 4.0];
    vec![
        csr(MOST + 1, 70, &[0, 3], &cols, &over),
        csr(1, MOST + 1, &[0, 3], &cols, &infinite),
        csr(1, 70, &[0, 3], &cols, &infinite),
        csr(1, 65, &[0, 4], &cols, &infinite),
        csr(1, 70, &[0, 4], &cols, &infinite),
        csr(1, 70, &[0, 4], &cols, &[NAN, 1.0, 1.0, 1.0]),
        csr(1, 70, &[0, 4], &cols[..3], &over),
    ]
}

/// Rows of 65,536 and of 2^20 columns: 300 entries in 100 columns, three of each, all over the row. Then with a merged infinity
/// in the first columns, in the middle and in the last.
fn windows() -> Vec<Csr> {
    let mut all = Vec::new();
    for (ncols, apart) in [(65_536, 655), (MOST, 10_485)] {
        let cols: Vec<u32> = (0..300).map(|k| k % 100 * apart + k % 5).collect();
        let values: Vec<f64> = (0..300).map(|k| (k % 17) as f64 / 10.0 - 0.75).collect();
        let good = csr(1, ncols, &[0, 300], &cols, &values);
        all.push(good.clone());
        for place in [0, 50, 99] {
            let mut c = good.clone();
            c.values[place] = LARGEST;
            c.values[place + 200] = LARGEST;
            all.push(c);
        }
    }
    all
}

/// Into lists just long enough, a value short, and none.
fn far_columns(all: &mut Vec<Call>, c: &Csr) {
    let w = words_of(model::judge, c).expect("a good plot list");
    let (words, n) = (w.masks.len(), w.structural_nnz);
    all.push(Call::MetadataFirstCheckMerge(c.clone()));
    for room in [[2, words, words, 2, n], [2, words, words, 2, n - 1], [0; 5]] {
        all.push(Call::MetadataFirstFromCsr32(c.clone(), store_room(room)));
    }
}
