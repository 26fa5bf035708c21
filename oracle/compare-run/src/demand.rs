//! Demand 3 as one run: two matrices that hold the same in active plots and anything in masked ones, two vectors likewise, and the
//! answers of all rows by each of the three routes, which must all be the same.

use crate::good::{self, Style};
use crate::make::{Judge, store_of};
use crate::restricted::{made, mask_of, room};
use crate::rng::Rng;
use crate::tiles::random::{nonzero, thresholds};
use crate::tiles::tiles_of;
use calls::{Call, Csr, Mask, Outcome};
use judges::hybit::demand::{self as hybit, Routes};
use model::demand::{self as model_demand, RowAnswer};

/// The names under which the routes are counted and broken.
pub const ROUTES: [&str; 3] = ["demand_dots", "demand_restricted", "demand_tiles"];

/// Two matrices and two vectors that agree in the active plots of one mask.
#[derive(Clone, Debug)]
pub struct Pair {
    pub matrices: [Csr; 2],
    pub active: Mask,
    pub vectors: [Vec<f64>; 2],
    pub thresholds: (u8, u8),
}

/// The answers that all three routes must give. The third has the number alone, and is asked only where no active value is zero.
fn all_routes(answers: Vec<RowAnswer>, tiles: bool) -> Routes {
    let numbers = answers.iter().map(|answer| answer.0).collect();
    Routes {
        dots: answers.clone(),
        restricted: answers,
        tiles: tiles.then_some(numbers),
    }
}

fn is_active(active: &Mask, col: usize) -> bool {
    active.words[col / 64] >> (col % 64) & 1 == 1
}

/// What one matrix and vector give by each route, through the calls of a judge; the call that was refused where one is.
pub fn through(
    judge: Judge,
    c: &Csr,
    active: &Mask,
    x: &[f64],
    thresholds: Option<(u8, u8)>,
) -> Result<Routes, String> {
    let every = mask_of(c.ncols, 0..c.ncols);
    let n = c.col_idx.len();
    let lists = room([c.nrows + 1, n, n]);
    let cut = judge(&Call::RestrictedFromCsr32(c.clone(), active.clone(), lists));
    let cut = made(&cut).ok_or_else(|| format!("restricted_from_csr32: {}", cut.number))?;
    let tiles = match thresholds {
        Some(thresholds) => Some(from_tiles(judge, c, active, x, thresholds)?),
        None => None,
    };
    Ok(Routes {
        dots: dots(judge, c, active, x)?,
        restricted: dots(judge, &cut, &every, x)?,
        tiles,
    })
}

/// Packs and takes the dot of each row.
fn dots(judge: Judge, c: &Csr, active: &Mask, x: &[f64]) -> Result<Vec<RowAnswer>, String> {
    let store = store_of(judge, c).ok_or("metadata_first_from_csr32 refused")?;
    let dot = |row| {
        let call = Call::MetadataFirstSparseDotRow(store.clone(), row, active.clone(), x.to_vec());
        let Outcome { number, result, .. } = judge(&call);
        match number {
            0 => Ok((result[0], result[2] as usize, result[5] as usize)),
            _ => Err(format!("metadata_first_sparse_dot_row: {number}")),
        }
    };
    (0..c.nrows).map(dot).collect()
}

/// The tiles, the list restricted from them, its row products.
fn from_tiles(
    judge: Judge,
    c: &Csr,
    active: &Mask,
    x: &[f64],
    thresholds: (u8, u8),
) -> Result<Vec<u64>, String> {
    let t = tiles_of(judge, c, thresholds).ok_or("abtm_from_csr32 refused")?;
    let lists = room([c.nrows + 1, t.matrix_nnz, t.matrix_nnz]);
    let cut = judge(&Call::RestrictedFromAbtm(t, active.clone(), lists));
    let cut = made(&cut).ok_or_else(|| format!("restricted_from_abtm: {}", cut.number))?;
    let y = vec![7.0; c.nrows];
    let mut product = judge(&Call::Csr32Apply(cut, x.to_vec(), y));
    match product.number {
        0 => Ok(product.lists.remove(0)),
        number => Err(format!("csr32_apply: {number}")),
    }
}

/// Where the routes of a pair differ: the name of the route, and what was said.
#[derive(Debug)]
pub struct Difference {
    pub route: &'static str,
    pub text: String,
}

/// How often each route of the library was held against the Rust's and against the model's definition.
pub type Compared = ([u64; 3], [u64; 3]);

/// Holds the library's routes and hybit's, of both matrices, against the definition in document 01's words.
pub fn compare(library: Judge, pair: &Pair, fault: Option<&str>) -> Result<Compared, Difference> {
    let asks = model_demand::no_active_zero(&pair.matrices[0], &pair.active);
    let thresholds = asks.then_some(pair.thresholds);
    let first = model_demand::answers(&pair.matrices[0], &pair.active, &pair.vectors[0]);
    let must = all_routes(first, asks);
    let mut compared = ([0; 3], [0; 3]);
    let once = [1, 1, u64::from(asks)];
    for (n, (c, x)) in pair.matrices.iter().zip(&pair.vectors).enumerate() {
        let refused = |text: String| Difference {
            route: ROUTES[0],
            text: format!("matrix {n}: {text}"),
        };
        let mut ours = through(library, c, &pair.active, x, thresholds).map_err(refused)?;
        if n == 1 {
            alter(fault, c.ncols, &mut ours);
        }
        same(&format!("ours, matrix {n}"), &ours, &must)?;
        add(&mut compared.1, once);
        if let Some(routes) = hybit::routes(c, &pair.active, x, thresholds) {
            let routes = routes.map_err(|error| refused(format!("hybit: {error:?}")))?;
            same(&format!("hybit, matrix {n}"), &routes, &must)?;
            add(&mut compared.0, once);
        }
    }
    Ok(compared)
}

fn add(counts: &mut [u64; 3], more: [u64; 3]) {
    counts.iter_mut().zip(more).for_each(|(n, m)| *n += m);
}

fn same(who: &str, said: &Routes, must: &Routes) -> Result<(), Difference> {
    let differ = [
        said.dots != must.dots,
        said.restricted != must.restricted,
        said.tiles != must.tiles,
    ];
    match differ.iter().position(|differs| *differs) {
        None => Ok(()),
        Some(route) => Err(Difference {
            route: ROUTES[route],
            text: format!("{who}: {said:?}, must be {must:?}"),
        }),
    }
}

/// A fault in the second matrix's answers by the named route, where there is more than one word: the last row's number or, by the
/// second route, its active words.
fn alter(fault: Option<&str>, ncols: usize, routes: &mut Routes) {
    if ncols <= 64 {
        return;
    }
    match fault {
        Some("demand_dots") => routes.dots.iter_mut().rev().take(1).for_each(|a| a.0 ^= 1),
        Some("demand_restricted") => {
            let last = routes.restricted.iter_mut().rev().take(1);
            last.for_each(|a| a.2 += 1);
        }
        Some("demand_tiles") => {
            let last = routes.tiles.iter_mut().flatten().rev().take(1);
            last.for_each(|number| *number ^= 1);
        }
        _ => {}
    }
}

/// A random pair, both of whose matrices are accepted for packing.
pub fn pair(rng: &mut Rng) -> Pair {
    loop {
        let drawn = draw(rng);
        let accepted =
            |c: &Csr| model::judge(&Call::MetadataFirstCheckMerge(c.clone())).number == 0;
        if drawn.matrices.iter().all(accepted) {
            return drawn;
        }
    }
}

fn draw(rng: &mut Rng) -> Pair {
    let ncols = match rng.below(10) {
        0..3 => rng.below(9),
        3..9 => rng.pick(&[63, 64, 65, 70, 127, 128, 129, 130, 200]),
        _ => rng.below(1100),
    };
    let nrows = 1 + rng.below(4);
    let share = rng.pick(&[0, 1, 50, 50, 50, 90, 100]);
    let active = mask_of(ncols, (0..ncols).filter(|_| rng.below(100) < share));
    let any_value = rng.once_in(3);
    let style = rng.pick(&[Style::Plain, Style::AnyFinite, Style::Special]);
    let split = |on: bool| -> Vec<u32> {
        let wanted = |col: &u32| is_active(&active, *col as usize) == on;
        (0..ncols as u32).filter(wanted).collect()
    };
    let (active_cols, masked_cols) = (split(true), split(false));
    let mut matrices = [empty(nrows, ncols), empty(nrows, ncols)];
    for _ in 0..nrows {
        let shared = entries(rng, &active_cols, style, !any_value);
        for c in &mut matrices {
            let masked = entries(rng, &masked_cols, Style::Special, false);
            push_row(c, mixed(rng, &shared, masked));
        }
    }
    let x = good::vector(rng, ncols);
    let mut y = good::vector(rng, ncols);
    for &col in &active_cols {
        y[col as usize] = x[col as usize];
    }
    Pair {
        matrices,
        active,
        vectors: [x, y],
        thresholds: thresholds(rng),
    }
}

fn empty(nrows: usize, ncols: usize) -> Csr {
    Csr {
        nrows,
        ncols,
        row_ptr: vec![0],
        col_idx: vec![],
        values: vec![],
    }
}

fn push_row(c: &mut Csr, row: Vec<(u32, f64)>) {
    c.col_idx.extend(row.iter().map(|entry| entry.0));
    c.values.extend(row.iter().map(|entry| entry.1));
    c.row_ptr.push(c.col_idx.len() as u32);
}

/// Entries in some of these columns, in any order, most columns once or twice.
fn entries(rng: &mut Rng, cols: &[u32], style: Style, no_zero: bool) -> Vec<(u32, f64)> {
    let mut all = Vec::new();
    if cols.is_empty() {
        return all;
    }
    let count = match rng.below(6) {
        0 => 0,
        1 => cols.len().min(70),
        _ => rng.below(12),
    };
    for _ in 0..count {
        let col = rng.pick(cols);
        let copies = match rng.below(600) {
            0..450 => 1,
            450..598 => 2,
            _ => 3 + rng.below(3),
        };
        if all.iter().any(|entry: &(u32, f64)| entry.0 == col) {
            continue;
        }
        for _ in 0..copies {
            let value = if no_zero {
                nonzero(rng, style)
            } else {
                good::float(rng, style)
            };
            all.push((col, value / copies as f64));
        }
    }
    rng.shuffle(&mut all);
    all
}

/// The two lists in one: each keeps its own order.
fn mixed(rng: &mut Rng, shared: &[(u32, f64)], masked: Vec<(u32, f64)>) -> Vec<(u32, f64)> {
    let mut row = shared.to_vec();
    let mut places: Vec<usize> = masked.iter().map(|_| rng.below(shared.len() + 1)).collect();
    places.sort_unstable();
    for (place, entry) in places.into_iter().zip(masked).rev() {
        row.insert(place, entry);
    }
    row
}

/// A smaller pair that still differs, as far as greedy steps lead.
pub fn smallest(pair: &Pair, differs: &dyn Fn(&Pair) -> bool) -> Pair {
    let mut best = pair.clone();
    loop {
        let smaller = candidates(&best).find(|pair| differs(pair));
        match smaller {
            Some(pair) => best = pair,
            None => return best,
        }
    }
}

/// A row dropped from both matrices, a masked entry from either, an active one from both.
fn candidates(pair: &Pair) -> impl Iterator<Item = Pair> {
    let rows = (0..pair.matrices[0].nrows).map(|row| without_row(pair, row));
    let masked = [0, 1].into_iter().flat_map(move |n| {
        let places = places(pair, n, false);
        places.into_iter().map(move |place| {
            let mut smaller = pair.clone();
            remove(&mut smaller.matrices[n], place);
            smaller
        })
    });
    let active = places(pair, 0, true).into_iter().zip(places(pair, 1, true));
    let active = active.map(|(left, right)| {
        let mut smaller = pair.clone();
        remove(&mut smaller.matrices[0], left);
        remove(&mut smaller.matrices[1], right);
        smaller
    });
    rows.chain(masked).chain(active)
}

/// The entries of a matrix that are active, or those that aren't.
fn places(pair: &Pair, n: usize, on: bool) -> Vec<usize> {
    let cols = &pair.matrices[n].col_idx;
    let wanted = |place: &usize| is_active(&pair.active, cols[*place] as usize) == on;
    (0..cols.len()).filter(wanted).collect()
}

fn remove(c: &mut Csr, place: usize) {
    c.col_idx.remove(place);
    c.values.remove(place);
    let after = c.row_ptr.iter_mut().filter(|p| **p as usize > place);
    after.for_each(|p| *p -= 1);
}

fn without_row(pair: &Pair, row: usize) -> Pair {
    let mut smaller = pair.clone();
    for c in &mut smaller.matrices {
        let (start, end) = (c.row_ptr[row] as usize, c.row_ptr[row + 1] as usize);
        (start..end).rev().for_each(|place| remove(c, place));
        c.row_ptr.remove(row + 1);
        c.nrows -= 1;
    }
    smaller
}
