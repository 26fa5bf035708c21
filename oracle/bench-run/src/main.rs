//! Times the library beside hybit's Rust on the same matrices: `oracle/bench [--quick]`.

mod dense_block;
mod matrices;
mod ours;
mod restricted;
mod tiles;
mod timing;

use hybit_core::LinearOperator;
use hybit_matrix as rust;
use matrices::{Csr, FULL, KINDS, Kind, MESHES, Random};
use ours::{Lists, Operation};
use std::fs;
use timing::{Table, load, timed};

fn main() {
    let quick = std::env::args().any(|word| word == "--quick");
    let table = Table {
        runs: if quick { 7 } else { 31 },
    };
    machine();
    for kind in KINDS.iter().chain([&FULL]) {
        println!("# {}", kind.describe());
    }
    for mesh in &MESHES {
        println!("# {}", mesh.describe());
    }
    notes();
    load();
    table.head();
    let mut random = Random(1);
    for kind in &KINDS {
        let pair = [kind.matrix(&mut random), kind.matrix(&mut random)].map(Both::new);
        checks(&table, kind, &pair[0]);
        products(&table, kind, &pair[0], &mut random);
        builds(&table, kind, &pair[0]);
        operations(&table, kind, &pair);
        dots(&table, kind, &pair[0], &mut random);
        tiles::times(&table, kind, &pair[0], &mut random);
        restricted::times(&table, kind, &pair[0], &mut random);
        dense_block::times(&table, kind.name, &pair[0], &mut random);
    }
    let full = Both::new(FULL.matrix(&mut random));
    tiles::times(&table, &FULL, &full, &mut random);
    restricted::times(&table, &FULL, &full, &mut random);
    dense_block::times(&table, FULL.name, &full, &mut random);
    for mesh in &MESHES {
        let m = Both::new(mesh.matrix(&mut random));
        dense_block::times(&table, mesh.name, &m, &mut random);
    }
    load();
}

/// The machine, as far as the system tells.
fn machine() {
    let cpu = fs::read_to_string("/proc/cpuinfo").unwrap_or_default();
    let model = cpu.lines().find(|line| line.starts_with("model name"));
    let name = model.and_then(|line| line.split_once(": "));
    println!("# cpu: {}", name.map_or("unknown", |(_, name)| name));
    let cores = std::thread::available_parallelism().map_or(0, usize::from);
    println!("# cores: {cores}, one used");
    let memory = fs::read_to_string("/proc/meminfo").unwrap_or_default();
    let total = memory.lines().next().unwrap_or_default();
    println!("# memory: {}", total.trim_start_matches("MemTotal:").trim());
    println!("# compiler of the Rust: {}", env!("RUSTC_VERSION"));
}

fn notes() {
    println!(
        "# ours: the C interface, output lists allocated before; each call checks all its input"
    );
    println!(
        "# rust: the call as its user makes it, checked once at construction, results allocated"
    );
    println!("# .._owned: ours through the safe Rust crate, results allocated");
    println!("# dot: ours sparse_dot_rows; rust sparse_dot_row for every row");
    println!("# dot_by_row: ours the crate's sparse_dot_row for every row");
    println!("# tile_..: thresholds 8 and 40; the lines before tell how many tiles of each kind");
    println!("# restrict_.., local_..: ours into lists of the length that the result fills");
    println!("# block3_.., block6_..: the same; the lines before tell how many blocks there are");
}

/// One matrix on both sides.
struct Both {
    csr: Csr,
    rust: rust::Csr32Matrix,
    owned: denimrasp::Csr32Matrix,
}

impl Both {
    fn new(csr: Csr) -> Self {
        let lists = || (csr.row_ptr.clone(), csr.col_idx.clone(), csr.values.clone());
        let (row_ptr, col_idx, values) = lists();
        let rust = rust::Csr32Matrix::new(csr.nrows, csr.ncols, row_ptr, col_idx, values).unwrap();
        let (row_ptr, col_idx, values) = lists();
        let owned =
            denimrasp::Csr32Matrix::new(csr.nrows, csr.ncols, row_ptr, col_idx, values).unwrap();
        Self { csr, rust, owned }
    }

    /// Lists long enough for any build of this matrix.
    fn room(&self) -> Lists {
        Lists::new(self.csr.nrows, self.csr.values.len(), self.csr.values.len())
    }

    /// The words of the matrix, by the library.
    fn words(&self) -> Lists {
        let mut lists = self.room();
        ours::topology(&self.csr, &mut lists);
        lists
    }
}

fn bits(values: &[f64]) -> Vec<u64> {
    values.iter().map(|value| value.to_bits()).collect()
}

/// Stops unless the lists hold the Rust's words.
fn same_words(lists: &Lists, topology: &rust::AbtmTopology) {
    let (mut ends, mut indices, mut masks) = (vec![0], Vec::new(), Vec::new());
    for row in 0..topology.nrows() {
        for word in topology.row(row).unwrap().words() {
            indices.push(word.word_index());
            masks.push(word.mask());
        }
        ends.push(masks.len() as u32);
    }
    assert_eq!(lists.row_word_ptr, ends);
    assert_eq!(lists.word_indices[..lists.words], indices);
    assert_eq!(lists.masks[..lists.words], masks);
    assert_eq!(lists.structural_nnz, topology.structural_nnz());
}

/// What every call of the library does first, beside the Rust's `validate`.
fn checks(table: &Table, kind: &Kind, m: &Both) {
    let mut store = m.room();
    ours::packing(&m.csr, &mut store);
    let rust = rust::AbtmMetadataFirstMatrix::from_csr32(&m.rust).unwrap();
    let accepted = [
        ours::check(&m.csr),
        ours::check_words(kind.ncols, &store),
        ours::check_store(kind.ncols, &store),
    ];
    assert_eq!(accepted, [0, 0, 0]);
    table.line(
        ("csr_check", kind.name, "-"),
        || timed(|| ours::check(&m.csr)),
        || timed(|| m.rust.validate()),
    );
    table.line(
        ("topology_check", kind.name, "-"),
        || timed(|| ours::check_words(kind.ncols, &store)),
        || timed(|| rust.topology().validate()),
    );
    table.line(
        ("store_check", kind.name, "-"),
        || timed(|| ours::check_store(kind.ncols, &store)),
        || timed(|| rust.validate()),
    );
}

fn products(table: &Table, kind: &Kind, m: &Both, random: &mut Random) {
    let x: Vec<f64> = (0..kind.ncols).map(|_| random.value()).collect();
    let (mut y, mut z) = (vec![0.0; kind.nrows], vec![1.0; kind.nrows]);
    ours::apply(&m.csr, &x, &mut y);
    m.rust.apply(&x, &mut z).unwrap();
    assert_eq!(bits(&y), bits(&z));
    table.line(
        ("apply", kind.name, "-"),
        || timed(|| ours::apply(&m.csr, &x, &mut y)),
        || timed(|| m.rust.apply(&x, &mut z)),
    );
}

fn builds(table: &Table, kind: &Kind, m: &Both) {
    let mut out = m.room();
    let build = || rust::AbtmTopology::from_csr32(&m.rust).unwrap();
    let pack = || rust::AbtmMetadataFirstMatrix::from_csr32(&m.rust).unwrap();
    ours::topology(&m.csr, &mut out);
    same_words(&out, &build());
    table.line(
        ("topology_build", kind.name, "-"),
        || timed(|| ours::topology(&m.csr, &mut out)),
        || timed(build),
    );
    table.line(
        ("topology_build_owned", kind.name, "-"),
        || timed(|| denimrasp::AbtmTopology::from_csr32(&m.owned)),
        || timed(build),
    );
    ours::packing(&m.csr, &mut out);
    let store = pack();
    same_words(&out, store.topology());
    assert_eq!(
        bits(&out.packed[..out.structural_nnz]),
        bits(store.packed_values())
    );
    table.line(
        ("packing", kind.name, "-"),
        || timed(|| ours::packing(&m.csr, &mut out)),
        || timed(pack),
    );
    table.line(
        ("packing_owned", kind.name, "-"),
        || timed(|| denimrasp::AbtmMetadataFirstMatrix::from_csr32(&m.owned)),
        || timed(pack),
    );
}

fn operations(table: &Table, kind: &Kind, pair: &[Both; 2]) {
    let lists = [pair[0].words(), pair[1].words()];
    let owned =
        [&pair[0], &pair[1]].map(|m| denimrasp::AbtmTopology::from_csr32(&m.owned).unwrap());
    let rust = [&pair[0], &pair[1]].map(|m| rust::AbtmTopology::from_csr32(&m.rust).unwrap());
    let mut out = Lists::new(kind.nrows, lists[0].words + lists[1].words, 0);
    for operation in [
        Operation::Union,
        Operation::Intersection,
        Operation::AndNot,
        Operation::Xor,
    ] {
        let name = format!("{operation:?}").to_lowercase();
        let by_rust = || on_rust(operation, &rust[0], &rust[1]);
        ours::combine(operation, kind.ncols, &lists[0], &lists[1], &mut out);
        same_words(&out, &by_rust());
        table.line(
            (&name, kind.name, "-"),
            || timed(|| ours::combine(operation, kind.ncols, &lists[0], &lists[1], &mut out)),
            || timed(by_rust),
        );
        table.line(
            (&format!("{name}_owned"), kind.name, "-"),
            || timed(|| on_owned(operation, &owned[0], &owned[1])),
            || timed(by_rust),
        );
    }
}

fn on_rust(
    operation: Operation,
    a: &rust::AbtmTopology,
    b: &rust::AbtmTopology,
) -> rust::AbtmTopology {
    match operation {
        Operation::Union => a.union(b),
        Operation::Intersection => a.intersection(b),
        Operation::AndNot => a.and_not(b),
        Operation::Xor => a.xor(b),
    }
    .unwrap()
}

fn on_owned(
    operation: Operation,
    a: &denimrasp::AbtmTopology,
    b: &denimrasp::AbtmTopology,
) -> denimrasp::AbtmTopology {
    match operation {
        Operation::Union => a.union(b),
        Operation::Intersection => a.intersection(b),
        Operation::AndNot => a.and_not(b),
        Operation::Xor => a.xor(b),
    }
    .unwrap()
}

/// Each row's total and executed count.
struct Rows {
    sums: Vec<f64>,
    executed: Vec<u32>,
}

impl Rows {
    fn new(nrows: usize) -> Self {
        Self {
            sums: vec![0.0; nrows],
            executed: vec![0; nrows],
        }
    }

    fn same(&self, other: &Self) {
        assert_eq!(bits(&self.sums), bits(&other.sums));
        assert_eq!(self.executed, other.executed);
    }

    fn by_rust(
        &mut self,
        store: &rust::AbtmMetadataFirstMatrix,
        active: &rust::DofMask,
        x: &[f64],
    ) {
        for row in 0..self.sums.len() {
            let (sum, counts) = store.sparse_dot_row(row, active, x).unwrap();
            self.sums[row] = sum;
            self.executed[row] = counts.executed_products as u32;
        }
    }

    fn by_crate(
        &mut self,
        store: &denimrasp::AbtmMetadataFirstMatrix,
        active: &denimrasp::DofMask,
        x: &[f64],
    ) {
        for row in 0..self.sums.len() {
            let (sum, counts) = store.sparse_dot_row(row, active, x).unwrap();
            self.sums[row] = sum;
            self.executed[row] = counts.executed_products as u32;
        }
    }

    fn by_library(&mut self, store: &Lists, active: &rust::DofMask, x: &[f64]) {
        ours::dots(
            x.len(),
            store,
            active.words(),
            x,
            &mut self.sums,
            &mut self.executed,
        );
    }
}

fn dots(table: &Table, kind: &Kind, m: &Both, random: &mut Random) {
    let mut store = m.room();
    ours::packing(&m.csr, &mut store);
    let owned = denimrasp::AbtmMetadataFirstMatrix::from_csr32(&m.owned).unwrap();
    let rust = rust::AbtmMetadataFirstMatrix::from_csr32(&m.rust).unwrap();
    let x: Vec<f64> = (0..kind.ncols).map(|_| random.value()).collect();
    for percent in [1, 10, 50] {
        let columns = kind.active(percent, random);
        let active = rust::DofMask::from_indices(kind.ncols, &columns).unwrap();
        let own_active = denimrasp::DofMask::from_indices(kind.ncols, &columns).unwrap();
        let [mut a, mut b, mut c] = [0; 3].map(|_| Rows::new(kind.nrows));
        a.by_library(&store, &active, &x);
        b.by_crate(&owned, &own_active, &x);
        c.by_rust(&rust, &active, &x);
        a.same(&c);
        b.same(&c);
        let shown = percent.to_string();
        table.line(
            ("dot", kind.name, &shown),
            || timed(|| a.by_library(&store, &active, &x)),
            || timed(|| c.by_rust(&rust, &active, &x)),
        );
        table.line(
            ("dot_by_row", kind.name, &shown),
            || timed(|| b.by_crate(&owned, &own_active, &x)),
            || timed(|| c.by_rust(&rust, &active, &x)),
        );
    }
}
