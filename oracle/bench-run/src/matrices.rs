//! The matrices, masks and vectors that are measured. No row holds a column twice.

pub use random::Random;

pub struct Kind {
    pub name: &'static str,
    pub nrows: usize,
    pub ncols: usize,
    pub per_row: usize,
    /// How many adjacent columns each draw gives.
    pub run: usize,
    pub sorted: bool,
}

pub const KINDS: [Kind; 4] = [
    Kind {
        name: "narrow",
        nrows: 4096,
        ncols: 4096,
        per_row: 256,
        run: 1,
        sorted: false,
    },
    Kind {
        name: "wide",
        nrows: 4096,
        ncols: 65536,
        per_row: 256,
        run: 1,
        sorted: true,
    },
    Kind {
        name: "clustered",
        nrows: 4096,
        ncols: 65536,
        per_row: 256,
        run: 32,
        sorted: true,
    },
    Kind {
        name: "short",
        nrows: 65536,
        ncols: 4096,
        per_row: 16,
        run: 1,
        sorted: false,
    },
];

/// Full words, for tiles.
pub const FULL: Kind = Kind {
    name: "full",
    nrows: 4096,
    ncols: 4096,
    per_row: 256,
    run: 128,
    sorted: true,
};

/// The unknowns of a grid's nodes: those of a node and of the up to eight around it are in full blocks, as in a stiffness matrix.
pub struct Mesh {
    pub name: &'static str,
    pub across: usize,
    pub down: usize,
    /// The unknowns of a node.
    pub dofs: usize,
}

pub const MESHES: [Mesh; 2] = [
    Mesh {
        name: "mesh3",
        across: 120,
        down: 100,
        dofs: 3,
    },
    Mesh {
        name: "mesh6",
        across: 60,
        down: 50,
        dofs: 6,
    },
];

pub struct Csr {
    pub nrows: usize,
    pub ncols: usize,
    pub row_ptr: Vec<u32>,
    pub col_idx: Vec<u32>,
    pub values: Vec<f64>,
}

impl Mesh {
    pub fn describe(&self) -> String {
        let (across, down, dofs) = (self.across, self.down, self.dofs);
        let n = across * down * dofs;
        format!(
            "{}: {n} x {n}, a grid of {across} x {down} nodes with {dofs} unknowns, sorted",
            self.name
        )
    }

    pub fn matrix(&self, random: &mut Random) -> Csr {
        let n = self.across * self.down * self.dofs;
        let (mut row_ptr, mut col_idx) = (vec![0], Vec::new());
        for row in 0..n {
            for node in self.around(row / self.dofs) {
                let first = node * self.dofs;
                col_idx.extend((first..first + self.dofs).map(|col| col as u32));
            }
            row_ptr.push(col_idx.len() as u32);
        }
        Csr {
            nrows: n,
            ncols: n,
            row_ptr,
            values: col_idx.iter().map(|_| random.value()).collect(),
            col_idx,
        }
    }

    /// The node and those beside it, ascending.
    fn around(&self, node: usize) -> impl Iterator<Item = usize> {
        let near = |place: usize, end: usize| place.saturating_sub(1)..(place + 2).min(end);
        let columns = near(node % self.across, self.across);
        let rows = near(node / self.across, self.down);
        rows.flat_map(move |row| columns.clone().map(move |col| row * self.across + col))
    }
}

impl Kind {
    pub fn describe(&self) -> String {
        let order = if self.sorted { "sorted" } else { "unsorted" };
        let runs = match self.run {
            1 => String::from("random columns"),
            run => format!("random runs of {run} adjacent columns"),
        };
        format!(
            "{}: {} x {}, {} entries a row, {runs}, {order}",
            self.name, self.nrows, self.ncols, self.per_row
        )
    }

    pub fn matrix(&self, random: &mut Random) -> Csr {
        let entries = self.nrows * self.per_row;
        let mut col_idx = Vec::with_capacity(entries);
        let mut taken = vec![false; self.ncols];
        for _ in 0..self.nrows {
            let mut row = self.row(random, &mut taken);
            if self.sorted {
                row.sort_unstable();
            }
            col_idx.append(&mut row);
        }
        Csr {
            nrows: self.nrows,
            ncols: self.ncols,
            row_ptr: (0..=self.nrows)
                .map(|row| (row * self.per_row) as u32)
                .collect(),
            col_idx,
            values: (0..entries).map(|_| random.value()).collect(),
        }
    }

    /// Columns of a row, each once, in the order in which they are drawn. `taken` is all false before and after.
    fn row(&self, random: &mut Random, taken: &mut [bool]) -> Vec<u32> {
        let mut row = Vec::with_capacity(self.per_row);
        while row.len() < self.per_row {
            let start = random.below(self.ncols - self.run + 1);
            let places = start..start + self.run;
            if taken[places.clone()].contains(&true) {
                continue;
            }
            taken[places.clone()].fill(true);
            row.extend(places.map(|col| col as u32));
        }
        row.iter().for_each(|&col| taken[col as usize] = false);
        row
    }

    /// Distinct columns, `percent` of all.
    pub fn active(&self, percent: usize, random: &mut Random) -> Vec<usize> {
        let mut columns: Vec<usize> = (0..self.ncols).collect();
        let count = self.ncols * percent / 100;
        for place in 0..count {
            let other = place + random.below(self.ncols - place);
            columns.swap(place, other);
        }
        columns.truncate(count);
        columns
    }
}
