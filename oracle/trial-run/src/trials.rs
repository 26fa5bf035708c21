//! Trials: as the text that the program reads, and as what hybit computes of them.

use hybit_matrix::{AbtmMetadataFirstMatrix, AbtmProductPruningStats, Csr32Matrix, DofMask};
use random::Random;
use std::fmt::Write;

/// A decimal of at most fifteen digits.
fn decimal(random: &mut Random) -> String {
    let digits = 1 + random.below(15);
    let number = random.next() % 10u64.pow(digits as u32);
    let mut text = format!("{number:0digits$}");
    if digits > 1 && random.below(4) > 0 {
        text.insert(1 + random.below(digits - 1), '.');
    }
    if random.one_in(3) {
        text.insert(0, '-');
    }
    text
}

enum Dry {
    Flags(Vec<bool>),
    Moisture(String, Vec<String>),
}

pub struct Trial {
    plots: usize,
    dry: Dry,
    yields: Vec<String>,
    pub rows: Vec<Vec<(usize, String)>>,
}

fn value(text: &str) -> f64 {
    text.parse().unwrap()
}

impl Trial {
    pub fn random(random: &mut Random) -> Self {
        let plots = [0, 1, 2, 63, 64, 65, 130, 300][random.below(8)];
        let lines = random.below(12);
        let dry = if random.below(2) == 0 {
            Dry::Flags((0..plots).map(|_| random.below(2) == 0).collect())
        } else {
            let values =
                (0..plots).map(|_| format!("{}.{}", 10 + random.below(8), random.below(10)));
            Dry::Moisture("14.0".to_owned(), values.collect())
        };
        let rows = (0..lines).map(|_| Self::row(plots, random)).collect();
        let yields = (0..plots).map(|_| decimal(random)).collect();
        Self {
            plots,
            dry,
            yields,
            rows,
        }
    }

    /// No plot three times: hybit merges three copies in an order of its own.
    fn row(plots: usize, random: &mut Random) -> Vec<(usize, String)> {
        if plots == 0 {
            return Vec::new();
        }
        let mut copies = vec![0; plots];
        let mut row = Vec::new();
        for _ in 0..random.below(2 * plots + 1).min(200) {
            let plot = random.below(plots);
            copies[plot] += 1;
            if copies[plot] <= 2 {
                row.push((plot, decimal(random)));
            }
        }
        row
    }

    /// As many entries in each line, in plots at equal distances.
    pub fn of_size(lines: usize, plots: usize, entries: usize, random: &mut Random) -> Self {
        let row = |line: usize, random: &mut Random| {
            let place = |k: usize| (line * 7 + k * (plots / entries).max(1)) % plots;
            (0..entries).map(|k| (place(k), decimal(random))).collect()
        };
        Self {
            plots,
            dry: Dry::Flags((0..plots).map(|_| random.below(10) > 0).collect()),
            yields: (0..plots).map(|_| decimal(random)).collect(),
            rows: (0..lines).map(|line| row(line, random)).collect(),
        }
    }

    pub fn text(&self) -> String {
        let mut text = format!("trial {} {}\n", self.rows.len(), self.plots);
        match &self.dry {
            Dry::Flags(flags) => {
                text += "mask";
                flags
                    .iter()
                    .for_each(|&dry| text += if dry { " 1" } else { " 0" });
            }
            Dry::Moisture(limit, values) => {
                write!(text, "moisture {limit} {}", values.join(" ")).unwrap()
            }
        }
        write!(text, "\nyields {}\n", self.yields.join(" ")).unwrap();
        for row in &self.rows {
            write!(text, "{}", row.len()).unwrap();
            for (plot, number) in row {
                write!(text, " {plot} {number}").unwrap();
            }
            text.push('\n');
        }
        text
    }

    fn mask(&self) -> DofMask {
        let dry: Vec<bool> = match &self.dry {
            Dry::Flags(flags) => flags.clone(),
            Dry::Moisture(limit, values) => {
                values.iter().map(|v| value(v) <= value(limit)).collect()
            }
        };
        let members: Vec<usize> = (0..self.plots).filter(|&plot| dry[plot]).collect();
        DofMask::from_indices(self.plots, &members).unwrap()
    }

    fn matrix(&self) -> AbtmMetadataFirstMatrix {
        let (mut row_ptr, mut cols, mut values) = (vec![0], Vec::new(), Vec::new());
        for row in &self.rows {
            cols.extend(row.iter().map(|entry| entry.0 as u32));
            values.extend(row.iter().map(|entry| value(&entry.1)));
            row_ptr.push(cols.len() as u32);
        }
        let csr = Csr32Matrix::new(self.rows.len(), self.plots, row_ptr, cols, values).unwrap();
        AbtmMetadataFirstMatrix::from_csr32(&csr).unwrap()
    }

    /// What the program must write: hybit's numbers and counts.
    pub fn expected(&self) -> String {
        let (matrix, mask) = (self.matrix(), self.mask());
        let yields: Vec<f64> = self.yields.iter().map(|text| value(text)).collect();
        let mut text = String::new();
        let mut all = AbtmProductPruningStats::default();
        for line in 0..self.rows.len() {
            let (sum, counts) = matrix.sparse_dot_row(line, &mask, &yields).unwrap();
            all.accumulate(counts).unwrap();
            let (executed, skipped) = (counts.executed_products, counts.skipped_products);
            writeln!(
                text,
                "line {line}: total {}, executed {executed}, skipped {skipped}",
                float(sum)
            )
            .unwrap();
        }
        let (executed, skipped) = (all.executed_products, all.skipped_products);
        let ratio = float(all.pruning_ratio());
        writeln!(
            text,
            "all lines: executed {executed}, skipped {skipped}, pruning ratio {ratio}"
        )
        .unwrap();
        text
    }
}

fn float(v: f64) -> String {
    format!("{:016x} {v:.6}", v.to_bits())
}
