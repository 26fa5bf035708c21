//! Each barley line's total yield over its dry plots: `cargo run --example dry_plots`.
//!
//! A row is a line, a column a plot, the mask the plots dry enough, the vector the yields. With hybit-matrix in place of
//! denimrasp only the `use` line differs.

use denimrasp::{AbtmMetadataFirstMatrix, AbtmProductPruningStats, Csr32Matrix, DofMask};

fn main() -> Result<(), Box<dyn std::error::Error>> {
    let lines = ["Anna", "Bera", "Cleo"];
    // The plots of each line, with the share of the plot that it was sown on.
    let row_ptr = vec![0, 3, 5, 8];
    let plots = vec![4, 0, 66, 1, 2, 65, 3, 5];
    let shares = vec![1.0, 1.0, 0.5, 1.0, 1.0, 1.0, 0.25, 0.75];
    let matrix = Csr32Matrix::new(lines.len(), 70, row_ptr, plots, shares)?;
    let store = AbtmMetadataFirstMatrix::from_csr32(&matrix)?;

    let dry = DofMask::from_indices(70, &[0, 1, 3, 4, 65, 66])?;
    let mut yields = vec![0.0; 70];
    for (plot, weight) in [
        (0, 5.5),
        (1, 6.25),
        (3, 4.0),
        (4, 7.5),
        (65, 6.0),
        (66, 8.0),
    ] {
        yields[plot] = weight;
    }
    // A wet plot's yield is never read.
    yields[2] = f64::NAN;

    let mut totals = AbtmProductPruningStats::default();
    for (row, line) in lines.iter().enumerate() {
        let (total, counts) = store.sparse_dot_row(row, &dry, &yields)?;
        println!(
            "{line}: {total} t from {} of {} plots",
            counts.executed_products, counts.candidate_products
        );
        totals.accumulate(counts)?;
    }
    println!("wet: {} percent", totals.pruning_ratio() * 100.0);
    Ok(())
}
