//! The same user code on the crate and on hybit: every answer, value or error, must print the same.
//! `run [CASES [SEED]]`; CASES is 5000 and SEED 1 where not said.

mod cases;

use cases::Case;
use std::collections::BTreeMap;
use std::process::ExitCode;

mod ours {
    use crate::cases::{Case, Csr};
    use denimrasp as m;
    use m::HybitError;

    // Private in hybit, methods here.
    fn or_word(mask: &mut m::DofMask, word: usize, bits: u64) {
        mask.or_word(word, bits);
    }

    fn and_not_assign(mask: &mut m::DofMask, other: &m::DofMask) -> Result<(), HybitError> {
        mask.and_not_assign(other)
    }

    include!("user.rs");
}

mod rust {
    use crate::cases::{Case, Csr};
    use hybit_core::{HybitError, LinearOperator};
    use hybit_matrix as m;
    use m::reach::{and_not_assign, or_word};

    include!("user.rs");
}

/// Errors that a run of the usual length must have met, so that it says something about them.
const MET: [&str; 20] = [
    "SizeOverflow",
    "DimensionMismatch",
    "row_ptr length must equal nrows + 1",
    "col_idx and values lengths differ",
    "row_ptr[0] must be zero",
    "row_ptr[nrows] must equal nnz",
    "row_ptr must be monotonically nondecreasing",
    "column index out of range",
    "matrix contains NaN or infinity",
    "ABTM G2 packed values contain NaN or infinity",
    "DOF mask index out of range",
    "ABTM topology rank offset out of range",
    "ABTM topology row rank column out of range",
    "ABTM topology row index out of range",
    "ABTM topology dimensions differ",
    "ABTM G2 row index out of range",
    "invalid ABTM density thresholds",
    "ABTM row index out of range",
    "mask expansion requires a square ABTM matrix",
    "local R A R preparation requires a square matrix",
];

fn main() -> ExitCode {
    let mut words = std::env::args().skip(1).map(|word| word.parse::<u64>());
    let cases = words.next().and_then(Result::ok).unwrap_or(5000);
    let seed = words.next().and_then(Result::ok).unwrap_or(1);
    let (mut answers, mut differ) = (BTreeMap::new(), 0);
    let mut met = [0usize; MET.len()];
    for number in 0..cases {
        let case = Case::new(seed.wrapping_mul(1 << 32).wrapping_add(number));
        let (ours, rust) = (ours::run(&case), rust::run(&case));
        differ += usize::from(!same(number, &ours, &rust));
        for (what, answer) in rust {
            *answers.entry(what).or_insert(0usize) += 1;
            if let Some(error) = MET.iter().position(|text| answer.contains(text)) {
                met[error] += 1;
            }
        }
    }
    summary(cases, &answers, &met);
    let missed = cases >= 5000 && met.contains(&0);
    println!("{differ} cases differ");
    ExitCode::from(u8::from(differ > 0 || missed))
}

/// Whether both sides noted the same answers; prints the first that differs.
fn same(number: u64, ours: &[(String, String)], rust: &[(String, String)]) -> bool {
    if ours == rust {
        return true;
    }
    let place = ours.iter().zip(rust).position(|(a, b)| a != b);
    let place = place.unwrap_or(ours.len().min(rust.len()));
    println!("case {number}, answer {place}");
    println!("  ours {:?}", ours.get(place));
    println!("  rust {:?}", rust.get(place));
    false
}

fn summary(cases: u64, answers: &BTreeMap<String, usize>, met: &[usize]) {
    let all: usize = answers.values().sum();
    println!(
        "{cases} cases, {all} answers to {} questions",
        answers.len()
    );
    for (text, count) in MET.iter().zip(met) {
        println!("  {count:>8} {text}");
    }
}
