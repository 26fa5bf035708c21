// A user's program, included twice: with `m` as denimrasp and with `m` as hybit-matrix. It asks every public method and notes
// each answer as it is printed.

pub struct Notes(pub Vec<(String, String)>);

impl Notes {
    fn note(&mut self, what: &str, answer: impl std::fmt::Debug) {
        self.0.push((what.to_string(), format!("{answer:?}")));
    }

    /// Notes a result, an error by its variant and by its text, and hands the value on.
    fn result<T: std::fmt::Debug>(
        &mut self,
        what: &str,
        answer: Result<T, HybitError>,
    ) -> Option<T> {
        let printed = match &answer {
            Ok(value) => format!("{value:?}"),
            Err(error) => format!("{error:?}: {error}"),
        };
        self.0.push((what.to_string(), printed));
        answer.ok()
    }
}

pub fn run(case: &Case) -> Vec<(String, String)> {
    let mut notes = Notes(Vec::new());
    masks(&mut notes, case);
    reports(&mut notes, case);
    if let Some(a) = matrix(&mut notes, case, &case.a) {
        products(&mut notes, case, &a);
        let topology = m::AbtmTopology::from_csr32(&a);
        if let Some(topology) = notes.result("topology", topology) {
            words(&mut notes, case, &topology);
            operations(&mut notes, case, &topology);
        }
        let store = m::AbtmMetadataFirstMatrix::from_csr32(&a);
        if let Some(store) = notes.result("store", store) {
            packed(&mut notes, case, &store);
        }
        let config = m::AbtmConfig {
            sparse_max_nnz: case.thresholds.0,
            dense_min_nnz: case.thresholds.1,
        };
        if let Some(matrix) = notes.result("tiles", m::AbtmMatrix::from_csr32(&a, config)) {
            tiles(&mut notes, case, &matrix);
            let made = restricted(
                &matrix,
                case,
                m::PreparedColumnRestrictedCsrOperator::from_abtm,
            );
            if let Some(list) = notes.result("restricted from_abtm", made) {
                columns(&mut notes, case, &list);
            }
        }
        let made = restricted(&a, case, m::PreparedColumnRestrictedCsrOperator::from_csr32);
        if let Some(list) = notes.result("restricted from_csr32", made) {
            columns(&mut notes, case, &list);
        }
        let made = restricted(&a, case, m::PreparedLocalCsrOperator::from_csr32);
        if let Some(list) = notes.result("local from_csr32", made) {
            region(&mut notes, case, &list);
        }
        in_blocks(&mut notes, case, &a);
    }
    notes.0
}

fn matrix(notes: &mut Notes, _: &Case, csr: &Csr) -> Option<m::Csr32Matrix> {
    let made = m::Csr32Matrix::new(
        csr.nrows,
        csr.ncols,
        csr.row_ptr.clone(),
        csr.col_idx.clone(),
        csr.values.clone(),
    );
    notes.result("csr new", made)
}

fn masks(notes: &mut Notes, case: &Case) {
    notes.note("mask new", m::DofMask::new(case.mask_len));
    let made = m::DofMask::from_indices(case.mask_len, &case.members);
    let Some(mut mask) = notes.result("mask from_indices", made) else {
        return;
    };
    notes.note("mask len", (mask.len(), mask.is_empty(), mask.count_ones()));
    notes.note("mask words", mask.words());
    notes.note("mask indices", mask.indices());
    for &place in &case.places {
        notes.note("mask contains", mask.contains(place));
        let set = mask.set(place, place % 2 == 0);
        notes.result("mask set", set);
        or_word(&mut mask, place, case.bits);
        notes.note("mask after", &mask);
    }
    let made = m::DofMask::from_indices(case.other_len, &case.other_members);
    if let Some(other) = notes.result("other mask", made) {
        two_masks(notes, &mask, &other);
    }
}

fn two_masks(notes: &mut Notes, mask: &m::DofMask, other: &m::DofMask) {
    notes.result("mask intersects", mask.intersects(other));
    notes.note("mask equal", mask == other);
    let mut joined = mask.clone();
    notes.result("mask union_assign", joined.union_assign(other));
    notes.note("mask union", &joined);
    let mut common = mask.clone();
    notes.result("mask intersect_assign", common.intersect_assign(other));
    notes.note("mask intersection", &common);
    let mut rest = mask.clone();
    notes.result("mask and_not_assign", and_not_assign(&mut rest, other));
    notes.note("mask and_not", (&rest, rest.is_empty()));
}

fn reports(notes: &mut Notes, case: &Case) {
    let [mut totals, more] = case.counts.map(|c| m::AbtmProductPruningStats {
        candidate_products: c[0],
        executed_products: c[1],
        skipped_products: c[2],
        topology_words: c[3],
        active_words: c[4],
    });
    notes.note("pruning_ratio", totals.pruning_ratio());
    notes.note("empty_word_ratio", totals.empty_word_ratio());
    // Where it fails hybit has by then changed some counts; the crate has not.
    let added = totals.accumulate(more);
    if notes.result("accumulate", added).is_some() {
        notes.note("totals", totals);
    }
    let [a, b] = case.counts;
    let stats = m::AbtmTopologyStats {
        structural_nnz: a[0],
        nonempty_words: a[1],
        metadata_bytes: a[2],
        ..Default::default()
    };
    notes.note("topology ratios", ratios(stats));
    let stats = m::AbtmMetadataFirstStats {
        topology_metadata_bytes: a[3],
        value_row_ptr_bytes: b[3],
        packed_value_bytes: b[0],
        ..Default::default()
    };
    notes.note("total_estimated_bytes", stats.total_estimated_bytes());
    // hybit's sum of a tile store's bytes wraps round above the largest number.
    let stats = m::AbtmStats {
        matrix_nnz: a[0],
        value_slots: b[4] / 32,
        metadata_bytes: a[3] / 2,
        ..Default::default()
    };
    notes.note("tile bytes", tile_bytes(&stats));
    notes.note("usual thresholds", m::AbtmConfig::default());
}

fn ratios(stats: m::AbtmTopologyStats) -> [f64; 3] {
    [
        stats.average_word_nnz(),
        stats.word_fill_ratio(),
        stats.metadata_bytes_per_nnz(),
    ]
}

fn tile_bytes(stats: &m::AbtmStats) -> (f64, usize) {
    (
        stats.metadata_bytes_per_nnz(),
        stats.total_estimated_bytes(),
    )
}

fn products(notes: &mut Notes, case: &Case, a: &m::Csr32Matrix) {
    notes.result("csr validate", a.clone().validate());
    notes.note("csr sizes", (a.nrows(), a.ncols(), a.nnz()));
    notes.note("csr lists", (a.row_ptr(), a.col_idx(), a.values()));
    notes.note("csr bytes", (a.storage_bytes(), a.metadata_bytes()));
    notes.result("spmv", a.spmv(&case.x));
    let mut y = case.y.clone();
    notes.result("apply", a.apply(&case.x, &mut y));
    notes.note("y", y);
}

fn words(notes: &mut Notes, case: &Case, topology: &m::AbtmTopology) {
    notes.note("topology rows", (topology.nrows(), topology.ncols()));
    let sizes = (topology.structural_nnz(), topology.nonempty_words());
    notes.note("topology sizes", sizes);
    let stats = topology.stats();
    notes.note("topology stats", (stats, ratios(stats)));
    notes.result("topology validate", topology.validate());
    for row in 0..topology.nrows() {
        if let Some(row) = notes.result("row", topology.row(row)) {
            one_row(notes, case, row);
        }
    }
    for &place in &case.places {
        notes.result("any row", topology.row(place));
    }
}

fn one_row(notes: &mut Notes, case: &Case, row: m::AbtmTopologyRow<'_>) {
    notes.note("row counts", (row.nonempty_words(), row.popcount()));
    for &place in &case.places {
        notes.note("row contains", row.contains(place));
        notes.result("row rank", row.rank(place));
        notes.note("row select", row.select(place));
    }
    for word in row.words() {
        notes.note("word", (word, word.word_index(), word.mask()));
        notes.note("word counts", (word.base_col(), word.popcount()));
        for &place in &case.places {
            notes.note("word contains_offset", word.contains_offset(place));
            notes.result("word rank", word.rank(place));
            notes.note("word select", word.select(place));
        }
    }
}

fn operations(notes: &mut Notes, case: &Case, a: &m::AbtmTopology) {
    let Some(b) = matrix(notes, case, &case.b) else {
        return;
    };
    let Some(b) = notes.result("other topology", m::AbtmTopology::from_csr32(&b)) else {
        return;
    };
    notes.note("topology equal", *a == b);
    notes.result("union", a.union(&b));
    notes.result("intersection", a.intersection(&b));
    notes.result("and_not", a.and_not(&b));
    let differing = notes.result("xor", a.xor(&b));
    if let Some(differing) = differing {
        notes.result("xor validate", differing.validate());
        // What differs, exchanged, gives the other record again.
        notes.note("xor twice", a.xor(&differing) == Ok(b));
    }
}

fn packed(notes: &mut Notes, case: &Case, store: &m::AbtmMetadataFirstMatrix) {
    notes.note("store topology", store.topology());
    notes.note("store values", store.packed_values());
    let stats = store.stats();
    notes.note("store stats", (stats, stats.total_estimated_bytes()));
    notes.result("store validate", store.clone().validate());
    let made = m::DofMask::from_indices(case.mask_len, &case.members);
    let active = made.unwrap_or(m::DofMask::new(case.mask_len));
    let mut totals = m::AbtmProductPruningStats::default();
    for row in (0..store.topology().nrows()).chain(case.places.iter().copied()) {
        notes.result("row_values", store.row_values(row));
        let dot = store.sparse_dot_row(row, &active, &case.x);
        if let Some((_, counts)) = notes.result("sparse_dot_row", dot) {
            notes.result("accumulate dots", totals.accumulate(counts));
            notes.note(
                "dot ratios",
                (totals.pruning_ratio(), totals.empty_word_ratio()),
            );
        }
    }
    notes.note("dot totals", totals);
}

fn tiles(notes: &mut Notes, case: &Case, matrix: &m::AbtmMatrix) {
    notes.note("tile sizes", (matrix.rows(), matrix.cols()));
    notes.note("tile values", matrix.values());
    let stats = matrix.stats();
    notes.note("tile stats", (&stats, tile_bytes(&stats)));
    for row in (0..matrix.rows()).chain(case.places.iter().copied()) {
        let row = notes.result("row_tiles", matrix.row_tiles(row));
        for tile in row.unwrap_or_default() {
            let base = tile.base_col() / m::TILE_WIDTH;
            notes.note("tile", (tile.mask, tile.value_offset, tile.kind(), base));
        }
    }
    let mut y = case.y.clone();
    notes.result("tile apply", matrix.clone().apply(&case.x, &mut y));
    notes.note("tile y", y);
    let made = m::DofMask::from_indices(case.mask_len, &case.members);
    let mask = made.unwrap_or(m::DofMask::new(case.mask_len));
    notes.result("expand_mask_one_hop", matrix.expand_mask_one_hop(&mask));
}

/// What `build` makes of a matrix and the case's mask.
fn restricted<S, T>(
    source: &S,
    case: &Case,
    build: fn(&S, &m::DofMask) -> Result<T, HybitError>,
) -> Result<T, HybitError> {
    let made = m::DofMask::from_indices(case.mask_len, &case.members);
    build(source, &made.unwrap_or(m::DofMask::new(case.mask_len)))
}

fn columns(notes: &mut Notes, case: &Case, list: &m::PreparedColumnRestrictedCsrOperator) {
    notes.note("restricted sizes", (list.rows(), list.cols()));
    notes.note("restricted matrix", list.matrix());
    notes.note("restricted mask", list.active_columns());
    let counts = (list.source_nnz(), list.retained_nnz());
    notes.note("restricted counts", counts);
    let figures = (list.retained_fraction(), list.storage_bytes());
    notes.note("restricted figures", figures);
    let mut y = case.y.clone();
    notes.result("restricted apply", list.clone().apply(&case.x, &mut y));
    notes.note("restricted y", y);
}

fn region(notes: &mut Notes, case: &Case, list: &m::PreparedLocalCsrOperator) {
    notes.note("local sizes", (list.rows(), list.cols()));
    notes.note("local matrix", list.matrix());
    notes.note("local members", (list.global_size(), list.global_nodes()));
    let counts = (list.local_nodes(), list.local_nnz(), list.source_row_nnz());
    notes.note("local counts", counts);
    let figures = (list.boundary_pruning_ratio(), list.storage_bytes());
    notes.note("local figures", figures);
    // Now and then a list is one place too long.
    let length = |long: u64| list.local_nodes() + usize::from(case.bits & 7 == long);
    let mut x = vec![7.0; length(0)];
    notes.result("gather_input", list.gather_input(&case.x, &mut x));
    notes.note("gathered", &x);
    notes.result("gather_input_vec", list.gather_input_vec(&case.x));
    let mut y = vec![7.0; length(1)];
    notes.result("local apply", list.clone().apply(&x, &mut y));
    notes.note("local y", y);
}

fn in_blocks(notes: &mut Notes, case: &Case, a: &m::Csr32Matrix) {
    for size in [m::DenseBlockSize::B3, m::DenseBlockSize::B6] {
        notes.note("block width", (size, size.width()));
        let made = m::DenseBlockCsrOperator::from_csr32(a, size);
        if let Some(operator) = notes.result("blocks from_csr32", made) {
            blocks(notes, case, &operator);
        }
    }
}

fn blocks(notes: &mut Notes, case: &Case, operator: &m::DenseBlockCsrOperator) {
    notes.note("block sizes", (operator.rows(), operator.cols()));
    let size = (operator.block_size(), operator.block_width());
    notes.note("block size", size);
    let slots = (operator.structural_slots(), operator.dense_value_slots());
    notes.note("block counts", (operator.unique_blocks(), slots));
    let ratios = (operator.block_fill(), operator.value_padding_ratio());
    notes.note("block ratios", (ratios, operator.fast_block_fraction()));
    let bytes = (operator.metadata_bytes(), operator.storage_bytes());
    notes.note("block bytes", bytes);
    let mut y = case.y.clone();
    notes.result("block apply", operator.clone().apply(&case.x, &mut y));
    notes.note("block y", y);
}
