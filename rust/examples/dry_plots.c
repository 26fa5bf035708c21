/* From the repository, after `oracle/archive`:
 * cc -O2 -Icrates/denimrasp rust/examples/dry_plots.c target/staticlib/libdenimrasp.a -o target/dry_plots && target/dry_plots
 *
 * Each barley line's total yield over its dry plots: a row is a line, a column a plot, the mask the plots dry enough, the
 * vector the yields. The same plots as in dry_plots.rs. */
#include "denimrasp.h"
#include <math.h>
#include <stdio.h>

enum { LINES = 3, PLOTS = 70, ENTRIES = 8, MASK_WORDS = 2 };

static int refused(const char *call, uint32_t number) {
    if (number != 0)
        fprintf(stderr, "%s: refusal %u\n", call, number);
    return number != 0;
}

int main(void) {
    const char *lines[LINES] = {"Anna", "Bera", "Cleo"};
    /* The plots of each line, with the share of the plot that it was sown on. */
    const uint32_t row_ptr[LINES + 1] = {0, 3, 5, 8};
    const uint32_t plots[ENTRIES] = {4, 0, 66, 1, 2, 65, 3, 5};
    const double shares[ENTRIES] = {1.0, 1.0, 0.5, 1.0, 1.0, 1.0, 0.25, 0.75};

    /* A row has no more words and no more values than entries, so lists of that length suffice. */
    uint32_t row_word_ptr[LINES + 1], word_indices[ENTRIES], row_value_ptr[LINES + 1];
    uint64_t masks[ENTRIES];
    double packed[ENTRIES];
    DenimraspTopology store = denimrasp_metadata_first_from_csr32(LINES, PLOTS, row_ptr, LINES + 1, plots, ENTRIES, shares, ENTRIES,
        row_word_ptr, LINES + 1, word_indices, ENTRIES, masks, ENTRIES, row_value_ptr, LINES + 1, packed, ENTRIES);
    if (refused("packing", store.number))
        return 1;

    const size_t dry_plots[6] = {0, 1, 3, 4, 65, 66};
    uint64_t dry[MASK_WORDS];
    if (refused("mask", denimrasp_mask_from_indices(PLOTS, dry_plots, 6, dry, MASK_WORDS).number))
        return 1;
    double yields[PLOTS] = {[0] = 5.5, [1] = 6.25, [3] = 4.0, [4] = 7.5, [65] = 6.0, [66] = 8.0};
    yields[2] = NAN; /* a wet plot's yield is never read */

    /* A list that an earlier call filled is handed on by its used part. */
    double totals[LINES];
    uint32_t executed[LINES];
    if (refused("dots", denimrasp_metadata_first_sparse_dot_rows(LINES, PLOTS, row_word_ptr, LINES + 1, word_indices, store.words,
            masks, store.words, store.structural_nnz, row_value_ptr, LINES + 1, packed, store.structural_nnz, PLOTS, dry, MASK_WORDS,
            yields, PLOTS, totals, LINES, executed, LINES).number))
        return 1;
    for (int line = 0; line < LINES; line++)
        printf("%s: %g t from %u of %u plots\n", lines[line], totals[line], executed[line],
            row_value_ptr[line + 1] - row_value_ptr[line]);
    return 0;
}
