//! Texts that are no trial, with the message that each must get.

pub const TEXTS: [(&str, &str); 26] = [
    (
        "plots 1 1\n",
        "no trial: the word trial expected, input line 1\n",
    ),
    (
        "\n\n  \n",
        "no trial: the word trial expected, input line 4\n",
    ),
    (
        "trials 1 1\n",
        "no trial: the word trial expected, input line 1\n",
    ),
    (
        "trial\n",
        "no trial: a whole number expected, input line 2\n",
    ),
    (
        "trial 1 x\n",
        "no trial: a whole number expected, input line 1\n",
    ),
    (
        "trial -1 1\n",
        "no trial: a whole number expected, input line 1\n",
    ),
    (
        "trial 1 1234567890123456\n",
        "no trial: a whole number expected, input line 1\n",
    ),
    ("trial 1048577 1\n", "refusal 1: over size, input line 1\n"),
    ("trial 1 1048577\n", "refusal 1: over size, input line 1\n"),
    (
        "trial 65537 1\n",
        "refusal 13: short list (room for 65536 lines, plots, and entries of a line), input line 1\n",
    ),
    (
        "trial 1 65537\n",
        "refusal 13: short list (room for 65536 lines, plots, and entries of a line), input line 1\n",
    ),
    (
        "trial 1 1\nyields 1\n",
        "no trial: the word mask or moisture expected, input line 2\n",
    ),
    (
        "trial 1 2\nmask 1 2\n",
        "no trial: 0 or 1 expected, input line 2\n",
    ),
    (
        "trial 1 2\nmask 1\nyields 1 1\n",
        "no trial: 0 or 1 expected, input line 3\n",
    ),
    (
        "trial 1 1\nmoisture\n",
        "no trial: a number expected, input line 3\n",
    ),
    (
        "trial 1 1\nmoisture 14 .5\n",
        "no trial: a number expected, input line 2\n",
    ),
    (
        "trial 1 1\nmoisture 14 5.\n",
        "no trial: a number expected, input line 2\n",
    ),
    (
        "trial 1 1\nmoisture 14 1e1\n",
        "no trial: a number expected, input line 2\n",
    ),
    (
        "trial 1 1\nmask 1\n1 0 1\n",
        "no trial: the word yields expected, input line 3\n",
    ),
    (
        "trial 1 1\nmask 1\nyields --1\n",
        "no trial: a number expected, input line 3\n",
    ),
    (
        "trial 1 1\nmask 1\nyields 12345678.12345678\n",
        "no trial: a number expected, input line 3\n",
    ),
    (
        "trial 1 1\nmask 1\nyields 2\n1 0\n",
        "no trial: a number expected, input line 5\n",
    ),
    (
        "trial 1 1\nmask 1\nyields 2\n1 1 1\n",
        "refusal 3: outside column, input line 4\n",
    ),
    (
        "trial 2 1\nmask 1\nyields 2\n1 0 1\n1 4294967296 1\n",
        "refusal 3: outside column, input line 5\n",
    ),
    (
        "trial 1 1\nmask 1\nyields 2\n65537 0 1\n",
        "refusal 13: short list (room for 65536 lines, plots, and entries of a line), input line 4\n",
    ),
    (
        "trial 1 1\nmask 1\nyields 2\n1 0 1\n1 0 1\n",
        "no trial: the end of the input expected, input line 5\n",
    ),
];
