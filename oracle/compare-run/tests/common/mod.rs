//! What the tests of worked plots share.

use calls::{Call, Outcome};
use judges::{hybit, ours};

/// All three judges answer so, with 0 as expected and actual.
pub fn all_say(call: &Call, number: u32, result: &[u64], lists: &[Vec<u64>]) {
    let expected = Outcome {
        number,
        expected: 0,
        actual: 0,
        result: result.to_vec(),
        lists: lists.to_vec(),
    };
    assert_eq!(ours::judge(call), expected, "ours: {call:?}");
    assert_eq!(model::judge(call), expected, "model: {call:?}");
    assert_eq!(hybit::judge(call), Ok(expected), "hybit: {call:?}");
}
