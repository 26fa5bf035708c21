//! Document 01's worked plot of restricted lists, a local list and a pair of demand 3, asked of all three judges.

mod common;

use calls::{Call, Csr, bits};
use common::all_say;
use compare_run::demand::{ROUTES, compare, pair};
use compare_run::restricted::{mask_of, room};
use compare_run::rng::Rng;
use compare_run::tiles::{room as tiles_room, tiles_of};
use judges::ours;

fn one_row(ncols: usize, entries: &[(u32, f64)]) -> Csr {
    Csr {
        nrows: 1,
        ncols,
        row_ptr: vec![0, entries.len() as u32],
        col_idx: entries.iter().map(|e| e.0).collect(),
        values: entries.iter().map(|e| e.1).collect(),
    }
}

/// The largest finite value twice in one column: packing 4, tiles accept, restricting with it active 4, inactive accepted.
#[test]
fn the_largest_value_twice() {
    let c = one_row(6, &[(5, f64::MAX), (5, f64::MAX)]);
    all_say(&Call::MetadataFirstCheckMerge(c.clone()), 4, &[], &[]);
    let build = Call::AbtmFromCsr32(c.clone(), 4, 32, tiles_room([2, 1, 1, 1, 1]));
    let infinite = bits(f64::INFINITY);
    let lists = [vec![0, 1], vec![32], vec![0], vec![0], vec![infinite]];
    all_say(&build, 0, &[1, 1, 1], &lists);
    let t = tiles_of(ours::judge, &c, (4, 32)).expect("tiles accept it");
    let restrict =
        |members| Call::RestrictedFromAbtm(t.clone(), mask_of(6, members), room([2, 1, 1]));
    all_say(&restrict(5..6), 4, &[0; 4], &[vec![0; 2], vec![0], vec![0]]);
    all_say(
        &restrict(0..5),
        0,
        &[1, 6, 1, 0],
        &[vec![0; 2], vec![0], vec![0]],
    );
    let both = Call::RestrictedFromCsr32(c, mask_of(6, [5]), room([2, 2, 2]));
    let lists = [vec![0, 2], vec![5, 5], vec![bits(f64::MAX); 2]];
    all_say(&both, 0, &[1, 6, 2, 2], &lists);
}

#[test]
fn a_region_of_two_words() {
    let mut c = one_row(66, &[(65, 1.0), (3, 2.0), (65, -0.0), (0, 4.0)]);
    c.nrows = 66;
    c.row_ptr.resize(67, 4);
    let call = Call::LocalFromCsr32(c, mask_of(66, [0, 65]), vec![7; 2], room([3, 3, 3]));
    let values = vec![bits(1.0), bits(-0.0), bits(4.0)];
    let lists = [vec![0, 65], vec![0, 3, 3], vec![1, 1, 0], values];
    all_say(&call, 0, &[66, 2, 3, 4], &lists);
    let gather = Call::LocalGatherInput(3, vec![0, 2], vec![0.5, 1.5, 2.5], vec![7.0; 2]);
    all_say(&gather, 0, &[], &[vec![bits(0.5), bits(2.5)]]);
    all_say(&Call::LocalCheck(3, vec![0, 1, 2]), 0, &[], &[]);
}

/// Every route of some pairs agrees, and a fault in one of them is found.
#[test]
fn demand_three() {
    let mut rng = Rng::new(7);
    let pairs: Vec<_> = (0..300).map(|_| pair(&mut rng)).collect();
    for pair in &pairs {
        assert!(compare(ours::judge, pair, None).is_ok(), "{pair:?}");
    }
    for route in ROUTES {
        let found = |pair| compare(ours::judge, pair, Some(route)).err();
        let first = pairs.iter().find_map(found);
        assert_eq!(first.map(|difference| difference.route), Some(route));
    }
}
