//! Damaged copies of good calls: a list cut, lengthened or changed in one place, or a number changed.

use crate::good::place;
use crate::parts::{Part, parts};
use crate::rng::Rng;
use calls::Call;

/// Damages one part of the call, now and then two.
pub fn damage(rng: &mut Rng, call: &mut Call) {
    damage_one(rng, call);
    if rng.once_in(6) {
        damage_one(rng, call);
    }
}

fn damage_one(rng: &mut Rng, call: &mut Call) {
    let mut all = parts(call);
    let n = rng.below(all.len());
    match &mut all[n] {
        Part::Size(n) => **n = size(rng, **n),
        Part::Num8(n) => **n = number8(rng, **n),
        Part::Num32(n) => **n = number32(rng, **n),
        Part::Num64(n) => **n = number64(rng, **n),
        Part::Flag(flag) => **flag = !**flag,
        Part::Sizes(list) => damage_list(rng, list, size),
        Part::Nums32(list) => damage_list(rng, list, number32),
        Part::Nums64(list) => damage_list(rng, list, number64),
        Part::Floats(list) => damage_list(rng, list, float),
    }
}

fn size(rng: &mut Rng, n: usize) -> usize {
    match rng.below(5) {
        0 => n.wrapping_add(1),
        1 => n.wrapping_sub(1),
        2 => rng.pick(&[0, 1, 64, 65, 1 << 20, (1 << 20) + 1, usize::MAX]),
        _ => place(rng, n.min(1 << 20)),
    }
}

fn number8(rng: &mut Rng, n: u8) -> u8 {
    match rng.below(4) {
        0 => n.wrapping_add(1),
        1 => n.wrapping_sub(1),
        2 => rng.pick(&[0, 1, 63, 64, 65, 255]),
        _ => rng.below(66) as u8,
    }
}

fn number32(rng: &mut Rng, n: u32) -> u32 {
    match rng.below(6) {
        0 => 0,
        1 => n.wrapping_add(1),
        2 => n.wrapping_sub(1),
        3 => u32::MAX,
        4 => n ^ (1 << rng.below(32)),
        _ => rng.below(130) as u32,
    }
}

fn number64(rng: &mut Rng, n: u64) -> u64 {
    match rng.below(5) {
        0 => 0,
        1 => n ^ (1 << rng.below(64)),
        2 => n ^ (1 << rng.below(8)),
        3 => rng.draw(),
        _ => u64::MAX,
    }
}

fn float(rng: &mut Rng, x: f64) -> f64 {
    let other = [
        f64::NAN,
        f64::INFINITY,
        f64::NEG_INFINITY,
        f64::MAX,
        -0.0,
        0.0,
        -x,
    ];
    rng.pick(&other)
}

fn damage_list<T: Copy>(rng: &mut Rng, list: &mut Vec<T>, change: fn(&mut Rng, T) -> T) {
    if list.is_empty() {
        return;
    }
    let (n, at) = (list.len(), rng.below(list.len()));
    match rng.below(9) {
        0 => list.truncate(n - 1),
        1 => list.truncate(at),
        2 => list.push(list[n - 1]),
        3 => {
            let extra = change(rng, list[n - 1]);
            list.push(extra);
        }
        4 => {
            list.remove(at);
        }
        5 => list.swap(at, n - 1),
        _ => list[at] = change(rng, list[at]),
    }
}
