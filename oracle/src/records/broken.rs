// Calls and answers to be written with one field after another changed, to what is refused and to what just passes.

use crate::families::{neighbour, power_of_two};
use crate::flat::Flat;
use crate::made::TALLIES;

// Not finite: infinities and numbers that are none, quiet and signalling. Finite: the extremes.
const DOUBLES: [u64; 12] = [
    0x7ff0_0000_0000_0000,
    0xfff0_0000_0000_0000,
    0x7ff8_0000_0000_0000,
    0xfff8_0000_0000_0000,
    0x7ff0_0000_0000_0001,
    0xffff_ffff_ffff_ffff,
    0x0000_0000_0000_0000,
    0x8000_0000_0000_0000,
    0x0000_0000_0000_0001,
    0x800f_ffff_ffff_ffff,
    0x7fef_ffff_ffff_ffff,
    0xffef_ffff_ffff_ffff,
];

fn tolerances() -> Vec<u64> {
    let least = power_of_two(-300);
    let edges = [least, neighbour(least, 1), neighbour(least, -1), power_of_two(-301), -least, -1.0, f64::MIN_POSITIVE];
    edges.iter().map(|tolerance| tolerance.to_bits()).collect()
}

// Small numbers, and the same beside 2^8, 2^32 and 2^63, where a shorter word would show them as small.
fn words(small: u64) -> Vec<u64> {
    let near = |base: u64| (0..=small).map(move |n| base + n);
    let mut list: Vec<u64> = near(0).chain(near(1 << 8)).chain(near(1 << 32)).chain(near(1 << 63)).collect();
    list.extend([255, u64::MAX]);
    list
}

const LIMITS: [u64; 16] =
    [0, 1, 127, 128, 255, 256, 399, 400, 401, 402, 512, 1 << 16, 1 << 32, (1 << 32) + 400, 1 << 63, u64::MAX];

fn changed(flat: &Flat, change: impl Fn(&mut Flat)) -> Flat {
    let mut other = flat.clone();
    change(&mut other);
    other
}

// The same with so many coefficients.
fn with_count(flat: &Flat, count: usize) -> Flat {
    changed(flat, |f| f.coefficients = flat.coefficients.iter().copied().cycle().take(count).collect())
}

// Each tolerance alone, and both.
fn with_tolerance(flat: &Flat, bits: u64) -> Vec<Flat> {
    vec![
        changed(flat, |f| f.value_tolerance = bits),
        changed(flat, |f| f.point_tolerance = bits),
        changed(flat, |f| (f.value_tolerance, f.point_tolerance) = (bits, bits)),
    ]
}

// The two tolerances the other way round, and another last bit in each.
fn with_tolerances_apart(flat: &Flat) -> Vec<Flat> {
    vec![
        changed(flat, |f| (f.value_tolerance, f.point_tolerance) = (flat.point_tolerance, flat.value_tolerance)),
        changed(flat, |f| f.value_tolerance ^= 1),
        changed(flat, |f| f.point_tolerance ^= 1),
    ]
}

fn with_double(flat: &Flat, bits: u64) -> Vec<Flat> {
    let mut list: Vec<Flat> = (0..flat.coefficients.len()).map(|i| changed(flat, |f| f.coefficients[i] = bits)).collect();
    list.push(changed(flat, |f| f.first = bits));
    list.push(changed(flat, |f| f.second = bits));
    list.extend(with_tolerance(flat, bits));
    list.extend((0..3).map(|i| changed(flat, |f| f.numbers[i] = bits)));
    // What the kind does not have, all at once.
    let used = crate::record::numbers(flat.kind) as usize;
    list.push(changed(flat, |f| f.numbers[used..].fill(bits)));
    list
}

pub fn variants(flat: &Flat) -> Vec<Flat> {
    let mut list = vec![flat.clone()];
    list.extend(words(4).into_iter().map(|kind| changed(flat, |f| f.record_kind = kind)));
    list.extend(words(7).into_iter().map(|method| changed(flat, |f| f.method = method)));
    list.extend((0..=18).chain([40]).map(|count| with_count(flat, count)));
    list.extend(DOUBLES.iter().flat_map(|bits| with_double(flat, *bits)));
    list.extend(tolerances().into_iter().flat_map(|bits| with_tolerance(flat, bits)));
    list.extend(with_tolerances_apart(flat));
    list.extend(LIMITS.iter().map(|limit| changed(flat, |f| f.limit = *limit)));
    list.extend(words(30).into_iter().map(|kind| changed(flat, |f| f.kind = kind)));
    list.extend(words(4).into_iter().map(|mark| changed(flat, |f| f.tallies[3] = mark)));
    for i in 0..3 {
        list.extend(TALLIES.iter().map(|tally| changed(flat, |f| f.tallies[i] = *tally)));
    }
    list
}
