// Records to try: of calls of all families with the second route's answers, and such as no search gives but the layout allows.

use crate::call::{self, Call};
use crate::families::{self, any_finite, neighbour, power_of_two, Random};
use crate::model;
use crate::record::{allowed, numbers, starts, Record, KINDS};
use crate::words::record_of;
use std::collections::BTreeMap;

pub const CASES: &str = include_str!("../../inputs/cases.txt");

const LISTS: [&str; 4] = [
    CASES,
    include_str!("../../inputs/readings.txt"),
    include_str!("../../inputs/found.txt"),
    include_str!("../../inputs/rare.txt"),
];

// So many calls of all families are looked at.
const LOOKED_AT: u64 = 40_000;

// The calls of the lists.
pub fn known() -> Vec<Call> {
    let call = |line: &str| call::read(line.split(['=', '#']).next()?);
    LISTS.iter().flat_map(|text| text.lines()).filter_map(call).collect()
}

// A call with its answer, in the kind that can hold it; nothing where 1 to 5 refuse it.
// Of the calls with one eps, which either kind can hold, every fourth is of kind 2, so that there are about as many of both.
fn answered(index: usize, call: &Call) -> Option<Record> {
    let record_kind = if call.has_one_eps() && index % 4 != 0 { 1 } else { 2 };
    record_of(record_kind, call, &model::answer(&call.line())).filter(allowed)
}

// The first of each sort, then the second of each, and so on.
pub fn in_turn<K: Ord, T: Clone>(sorts: &BTreeMap<K, Vec<T>>, many: usize) -> Vec<T> {
    let longest = sorts.values().map(Vec::len).max().unwrap_or(0);
    (0..longest).flat_map(|i| sorts.values().filter_map(move |sort| sort.get(i))).take(many).cloned().collect()
}

// Calls of all families and of the lists, first one of each method, count, kind and mark.
pub fn of_calls(seed: u64, many: usize) -> Vec<Record> {
    let known = known();
    let mut sorts: BTreeMap<_, Vec<Record>> = BTreeMap::new();
    let made = (0..LOOKED_AT).map(|index| families::call(seed, index, &known));
    let calls = known.iter().cloned().chain(made).enumerate();
    for record in calls.filter_map(|(index, call)| answered(index, &call)) {
        let sort = (record.method, record.coefficients.len(), record.kind, record.mark);
        sorts.entry(sort).or_default().push(record);
    }
    in_turn(&sorts, many)
}

// Some of each family, method, kind and mark.
pub fn of_families(seed: u64, many: usize) -> Vec<Record> {
    let known = known();
    let mut sorts: BTreeMap<_, BTreeMap<_, Vec<Record>>> = BTreeMap::new();
    for index in 0..LOOKED_AT {
        if let Some(record) = answered(index as usize, &families::call(seed, index, &known)) {
            let family = sorts.entry((families::family(seed, index), record.method)).or_default();
            family.entry((record.kind, record.mark)).or_default().push(record);
        }
    }
    sorts.values().flat_map(|family| in_turn(family, many)).collect()
}

// Tallies where a group more begins, and the largest.
pub const TALLIES: [u64; 10] = [0, 1, 127, 128, 16_383, 16_384, 1 << 32, (1 << 63) - 1, 1 << 63, u64::MAX];

fn extreme(r: &mut Random) -> u64 {
    let few = [0.0, -0.0, f64::MAX, -f64::MAX, f64::from_bits(1), -f64::from_bits(1), f64::MIN_POSITIVE, 1.0];
    let any = any_finite(r);
    if r.one_in(2) { any } else { r.pick(&few) }.to_bits()
}

fn extremes(r: &mut Random, many: u64) -> Vec<u64> {
    (0..many).map(|_| extreme(r)).collect()
}

// The longest record of a kind: all its doubles but the tolerances have the sign bit.
pub fn longest(record_kind: u64) -> Record {
    let least = (-f64::MAX).to_bits();
    Record {
        record_kind,
        method: 5,
        coefficients: vec![least; 16],
        starts: vec![least; 2],
        value_tolerance: f64::MAX.to_bits(),
        point_tolerance: f64::MAX.to_bits(),
        limit: 400,
        kind: 1,
        numbers: vec![least; 3],
        steps: u64::MAX,
        values: u64::MAX,
        derivatives: u64::MAX,
        mark: 2,
    }
}

// The shortest: every number but the tolerances has one group.
pub fn shortest(record_kind: u64) -> Record {
    Record {
        record_kind,
        method: 4,
        coefficients: vec![0],
        starts: vec![0],
        value_tolerance: power_of_two(-300).to_bits(),
        point_tolerance: power_of_two(-300).to_bits(),
        limit: 0,
        kind: 16,
        numbers: vec![],
        steps: 0,
        values: 0,
        derivatives: 0,
        mark: 0,
    }
}

// So many in a row have every method with every kind of answer and with every count; then the other kind of record follows.
pub const ALL: u64 = 80;

// Every method with every kind of answer in turn, with extreme doubles and tallies.
pub fn unlikely(seed: u64, index: u64) -> Record {
    let r = &mut Random::new(seed, index);
    let method = 1 + index % 5;
    let kind = KINDS[(index / 5 % 6) as usize];
    let record_kind = 1 + index / ALL % 2;
    let least = power_of_two(-300);
    let tolerances = [least, neighbour(least, 1), 1.0, f64::MAX, 1e-9].map(f64::to_bits);
    let value_tolerance = r.pick(&tolerances);
    let point_tolerance = if record_kind == 1 { value_tolerance } else { r.pick(&tolerances) };
    Record {
        record_kind,
        method,
        coefficients: extremes(r, 1 + index % 16),
        starts: extremes(r, starts(method)),
        value_tolerance,
        point_tolerance,
        limit: r.pick(&[0, 1, 127, 128, 399, 400]),
        kind,
        numbers: extremes(r, numbers(kind)),
        steps: r.pick(&TALLIES),
        values: r.pick(&TALLIES),
        derivatives: r.pick(&TALLIES),
        mark: r.below(3),
    }
}
