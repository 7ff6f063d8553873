// Buffers that are no record, or another than they were.

use crate::families::Random;
use crate::record::{bytes, groups, Record};

// Numbers at which a rule changes, and doubles that no record holds.
const EDGES: [u64; 40] = [
    0,
    1,
    2,
    3,
    4,
    5,
    6,
    10,
    11,
    12,
    13,
    14,
    15,
    16,
    17,
    18,
    19,
    20,
    127,
    128,
    255,
    256,
    257,
    260,
    272,
    399,
    400,
    401,
    16_383,
    16_384,
    (1 << 32) + 1,
    1 << 63,
    u64::MAX,
    0x2d30_0000_0000_0000,
    0x2d2f_ffff_ffff_ffff,
    0x7fef_ffff_ffff_ffff,
    0x7ff0_0000_0000_0000,
    0x7ff8_0000_0000_0000,
    0xfff0_0000_0000_0000,
    0xfff0_0000_0000_0001,
];

// Ten groups whose last one is too large, eleven groups, and a number that never ends.
pub fn too_long() -> Vec<Vec<u8>> {
    let begin = |byte: u8, many: usize, end: &[u8]| [vec![byte; many], end.to_vec()].concat();
    vec![
        begin(0xff, 9, &[0x02]),
        begin(0x80, 9, &[0x02]),
        begin(0xff, 9, &[0x03]),
        begin(0xff, 9, &[0x7f]),
        begin(0x80, 9, &[0x40]),
        begin(0x80, 10, &[0x01]),
        begin(0xff, 10, &[0x01]),
        begin(0xff, 9, &[0x81, 0x00]),
        begin(0x80, 18, &[0x01]),
        begin(0x80, 300, &[]),
    ]
}

pub fn numbers_in(bytes: &[u8]) -> Vec<Vec<u8>> {
    bytes.split_inclusive(|byte| *byte < 128).map(<[u8]>::to_vec).collect()
}

// The same number with needless groups behind it.
pub fn lengthened(number: &[u8], more: usize) -> Vec<u8> {
    let (last, others) = number.split_last().unwrap();
    [others, &[last | 128], &vec![128; more], &[0]].concat()
}

// Beginnings of a row: of both kinds, of kinds that are none, with needless or too many groups, with a number gone or one too many.
pub fn heads() -> Vec<Vec<u8>> {
    let mut list: Vec<Vec<u8>> =
        [&[][..], &[0], &[1], &[2], &[2, 0], &[1, 2], &[0, 0, 2], &[0, 2, 0], &[0, 2, 0, 2]].map(<[u8]>::to_vec).into();
    let kinds = [0, 1, 2, 3, 4, 10, 127, 128, 130, 258, (1 << 32) + 2, 1 << 63, (1 << 63) + 2, u64::MAX];
    list.extend(kinds.map(|kind| groups(0).chain(groups(kind)).collect()));
    for more in [0, 1, 7, 8, 9] {
        list.push([&lengthened(&[0], more)[..], &[2]].concat());
        list.push([&[0], &lengthened(&[2], more)[..]].concat());
    }
    for long in too_long() {
        list.push([&long[..], &[2]].concat());
        list.push([&[0], &long[..]].concat());
    }
    list
}

// The row behind the head, with as many tolerances as a kind of record has.
pub fn body(record: &Record, record_kind: u64) -> Vec<u8> {
    let whole = bytes(&Record { record_kind, ..record.clone() });
    whole[if record_kind == 1 { 0 } else { 2 }..].to_vec()
}

// No tolerances: not finite, zeros, below zero, just below 2^-300 and far below.
const BAD_TOLERANCES: [u64; 9] = [
    0x7ff0_0000_0000_0000,
    0xfff0_0000_0000_0000,
    0x7ff8_0000_0000_0000,
    0xfff0_0000_0000_0001,
    0x0000_0000_0000_0000,
    0x8000_0000_0000_0000,
    0xbff0_0000_0000_0000,
    0x2d2f_ffff_ffff_ffff,
    0x0000_0000_0000_0001,
];

// The record with its tolerances the other way round, and with each of them bad.
pub fn other_tolerances(record: &Record) -> Vec<Vec<u8>> {
    let with = |value_tolerance: u64, point_tolerance: u64| bytes(&Record { value_tolerance, point_tolerance, ..record.clone() });
    let (value, point) = (record.value_tolerance, record.point_tolerance);
    let bad = BAD_TOLERANCES.into_iter().flat_map(|bad| [with(bad, point), with(value, bad), with(bad, bad)]);
    [with(point, value)].into_iter().chain(bad).collect()
}

fn random_bytes(r: &mut Random, many: u64) -> Vec<u8> {
    (0..many).map(|_| r.next() as u8).collect()
}

// A place in a list of so many.
fn place(r: &mut Random, many: usize) -> usize {
    r.below(many.max(1) as u64) as usize
}

fn flip(r: &mut Random, mut buffer: Vec<u8>) -> Vec<u8> {
    let at = place(r, buffer.len());
    if let Some(byte) = buffer.get_mut(at) {
        *byte ^= 1 << r.below(8);
    }
    buffer
}

fn insert(r: &mut Random, mut buffer: Vec<u8>) -> Vec<u8> {
    let at = place(r, buffer.len() + 1);
    let byte = r.next() as u8;
    buffer.insert(at, r.pick(&[byte, 0x00, 0x80, 0xff, 0x01]));
    buffer
}

fn remove(r: &mut Random, mut buffer: Vec<u8>) -> Vec<u8> {
    if !buffer.is_empty() {
        buffer.remove(place(r, buffer.len()));
    }
    buffer
}

// Another number in the place of one: an edge, one that is too long, or the same with needless groups.
fn replace(r: &mut Random, buffer: Vec<u8>) -> Vec<u8> {
    let mut numbers = numbers_in(&buffer);
    let at = place(r, numbers.len());
    let Some(number) = numbers.get_mut(at) else { return buffer };
    let long = too_long();
    *number = match r.below(4) {
        0 => lengthened(number, [0, 0, 1, 9, 20][place(r, 5)]),
        1 => long[place(r, long.len())].clone(),
        _ => groups(r.pick(&EDGES)).collect(),
    };
    numbers.concat()
}

// Two joined, with a piece of each in the other's place.
fn join(r: &mut Random, buffer: Vec<u8>, other: &[u8]) -> Vec<u8> {
    let mut numbers = numbers_in(&[&buffer, other].concat());
    let many = numbers.len();
    for _ in 0..r.between(1, 3) {
        numbers.swap(place(r, many), place(r, many));
    }
    numbers.concat()
}

// The beginning of one and the end of another.
fn cross(r: &mut Random, buffer: Vec<u8>, other: &[u8]) -> Vec<u8> {
    let (first, second) = (numbers_in(&buffer), numbers_in(other));
    let (i, j) = (place(r, first.len() + 1), place(r, second.len() + 1));
    [first[..i].concat(), second[j..].concat()].concat()
}

fn cut(r: &mut Random, mut buffer: Vec<u8>) -> Vec<u8> {
    buffer.truncate(place(r, buffer.len() + 1));
    buffer
}

// Random bytes, some of them with a beginning that is often right.
fn random(r: &mut Random) -> Vec<u8> {
    let mut begin = if r.one_in(2) { vec![r.between(1, 5) as u8, r.between(1, 4) as u8] } else { Vec::new() };
    if r.one_in(2) {
        begin.splice(..0, [0, 2]);
    }
    let many = r.pick(&[8, 40, 300]);
    let many = r.below(many);
    let mut rest = random_bytes(r, many);
    if r.one_in(2) {
        rest.iter_mut().for_each(|byte| *byte >>= r.below(8));
    }
    [begin, rest].concat()
}

// A record with another number of coefficients, starts or numbers than it may have, or as many as it may.
fn reshaped(r: &mut Random, record: &Record) -> Vec<u8> {
    let mut other = record.clone();
    match r.below(6) {
        0 => other.coefficients.resize(r.pick(&[0, 0, 1, 16, 17, 17, 18, 127, 128]), 0),
        1 => other.starts.resize(r.pick(&[0, 1, 2, 3]), 0),
        2 => other.numbers.resize(r.pick(&[0, 1, 2, 3, 4]), 0),
        3 => other.record_kind = r.pick(&[0, 1, 1, 2, 2, 3, 258, u64::MAX]),
        4 => (other.value_tolerance, other.point_tolerance) = (other.point_tolerance, r.pick(&EDGES)),
        _ => {
            other.kind = r.between(0, 21) as u64;
            other.numbers.resize(crate::record::numbers(other.kind) as usize, 0);
        }
    }
    bytes(&other)
}

// Any head before the row that either kind has behind it.
fn headed(r: &mut Random, record: &Record) -> Vec<u8> {
    let heads = heads();
    [heads[place(r, heads.len())].clone(), body(record, r.pick(&[1, 2]))].concat()
}

// A buffer depends on the seed, its index and the records.
pub fn damaged(seed: u64, index: u64, records: &[Record]) -> Vec<u8> {
    let r = &mut Random::new(seed ^ 0x7265_636f_7264, index);
    let record = &records[place(r, records.len())];
    match r.below(16) {
        0..=1 => return random(r),
        2..=3 => return reshaped(r, record),
        4 => return headed(r, record),
        _ => {}
    }
    let mut buffer = bytes(record);
    for _ in 0..r.between(1, 3) {
        let other = bytes(&records[place(r, records.len())]);
        buffer = match r.below(10) {
            0..=1 => flip(r, buffer),
            2 => insert(r, buffer),
            3 => remove(r, buffer),
            4..=6 => replace(r, buffer),
            7 => join(r, buffer, &other),
            8 => cross(r, buffer, &other),
            _ => cut(r, buffer),
        };
    }
    buffer
}

// What may follow a record: random bytes, endings and beginnings of numbers, another record.
pub fn tails(seed: u64, index: u64, other: &Record) -> Vec<Vec<u8>> {
    let r = &mut Random::new(seed ^ 0x7461_696c, index);
    let mut list = vec![vec![0x00], vec![0x80], vec![0xff; 12], vec![0x00; 300], bytes(other)];
    for _ in 0..5 {
        let many = r.between(1, 40) as u64;
        list.push(random_bytes(r, many));
    }
    list
}
