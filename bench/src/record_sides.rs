// One record on either side, written and read, and whether the sides agree about it.

use crate::plain::{self, Record, LONGEST};
use std::mem::MaybeUninit;

// As include/roots.h says: record's kind, coefficients, count, method, both starts, both tolerances, limit, kind, numbers, tallies, bytes, room, length.
type Write =
    unsafe extern "C" fn(u64, *const f64, usize, u64, f64, f64, f64, f64, u64, u64, *const f64, *const u64, *mut u8, usize, *mut u64) -> u64;
// Bytes, room, coefficients, points, numbers, tallies, words.
type ReadBytes = unsafe extern "C" fn(*const u8, usize, *mut f64, *mut f64, *mut f64, *mut u64, *mut u64) -> u64;

macro_rules! records_as {
    ($write:ident, $read:ident) => {
        extern "C" {
            fn $write(
                record_kind: u64, a: *const f64, count: usize, method: u64, first: f64, second: f64, value_tolerance: f64,
                point_tolerance: f64, limit: u64, kind: u64, numbers: *const f64, tallies: *const u64, bytes: *mut u8, room: usize,
                length: *mut u64,
            ) -> u64;
            fn $read(
                bytes: *const u8, room: usize, a: *mut f64, points: *mut f64, numbers: *mut f64, tallies: *mut u64,
                words: *mut u64,
            ) -> u64;
        }
    };
}
records_as!(roots_record_write, roots_record_read);
records_as!(former_roots_record_write, former_roots_record_read);

// The refusal, or 0, and the length.
#[inline(always)]
fn written_by(write: Write, record: &Record, bytes: &mut [u8]) -> (u64, usize) {
    let mut length = MaybeUninit::<u64>::uninit();
    let a = &record.a[..record.count];
    // SAFETY: the pointers are to live memory of the lengths that the function is told, reads or writes, nothing is kept, and
    // the length is always written.
    unsafe {
        let refused = write(
            record.record_kind,
            a.as_ptr(),
            a.len(),
            record.method,
            record.first,
            record.second,
            record.value_tolerance,
            record.point_tolerance,
            record.limit,
            record.kind,
            record.numbers.as_ptr(),
            record.tallies.as_ptr(),
            bytes.as_mut_ptr(),
            bytes.len(),
            length.as_mut_ptr(),
        );
        (refused, length.assume_init() as usize)
    }
}

#[inline(always)]
pub fn proved_write(record: &Record, bytes: &mut [u8]) -> (u64, usize) {
    written_by(roots_record_write, record, bytes)
}

#[inline(always)]
pub fn former_write(record: &Record, bytes: &mut [u8]) -> (u64, usize) {
    written_by(former_roots_record_write, record, bytes)
}

// What the proved reader writes.
pub struct Read {
    pub refused: u64,
    a: [f64; 16],
    points: [f64; 4],
    pub numbers: [f64; 3],
    pub tallies: [u64; 4],
    words: [u64; 6],
}

impl Read {
    pub fn length(&self) -> usize {
        self.words[0] as usize
    }
}

#[inline(always)]
fn read_by(read_bytes: ReadBytes, bytes: &[u8]) -> Read {
    let mut read = MaybeUninit::<Read>::uninit();
    let at = read.as_mut_ptr();
    // SAFETY: the pointers are to live memory of the lengths that the function is told or writes, nothing is kept, and all is written.
    unsafe {
        (*at).refused = read_bytes(
            bytes.as_ptr(),
            bytes.len(),
            (*at).a.as_mut_ptr(),
            (*at).points.as_mut_ptr(),
            (*at).numbers.as_mut_ptr(),
            (*at).tallies.as_mut_ptr(),
            (*at).words.as_mut_ptr(),
        );
        read.assume_init()
    }
}

#[inline(always)]
pub fn proved_read(bytes: &[u8]) -> Read {
    read_by(roots_record_read, bytes)
}

#[inline(always)]
pub fn former_read(bytes: &[u8]) -> Read {
    read_by(former_roots_record_read, bytes)
}

// Both readers must give the same record, bit for bit, and the same length; or both must refuse, the proved one with all zero.
fn reads_the_same(bytes: &[u8]) -> bool {
    let one = proved_read(bytes);
    let (refused, other, length) = match plain::read(bytes) {
        Ok((other, length)) => (0, other, length),
        Err(refused) => (refused as u64, Record::default(), 0),
    };
    one.refused == refused
        && one.words == [length as u64, other.method, other.count as u64, other.limit, other.kind, other.record_kind]
        && one.a.map(f64::to_bits) == other.a.map(f64::to_bits)
        && one.points.map(f64::to_bits) == [other.first, other.second, other.value_tolerance, other.point_tolerance].map(f64::to_bits)
        && one.numbers.map(f64::to_bits) == other.numbers.map(f64::to_bits)
        && one.tallies == other.tallies
}

// Both archives must read all of it alike, and write the same bytes.
pub fn former_agrees(record: &Record, bytes: &[u8]) -> bool {
    let all = |read: Read| {
        let doubles = (read.a.map(f64::to_bits), read.points.map(f64::to_bits), read.numbers.map(f64::to_bits));
        (read.refused, doubles, read.tallies, read.words)
    };
    let (mut one, mut other) = ([0xee; LONGEST], [0xee; LONGEST]);
    proved_write(record, &mut one) == former_write(record, &mut other) && one == other && all(proved_read(bytes)) == all(former_read(bytes))
}

// Both writers must leave the same bytes of the whole buffer, and give the same length or refusal.
fn writes_the_same(record: &Record, room: usize) -> bool {
    let (mut one, mut other) = ([0xee; LONGEST], [0xee; LONGEST]);
    let written = proved_write(record, &mut one[..room]);
    let also = match plain::write(record, &mut other[..room]) {
        Ok(length) => (0, length),
        Err(refused) => (refused as u64, 0),
    };
    written == also && one == other
}

// Calls and answers that have no record, each with one thing wrong.
fn spoiled(record: &Record) -> Vec<Record> {
    let spoilers: [fn(&mut Record); 18] = [
        |record| record.record_kind = 0,
        |record| record.record_kind = 3,
        |record| (record.record_kind, record.value_tolerance) = (1, 1.0),
        |record| (record.record_kind, record.point_tolerance) = (1, 1.0),
        |record| record.method = 0,
        |record| record.method = 6,
        |record| record.count = 0,
        |record| record.a[record.count - 1] = f64::NAN,
        |record| record.first = f64::INFINITY,
        |record| record.second = f64::NEG_INFINITY,
        |record| record.value_tolerance = f64::NAN,
        |record| record.value_tolerance = 1e-91,
        |record| record.point_tolerance = f64::NAN,
        |record| record.point_tolerance = 1e-91,
        |record| record.limit = 401,
        |record| record.kind = 15,
        |record| record.numbers[1] = f64::NAN,
        |record| record.tallies[3] = 3,
    ];
    let spoil = |spoiler: fn(&mut Record)| {
        let mut other = record.clone();
        spoiler(&mut other);
        other
    };
    spoilers.into_iter().map(spoil).collect()
}

// Whether both sides agree: on the bytes, on too little room, on what has no record, on every cut, and on every bit that is turned.
pub fn agree(record: &Record, bytes: &[u8]) -> bool {
    let mut turned = bytes.to_vec();
    let read_turned = |bit: usize| {
        turned[bit / 8] ^= 1 << (bit % 8);
        let same = reads_the_same(&turned);
        turned[bit / 8] ^= 1 << (bit % 8);
        same
    };
    proved_write(record, &mut [0; LONGEST]) == (0, bytes.len())
        && writes_the_same(record, LONGEST)
        && spoiled(record).iter().all(|other| writes_the_same(other, LONGEST) && writes_the_same(other, 0))
        && (0..=bytes.len()).all(|end| writes_the_same(record, end) && reads_the_same(&bytes[..end]))
        && (0..8 * bytes.len()).all(read_turned)
}
