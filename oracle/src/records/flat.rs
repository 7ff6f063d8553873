// What include/roots.h takes and gives of a record, doubles by their bits: as the second route has it, and as the archive does.

use crate::record::{self, Record, NO_RECORD};

// A call and an answer to be written. Some of it may not be looked at.
#[derive(Clone)]
pub struct Flat {
    pub record_kind: u64,
    pub coefficients: Vec<u64>,
    pub method: u64,
    pub first: u64,
    pub second: u64,
    pub value_tolerance: u64,
    pub point_tolerance: u64,
    pub limit: u64,
    pub kind: u64,
    pub numbers: [u64; 3],
    pub tallies: [u64; 4],
}

// What reading leaves in its buffers.
#[derive(PartialEq)]
pub struct Reading {
    pub result: u64,
    pub coefficients: [u64; 16],
    pub points: [u64; 4],
    pub numbers: [u64; 3],
    pub tallies: [u64; 4],
    pub words: [u64; 6],
}

// What writing leaves, with the whole buffer.
#[derive(PartialEq)]
pub struct Writing {
    pub result: u64,
    pub length: u64,
    pub buffer: Vec<u8>,
}

// The list with zeros behind it.
fn filled<const N: usize>(list: &[u64]) -> [u64; N] {
    std::array::from_fn(|i| list.get(i).copied().unwrap_or(0))
}

impl Flat {
    pub fn of(record: &Record) -> Self {
        Flat {
            record_kind: record.record_kind,
            coefficients: record.coefficients.clone(),
            method: record.method,
            first: record.starts[0],
            second: record.starts.get(1).copied().unwrap_or(0),
            value_tolerance: record.value_tolerance,
            point_tolerance: record.point_tolerance,
            limit: record.limit,
            kind: record.kind,
            numbers: filled(&record.numbers),
            tallies: [record.steps, record.values, record.derivatives, record.mark],
        }
    }

    // Only what a method and a kind have is taken.
    pub fn record(&self) -> Record {
        let [steps, values, derivatives, mark] = self.tallies;
        Record {
            record_kind: self.record_kind,
            method: self.method,
            coefficients: self.coefficients.clone(),
            starts: [self.first, self.second][..record::starts(self.method) as usize].to_vec(),
            value_tolerance: self.value_tolerance,
            point_tolerance: self.point_tolerance,
            limit: self.limit,
            kind: self.kind,
            numbers: self.numbers[..record::numbers(self.kind) as usize].to_vec(),
            steps,
            values,
            derivatives,
            mark,
        }
    }
}

// More bytes than are lent, so that writing behind them is seen.
pub const BEHIND: usize = 8;

// What a buffer holds before it is lent: other bytes for each room.
pub fn pattern(room: usize) -> Vec<u8> {
    (0..room + BEHIND).map(|i| (i * 37 + room * 101 + 11) as u8).collect()
}

pub fn read(bytes: &[u8]) -> Reading {
    let Some((record, length)) = record::read(bytes) else {
        return Reading {
            result: NO_RECORD,
            coefficients: [0; 16],
            points: [0; 4],
            numbers: [0; 3],
            tallies: [0; 4],
            words: [0; 6],
        };
    };
    let second = record.starts.get(1).copied().unwrap_or(0);
    Reading {
        result: 0,
        coefficients: filled(&record.coefficients),
        points: [record.starts[0], second, record.value_tolerance, record.point_tolerance],
        numbers: filled(&record.numbers),
        tallies: [record.steps, record.values, record.derivatives, record.mark],
        words: [length as u64, record.method, record.coefficients.len() as u64, record.limit, record.kind, record.record_kind],
    }
}

pub fn write(flat: &Flat, room: usize) -> Writing {
    let mut buffer = pattern(room);
    let (result, length) = match record::write(&flat.record(), &mut buffer[..room]) {
        Ok(length) => (0, length as u64),
        Err(refusal) => (refusal, 0),
    };
    Writing { result, length, buffer }
}

#[cfg(archive)]
pub mod archive {
    use super::{pattern, Flat, Reading, Writing};

    // Double buffers are lent as words of the same size.
    extern "C" {
        fn roots_record_write(
            record_kind: u64,
            coefficients: *const u64,
            count: usize,
            method: u64,
            first: f64,
            second: f64,
            value_tolerance: f64,
            point_tolerance: f64,
            limit: u64,
            kind: u64,
            numbers: *const [u64; 3],
            tallies: *const [u64; 4],
            bytes: *mut u8,
            room: usize,
            length: *mut u64,
        ) -> u64;
        fn roots_record_read(
            bytes: *const u8,
            room: usize,
            coefficients: *mut [u64; 16],
            points: *mut [u64; 4],
            numbers: *mut [u64; 3],
            tallies: *mut [u64; 4],
            words: *mut [u64; 6],
        ) -> u64;
    }

    // Stands in every word before a call, so that one which is not written is seen.
    const OLD: u64 = 0x5a5a_a5a5_1234_9876;

    // No bytes may come with a null pointer.
    pub fn read(bytes: &[u8]) -> Reading {
        let from = if bytes.is_empty() { std::ptr::null() } else { bytes.as_ptr() };
        let mut r = Reading {
            result: 0,
            coefficients: [OLD; 16],
            points: [OLD; 4],
            numbers: [OLD; 3],
            tallies: [OLD; 4],
            words: [OLD; 6],
        };
        // SAFETY: the pointers are to live buffers of the sizes asked for, which do not overlap.
        r.result = unsafe {
            roots_record_read(from, bytes.len(), &mut r.coefficients, &mut r.points, &mut r.numbers, &mut r.tallies, &mut r.words)
        };
        r
    }

    pub fn write(flat: &Flat, room: usize) -> Writing {
        let a = &flat.coefficients;
        let from = if a.is_empty() { std::ptr::null() } else { a.as_ptr() };
        let mut buffer = pattern(room);
        let to = if room == 0 { std::ptr::null_mut() } else { buffer.as_mut_ptr() };
        let doubles = [flat.first, flat.second, flat.value_tolerance, flat.point_tolerance];
        let [first, second, value_tolerance, point_tolerance] = doubles.map(f64::from_bits);
        let mut length = OLD;
        // SAFETY: the pointers are to live buffers of the sizes given, which do not overlap.
        let result = unsafe {
            roots_record_write(
                flat.record_kind,
                from,
                a.len(),
                flat.method,
                first,
                second,
                value_tolerance,
                point_tolerance,
                flat.limit,
                flat.kind,
                &flat.numbers,
                &flat.tallies,
                to,
                room,
                &mut length,
            )
        };
        Writing { result, length, buffer }
    }
}
