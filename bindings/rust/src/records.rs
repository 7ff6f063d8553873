// Searches on file: the record of a call and its answer, written and read by the proved archive.
use crate::{answer_of, Convergency, Found, Reason, Refusal};
use std::error::Error;
use std::fmt;

// Nothing checks these declarations against the proved source: they say what include/roots.h says.
extern "C" {
    fn roots_record_write(
        record_kind: u64,
        coefficients: *const f64,
        count: usize,
        method: u64,
        first: f64,
        second: f64,
        value_tolerance: f64,
        point_tolerance: f64,
        limit: u64,
        kind: u64,
        numbers: *const f64,
        tallies: *const u64,
        bytes: *mut u8,
        room: usize,
        length: *mut u64,
    ) -> u64;
    fn roots_record_read(
        bytes: *const u8,
        room: usize,
        coefficients: *mut f64,
        points: *mut f64,
        numbers: *mut f64,
        tallies: *mut u64,
        words: *mut u64,
    ) -> u64;
}

const MOST_COEFFICIENTS: usize = 16;

/// A method with its starts, in the order of the call that has its name.
#[derive(Debug, Clone, Copy, PartialEq)]
pub enum Method {
    /// `find_root_brent`
    Brent {
        /// One end.
        from: f64,
        /// The other end.
        to: f64,
    },
    /// `find_root_regula_falsi`
    RegulaFalsi {
        /// One end.
        from: f64,
        /// The other end.
        to: f64,
    },
    /// `find_root_secant`
    Secant {
        /// The first point.
        first: f64,
        /// The second point.
        second: f64,
    },
    /// `find_root_newton_raphson`
    NewtonRaphson {
        /// The only start.
        start: f64,
    },
    /// `find_root_polynom`
    Polynom {
        /// One end.
        from: f64,
        /// The other end.
        to: f64,
    },
}

impl Method {
    // The method's number and both starts; Newton's second one is zero.
    fn flat(self) -> (u64, f64, f64) {
        match self {
            Method::Brent { from, to } => (1, from, to),
            Method::RegulaFalsi { from, to } => (2, from, to),
            Method::Secant { first, second } => (3, first, second),
            Method::NewtonRaphson { start } => (4, start, 0.0),
            Method::Polynom { from, to } => (5, from, to),
        }
    }

    fn of(number: u64, first: f64, second: f64) -> Option<Method> {
        match number {
            1 => Some(Method::Brent { from: first, to: second }),
            2 => Some(Method::RegulaFalsi { from: first, to: second }),
            3 => Some(Method::Secant { first, second }),
            4 => Some(Method::NewtonRaphson { start: first }),
            5 => Some(Method::Polynom { from: first, to: second }),
            _ => None,
        }
    }
}

/// Why there is no record.
#[derive(Debug, Clone, Copy, PartialEq, Eq)]
pub enum RecordError {
    /// Refusal 10: the buffer to be written to is shorter than the record.
    NoRoom = 10,
    /// Refusal 11: the bytes, or the call and answer to be written, are no record.
    NoRecord = 11,
}

impl RecordError {
    /// 10 or 11.
    pub fn number(self) -> u8 {
        self as u8
    }

    /// The refusal in words.
    pub fn words(self) -> &'static str {
        match self {
            RecordError::NoRoom => "the buffer is too short for the record",
            RecordError::NoRecord => "the bytes, or the call and its answer, are no record",
        }
    }

    fn of(number: u64) -> RecordError {
        match number {
            10 => RecordError::NoRoom,
            _ => RecordError::NoRecord,
        }
    }
}

impl fmt::Display for RecordError {
    fn fmt(&self, f: &mut fmt::Formatter) -> fmt::Result {
        write!(f, "refusal {}: {}", self.number(), self.words())
    }
}

impl Error for RecordError {}

/// A search on file: the call, and what it gave back. docs/RECORDS.md lays out the bytes.
///
/// ```
/// use chhorlaneak_roots::{find_root_brent, Method, Record, SimpleConvergency};
///
/// let a = [0.0, -2.0];
/// let mut convergency = SimpleConvergency { eps: 1e-9f64, max_iter: 300 };
/// let answer = find_root_brent(0f64, 2f64, &a, &mut convergency);
/// let record = Record::new(Method::Brent { from: 0.0, to: 2.0 }, &a, &convergency, answer)?;
///
/// let mut bytes = [0; Record::LONGEST];
/// let length = record.write(&mut bytes)?;
/// assert_eq!(Record::read(&bytes)?, (record, length));
/// # Ok::<(), chhorlaneak_roots::RecordError>(())
/// ```
///
/// Two records are equal where they are of one kind and hold the same bits: 0.0 and -0.0 differ, and a NaN equals itself.
#[derive(Clone, Copy)]
pub struct Record {
    /// 2, or 1 where an older program wrote it: that kind has one tolerance for values and points. A record is written in its own kind.
    pub kind: u8,
    /// The method, with its starts.
    pub method: Method,
    /// The value tolerance of the call.
    pub value_tolerance: f64,
    /// The point tolerance of the call; in kind 1 it has the bits of the value tolerance.
    pub point_tolerance: f64,
    /// The greatest number of steps of the call.
    pub limit: u64,
    /// What the call gave back.
    pub answer: Result<Found, Refusal>,
    // Zero behind the first `count`, which is at most 16.
    coefficients: [f64; MOST_COEFFICIENTS],
    count: usize,
}

// The answer as include/roots.h has it.
struct FlatAnswer {
    kind: u64,
    numbers: [f64; 3],
    tallies: [u64; 4],
}

impl Record {
    /// No record has more bytes, so a buffer of this length always suffices.
    pub const LONGEST: usize = 268;

    /// The kind that `new` makes.
    pub const NEWEST: u8 = 2;

    /// The record of a call and its answer, of the newest kind. More than 16 coefficients are refused here, all else by `write`.
    pub fn new(
        method: Method,
        coefficients: &[f64],
        convergency: &dyn Convergency,
        answer: Result<Found, Refusal>,
    ) -> Result<Record, RecordError> {
        let count = coefficients.len();
        let mut held = [0.0; MOST_COEFFICIENTS];
        held.get_mut(..count).ok_or(RecordError::NoRecord)?.copy_from_slice(coefficients);
        Ok(Record {
            kind: Record::NEWEST,
            method,
            value_tolerance: convergency.value_tolerance(),
            point_tolerance: convergency.point_tolerance(),
            limit: convergency.limit(),
            answer,
            coefficients: held,
            count,
        })
    }

    /// The coefficients of the call.
    pub fn coefficients(&self) -> &[f64] {
        &self.coefficients[..self.count]
    }

    /// Writes the record to the start of a buffer, and gives its length. What is behind it stays.
    ///
    /// A kind other than 1 and 2, kind 1 with two different tolerances, a call that refusals 1 to 5 answer, a number that isn't
    /// finite, a refusal other than 6 to 9 and a mark above 2 are [`RecordError::NoRecord`]; then too short a buffer is
    /// [`RecordError::NoRoom`]. Either leaves all bytes as they were.
    pub fn write(&self, bytes: &mut [u8]) -> Result<usize, RecordError> {
        let (method, first, second) = self.method.flat();
        let a = self.coefficients();
        let answer = self.flat_answer();
        let mut length = 0u64;
        // SAFETY: the pointers are to live memory of the lengths that the function is told, reads or writes; none overlaps
        // another, since the bytes are lent to be changed, and nothing is kept.
        let refused = unsafe {
            roots_record_write(
                u64::from(self.kind),
                a.as_ptr(),
                a.len(),
                method,
                first,
                second,
                self.value_tolerance,
                self.point_tolerance,
                self.limit,
                answer.kind,
                answer.numbers.as_ptr(),
                answer.tallies.as_ptr(),
                bytes.as_mut_ptr(),
                bytes.len(),
                &mut length,
            )
        };
        match refused {
            0 => Ok(length as usize),
            number => Err(RecordError::of(number)),
        }
    }

    /// Reads the record at the start of a buffer, and gives its length too. What is behind it is not looked at.
    ///
    /// Both kinds are read, and whatever reads is written back as the same bytes.
    pub fn read(bytes: &[u8]) -> Result<(Record, usize), RecordError> {
        let (mut coefficients, mut points, mut numbers) = ([0.0; MOST_COEFFICIENTS], [0.0; 4], [0.0; 3]);
        let (mut tallies, mut words) = ([0u64; 4], [0u64; 6]);
        // SAFETY: the pointers are to live memory of the lengths that the function is told or writes; none overlaps another,
        // and nothing is kept.
        let refused = unsafe {
            roots_record_read(
                bytes.as_ptr(),
                bytes.len(),
                coefficients.as_mut_ptr(),
                points.as_mut_ptr(),
                numbers.as_mut_ptr(),
                tallies.as_mut_ptr(),
                words.as_mut_ptr(),
            )
        };
        if refused != 0 {
            return Err(RecordError::of(refused));
        }
        let [first, second, value_tolerance, point_tolerance] = points;
        let [length, method, count, limit, answer_kind, record_kind] = words;
        let (kind, count) = (record_kind as u8, count as usize);
        let method = Method::of(method, first, second).ok_or(RecordError::NoRecord)?;
        let answer = answer_of(answer_kind, numbers, tallies);
        Ok((Record { kind, method, value_tolerance, point_tolerance, limit, answer, coefficients, count }, length as usize))
    }

    fn flat_answer(&self) -> FlatAnswer {
        let (kind, numbers, tally) = match self.answer {
            Ok(Found { root, reason: Reason::ByValue { value }, tally }) => (0, [root, value, 0.0], tally),
            Ok(Found { root, reason: Reason::ByWidth { p, q }, tally }) => (1, [root, p, q], tally),
            Err(Refusal { number, tally }) => (10 + number as u64, [0.0; 3], tally),
        };
        FlatAnswer { kind, numbers, tallies: [tally.steps, tally.values, tally.derivatives, tally.mark as u64] }
    }
}

// All that a record holds, as bits; an unused place is zero.
fn all_bits(record: &Record) -> ([u64; MOST_COEFFICIENTS], [u64; 7], [u64; 5], [u64; 4]) {
    let (method, first, second) = record.method.flat();
    let FlatAnswer { kind, numbers: [n0, n1, n2], tallies } = record.flat_answer();
    let doubles = [first, second, record.value_tolerance, record.point_tolerance, n0, n1, n2].map(f64::to_bits);
    let words = [u64::from(record.kind), method, record.count as u64, record.limit, kind];
    (record.coefficients.map(f64::to_bits), doubles, words, tallies)
}

impl PartialEq for Record {
    fn eq(&self, other: &Record) -> bool {
        all_bits(self) == all_bits(other)
    }
}

impl Eq for Record {}

impl fmt::Debug for Record {
    fn fmt(&self, f: &mut fmt::Formatter) -> fmt::Result {
        f.debug_struct("Record")
            .field("kind", &self.kind)
            .field("method", &self.method)
            .field("coefficients", &self.coefficients())
            .field("value_tolerance", &self.value_tolerance)
            .field("point_tolerance", &self.point_tolerance)
            .field("limit", &self.limit)
            .field("answer", &self.answer)
            .finish()
    }
}
