// Records written and read by the proved archive and by plain Rust, timed side by side.

use crate::calls::{calls_of, Call, Method, Row, COUNTS, METHODS};
use crate::fail;
use crate::plain::{self, Record, LONGEST, NEWEST};
use crate::record_sides::{agree, former_agrees, former_read, former_write, proved_read, proved_write, Read};
use crate::sides::proved;
use crate::timing::{batch, passes_of, BATCHES};

#[derive(Clone, Copy, PartialEq)]
pub enum Work {
    Writing,
    Reading,
}

pub const WORKS: [Work; 2] = [Work::Writing, Work::Reading];

impl Work {
    pub fn words(self) -> &'static str {
        match self {
            Work::Writing => "writing",
            Work::Reading => "reading",
        }
    }
}

#[derive(Clone, Copy)]
pub enum Side {
    Proved,
    Rust,
    // Another archive, under other names: see build.rs.
    Former,
}

pub const SIDES: [Side; 2] = [Side::Proved, Side::Rust];

const OF_EACH_METHOD: usize = 100;

fn record_of(call: &Call) -> Record {
    let answer = proved(call);
    let mut record = Record {
        record_kind: NEWEST,
        method: call.method as u64,
        count: call.coefficients().len(),
        first: call.first,
        second: call.second,
        value_tolerance: call.value_tolerance,
        point_tolerance: call.point_tolerance,
        limit: call.limit,
        kind: answer.kind,
        numbers: answer.numbers,
        tallies: answer.tallies,
        ..Record::default()
    };
    record.a[..record.count].copy_from_slice(call.coefficients());
    record
}

// The first searches of a method that found a root by its value.
fn by_value(method: Method, count: usize) -> Vec<Record> {
    let calls = calls_of(Row::Search, method, count);
    let records: Vec<Record> = calls.iter().map(record_of).filter(|record| record.kind == 0).take(OF_EACH_METHOD).collect();
    if records.len() < OF_EACH_METHOD {
        fail("too few searches found a root by its value");
    }
    records
}

// The methods in turn.
fn records_of(count: usize) -> Vec<Record> {
    let by_method = METHODS.map(|method| by_value(method, count));
    (0..OF_EACH_METHOD).flat_map(|i| by_method.each_ref().map(|records| records[i].clone())).collect()
}

// A record's part in a sum: its length, and a byte in its middle.
#[inline(always)]
fn number_of_written(bytes: &[u8], length: usize) -> u64 {
    length as u64 + u64::from(bytes[length / 2])
}

// A record's part in a sum: its length, the root and the steps.
#[inline(always)]
fn number_of_read(length: usize, root: f64, steps: u64) -> u64 {
    root.to_bits().wrapping_add(steps).wrapping_add(length as u64)
}

#[inline(always)]
fn writes_by(write: impl Fn(&Record, &mut [u8]) -> (u64, usize), records: &[Record]) -> u64 {
    let mut bytes = [0; LONGEST];
    records.iter().fold(0, |sum, record| {
        let (_, length) = write(record, &mut bytes);
        sum.wrapping_add(number_of_written(&bytes, length))
    })
}

#[inline(never)]
fn proved_writes(records: &[Record]) -> u64 {
    writes_by(proved_write, records)
}

#[inline(never)]
fn former_writes(records: &[Record]) -> u64 {
    writes_by(former_write, records)
}

#[inline(never)]
fn rust_writes(records: &[Record]) -> u64 {
    let mut bytes = [0; LONGEST];
    records.iter().fold(0, |sum, record| {
        let length = plain::write(record, &mut bytes).unwrap_or(0);
        sum.wrapping_add(number_of_written(&bytes, length))
    })
}

// The records stand one behind the other, as in a file. What is left behind the last one, nothing, is refused.
#[inline(always)]
fn reads_by(read_bytes: impl Fn(&[u8]) -> Read, mut file: &[u8]) -> u64 {
    let mut sum = 0;
    loop {
        let read = read_bytes(file);
        if read.refused != 0 {
            return sum;
        }
        sum = number_of_read(read.length(), read.numbers[0], read.tallies[0]).wrapping_add(sum);
        file = &file[read.length()..];
    }
}

#[inline(never)]
fn proved_reads(file: &[u8]) -> u64 {
    reads_by(proved_read, file)
}

#[inline(never)]
fn former_reads(file: &[u8]) -> u64 {
    reads_by(former_read, file)
}

#[inline(never)]
fn rust_reads(mut file: &[u8]) -> u64 {
    let mut sum = 0;
    while let Ok((record, length)) = plain::read(file) {
        sum = number_of_read(length, record.numbers[0], record.tallies[0]).wrapping_add(sum);
        file = &file[length..];
    }
    sum
}

// A record's bytes, by plain Rust.
fn bytes_of(record: &Record) -> Vec<u8> {
    let mut bytes = [0; LONGEST];
    let Ok(length) = plain::write(record, &mut bytes) else { fail("a search has no record") };
    bytes[..length].to_vec()
}

// The records of a number of coefficients, and their bytes one behind the other.
pub struct Drawn {
    records: Vec<Record>,
    lengths: Vec<usize>,
    file: Vec<u8>,
}

impl Drawn {
    pub fn new(count: usize) -> Drawn {
        let (records, mut lengths, mut file) = (records_of(count), Vec::new(), Vec::new());
        for record in &records {
            let bytes = bytes_of(record);
            lengths.push(bytes.len());
            file.extend(bytes);
        }
        Drawn { records, lengths, file }
    }

    // Each record with its bytes.
    fn each(&self) -> impl Iterator<Item = (&Record, &[u8])> {
        let mut at = 0;
        self.records.iter().zip(&self.lengths).map(move |(record, length)| {
            at += length;
            (record, &self.file[at - length..at])
        })
    }

    // Of each record its other kind too, and two tolerances that differ.
    fn check(&self) {
        for (record, bytes) in self.each() {
            let old = Record { record_kind: 1, ..record.clone() };
            let apart = Record { point_tolerance: 0.5, ..record.clone() };
            if !agree(record, bytes) || !agree(&old, &bytes_of(&old)) || !agree(&apart, &bytes_of(&apart)) {
                fail(&format!("the sides differ about a record: {record:?}"));
            }
        }
    }

    // Whether the other archive writes and reads each record as this one does.
    pub fn former_agrees(&self) -> bool {
        self.each().all(|(record, bytes)| former_agrees(record, bytes))
    }

    pub fn summed(&self, work: Work, side: Side) -> u64 {
        match (work, side) {
            (Work::Writing, Side::Proved) => proved_writes(&self.records),
            (Work::Writing, Side::Rust) => rust_writes(&self.records),
            (Work::Writing, Side::Former) => former_writes(&self.records),
            (Work::Reading, Side::Proved) => proved_reads(&self.file),
            (Work::Reading, Side::Rust) => rust_reads(&self.file),
            (Work::Reading, Side::Former) => former_reads(&self.file),
        }
    }

    pub fn len(&self) -> usize {
        self.records.len()
    }

    // What each side must sum to.
    pub fn expected(&self, work: Work) -> u64 {
        self.each().fold(0, |sum, (record, bytes)| {
            sum.wrapping_add(match work {
                Work::Writing => number_of_written(bytes, bytes.len()),
                Work::Reading => number_of_read(bytes.len(), record.numbers[0], record.tallies[0]),
            })
        })
    }
}

pub struct Cell {
    work: Work,
    count: usize,
    drawn: Drawn,
    expected: u64,
    passes: [usize; 2],
    // Nanoseconds for all records, by side: the least batch of all rounds.
    least: [f64; 2],
}

impl Cell {
    // The sides are compared here, before anything is timed.
    fn new(work: Work, count: usize) -> Cell {
        let drawn = Drawn::new(count);
        drawn.check();
        let expected = drawn.expected(work);
        let passes = SIDES.map(|side| passes_of(|| drawn.summed(work, side), expected));
        Cell { work, count, drawn, expected, passes, least: [f64::INFINITY; 2] }
    }

    // The sides in turn.
    pub fn round(&mut self) {
        for _ in 0..BATCHES {
            for (i, side) in SIDES.into_iter().enumerate() {
                let taken = batch(|| self.drawn.summed(self.work, side), self.passes[i], self.expected) / self.passes[i] as f64;
                self.least[i] = self.least[i].min(taken);
            }
        }
    }

    fn time(&self, side: Side) -> f64 {
        self.least[side as usize] / self.drawn.len() as f64
    }

    fn ratio(&self) -> f64 {
        self.time(Side::Proved) / self.time(Side::Rust)
    }

    // The mean length, and in brackets the least and the greatest.
    fn bytes(&self) -> String {
        let lengths = &self.drawn.lengths;
        let mean = self.drawn.file.len() as f64 / lengths.len() as f64;
        let (least, greatest) = (lengths.iter().min(), lengths.iter().max());
        format!("{mean:.1} ({} to {})", least.unwrap_or(&0), greatest.unwrap_or(&0))
    }

    fn print(&self) {
        println!(
            "| {} | {} | {} | {} | {:.1} | {:.1} | {:.2} |",
            self.work.words(),
            self.count,
            self.drawn.len(),
            self.bytes(),
            self.time(Side::Proved),
            self.time(Side::Rust),
            self.ratio()
        );
    }
}

pub fn cells() -> Vec<Cell> {
    WORKS.into_iter().flat_map(|work| COUNTS.map(|count| Cell::new(work, count))).collect()
}

pub fn tables(cells: &[Cell]) {
    println!("\n## Records of searches that found a root by its value\n");
    println!("| | coefficients | records | bytes (least to greatest) | proved, ns | Rust, ns | ratio |");
    println!("|---|--:|--:|--:|--:|--:|--:|");
    cells.iter().for_each(Cell::print);
    println!("\n| proved / Rust | 1 | 2 | 4 | 8 | 16 |\n|---|--:|--:|--:|--:|--:|");
    for work in WORKS {
        let words: Vec<String> = cells.iter().filter(|cell| cell.work == work).map(|cell| format!("{:.2}", cell.ratio())).collect();
        println!("| {} | {} |", work.words(), words.join(" | "));
    }
}
