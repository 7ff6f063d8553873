// The stored list, inputs/records.txt: KIND CALL = ANSWER = BYTES for a record, refused = BYTES for a buffer that is none.

use crate::damage::{body, lengthened, numbers_in};
use crate::families::{neighbour, power_of_two};
use crate::made::{self, CASES};
use crate::record::{bytes, groups, read, Record};
use crate::words::{hex, line_of, record_in};

const SEED: u64 = 1;

fn fail(reason: &str) -> ! {
    eprintln!("records: {reason}");
    std::process::exit(1);
}

// One of W1 to W13, out of cases.txt, in a record of that kind.
fn case(number: usize, record_kind: u64) -> Record {
    let name = format!(" W{number}:");
    let line = CASES.lines().find(|line| line.contains(&name));
    let record = line.and_then(|line| record_in(&format!("{record_kind} {}", line.split('#').next()?)));
    record.unwrap_or_else(|| fail(&format!("cases.txt has no{name}")))
}

const BEFORE: [&str; 6] = ["the method", "the count", "coefficient 0", "coefficient 1", "start 0", "start 1"];
const BEHIND: [&str; 9] =
    ["the limit", "the answer's kind", "the root", "p", "q", "the steps", "the values", "the derivatives", "the mark"];

fn head(record_kind: u64) -> &'static [&'static str] {
    match record_kind {
        1 => &[],
        _ => &["the 0", "the record's kind"],
    }
}

fn tolerances(record_kind: u64) -> &'static [&'static str] {
    match record_kind {
        1 => &["eps"],
        _ => &["the value tolerance", "the point tolerance"],
    }
}

// The numbers of W9, which has every field, in their order.
fn fields(record_kind: u64) -> Vec<&'static str> {
    [head(record_kind), &BEFORE, tolerances(record_kind), &BEHIND].concat()
}

// A record with the groups of one of its numbers replaced.
fn with(record: &Record, field: &str, number: &[u8]) -> Vec<u8> {
    let mut numbers = numbers_in(&bytes(record));
    let place = fields(record.record_kind).iter().position(|name| *name == field);
    numbers[place.unwrap_or_else(|| fail(&format!("no field has the name {field}")))] = number.to_vec();
    numbers.concat()
}

fn with_number(record: &Record, field: &str, number: u64) -> Vec<u8> {
    with(record, field, &groups(number).collect::<Vec<u8>>())
}

type Refused = Vec<(String, Vec<u8>)>;

// Buffers whose groups are no row of numbers, or too short a row.
fn refused_groups(kind: u64) -> Refused {
    let w9 = case(9, kind);
    let numbers = numbers_in(&bytes(&w9));
    let mut list = Vec::new();
    for (i, name) in fields(kind).into_iter().enumerate() {
        let before = numbers[..i].concat();
        let mut note = |what: String, bytes: Vec<u8>| list.push((what, bytes));
        if i > 0 {
            note(format!("ends before {name}"), before.clone());
        }
        if numbers[i].len() > 1 {
            note(format!("ends within {name}"), [&before, &numbers[i][..numbers[i].len() - 1]].concat());
        }
        note(format!("{name}: a needless last group"), with(&w9, name, &lengthened(&numbers[i], 0)));
        note(format!("{name}: a tenth group of 2"), with(&w9, name, &[vec![0x80; 9], vec![0x02]].concat()));
        note(format!("{name}: eleven groups"), with(&w9, name, &[vec![0x80; 10], vec![0x01]].concat()));
    }
    list
}

fn refused_doubles(kind: u64) -> Refused {
    let w9 = case(9, kind);
    let mut list = Vec::new();
    for field in [&BEFORE[2..], tolerances(kind), &BEHIND[2..5]].concat() {
        for (name, x) in [("infinite", f64::INFINITY), ("minus infinite", -f64::INFINITY), ("no number", f64::NAN)] {
            list.push((format!("{field}: {name}"), with_number(&w9, field, x.to_bits())));
        }
    }
    let least = power_of_two(-300);
    for field in tolerances(kind) {
        for (name, tolerance) in
            [("just below 2^-300", neighbour(least, -1)), ("2^-301", least / 2.0), ("0", 0.0), ("-0", -0.0), ("-4", -4.0)]
        {
            list.push((format!("{field}: {name}"), with_number(&w9, field, tolerance.to_bits())));
        }
    }
    list
}

// Numbers out of their range. Those that a shorter word would show in range are among them.
fn refused_words(kind: u64) -> Refused {
    let (w9, w13) = (case(9, kind), case(13, kind));
    let mut list = Vec::new();
    let mut note = |record: &Record, field: &str, number: u64| {
        list.push((format!("{field}: {number}"), with_number(record, field, number)));
    };
    [0, 6, 257, (1 << 32) + 1, u64::MAX].into_iter().for_each(|n| note(&w9, "the method", n));
    [0, 17, 258, u64::MAX].into_iter().for_each(|n| note(&w9, "the count", n));
    [401, (1 << 16) + 10, u64::MAX].into_iter().for_each(|n| note(&w9, "the limit", n));
    (2..=15).chain([20, 256, 257, 272, (1 << 32) + 16, u64::MAX]).for_each(|n| note(&w13, "the answer's kind", n));
    [3, 4, 256, u64::MAX].into_iter().for_each(|n| note(&w9, "the mark", n));
    list
}

// Rows of the wrong shape: another number of coefficients or of starts than there must be.
fn refused_shapes(kind: u64) -> Refused {
    let (w9, w4) = (case(9, kind), case(4, kind));
    let counted = |count: usize| bytes(&Record { coefficients: vec![0; count], ..w9.clone() });
    let one_start = bytes(&Record { starts: vec![0], ..w9.clone() });
    let two_starts = bytes(&Record { starts: vec![0, 0], ..w4.clone() });
    vec![
        ("no coefficient".to_string(), counted(0)),
        ("17 coefficients".to_string(), counted(17)),
        ("Brent with one start".to_string(), one_start),
        ("Newton with two starts".to_string(), two_starts),
    ]
}

// Beginnings that neither kind has, and a kind's row behind the other's beginning.
fn refused_heads() -> Refused {
    let rows = [1, 2].map(|kind| body(&case(9, kind), kind));
    let [old, new] = &rows;
    let mut list = vec![("no bytes".to_string(), Vec::new())];
    for kind in [0, 1, 3, 4, 127, 128, 130, 258, (1 << 32) + 2, 1 << 63, (1 << 63) + 2, u64::MAX] {
        let begin: Vec<u8> = groups(0).chain(groups(kind)).collect();
        list.push((format!("begins 0, {kind}, then as kind 2"), [&begin, &new[..]].concat()));
    }
    for kind in [0, 1, 2, 3] {
        list.push((format!("begins 0, {kind}, then as kind 1"), [&[0, kind], &old[..]].concat()));
    }
    let others: [(&str, &[u8]); 5] =
        [("no 0, 2", &[]), ("0 alone", &[0]), ("2 alone", &[2]), ("2, 0", &[2, 0]), ("0, 2, 0, 2", &[0, 2, 0, 2])];
    list.extend(others.map(|(name, begin)| (format!("begins {name}, then as kind 2"), [begin, &new[..]].concat())));
    list
}

pub fn refused() -> Refused {
    let mut list = refused_heads();
    for kind in [1, 2] {
        let of_kind = [refused_groups(kind), refused_doubles(kind), refused_words(kind), refused_shapes(kind)].concat();
        list.extend(of_kind.into_iter().map(|(what, bytes)| (format!("kind {kind}, {what}"), bytes)));
    }
    if let Some((what, _)) = list.iter().find(|(_, bytes)| read(bytes).is_some()) {
        fail(&format!("this reads: {what}"));
    }
    list
}

fn print_record(record: &Record, comment: &str) {
    let bytes = bytes(record);
    if !read(&bytes).is_some_and(|(again, length)| again == *record && length == bytes.len()) {
        fail(&format!("the second route does not read what it wrote: {}", line_of(record)));
    }
    println!("{} = {}{comment}", line_of(record), hex(&bytes));
}

// The list, by the second routes to documents 01 and 02 alone.
pub fn write() {
    println!("# Records of searches: KIND CALL = ANSWER = BYTES, and refused = BYTES # why. KIND is that of the record.");
    println!("# Written by oracle/records --write.");
    for kind in [1, 2] {
        println!("# W1 to W13, kind {kind}.");
        (1..=13).for_each(|number| print_record(&case(number, kind), &format!(" # W{number}")));
    }
    println!("# Calls of all families by method, each with some of its kinds and marks, in either kind of record.");
    made::of_families(SEED, 4).iter().for_each(|record| print_record(record, ""));
    println!("# The shortest record and the longest of each kind, then answers that no search gives but the layout allows.");
    for kind in [1, 2] {
        [made::shortest(kind), made::longest(kind)].iter().for_each(|record| print_record(record, ""));
        (0..30).for_each(|index| print_record(&made::unlikely(SEED, (kind - 1) * made::ALL + index), ""));
    }
    println!("# Refused with 11.");
    refused().iter().for_each(|(what, bytes)| println!("refused = {} # {what}", hex(bytes)));
}

#[cfg(archive)]
pub mod replay {
    use super::fail;
    use crate::flat::Flat;
    use crate::judge;
    use crate::record::{Record, NO_RECORD, NO_ROOM};
    use crate::words::{bytes_of, record_in};

    fn wrong(line: &str, what: &str) -> ! {
        println!("a stored record differs: {what}\n{line}");
        std::process::exit(1);
    }

    // Once with the very room and once with bytes behind the record.
    fn replay_record(line: &str, record: &Record, bytes: &[u8]) {
        let (flat, length) = (Flat::of(record), bytes.len());
        for room in [length, length + 3] {
            let written = judge::write(&flat, room);
            if written.result != 0 || written.length != length as u64 || !written.buffer.starts_with(bytes) {
                wrong(line, "writing gives other bytes");
            }
            let reading = judge::read(&written.buffer[..room]);
            if reading.result != 0 || reading.words[0] != length as u64 || judge::as_given(&reading).record() != *record {
                wrong(line, "reading gives another call or answer");
            }
        }
        if judge::write(&flat, length - 1).result != NO_ROOM {
            wrong(line, "a byte less of room is not refused with 10");
        }
    }

    pub fn replay(path: &str) {
        let text = std::fs::read_to_string(path).unwrap_or_else(|e| fail(&format!("{path}: {e}")));
        let (mut records, mut refused) = (0, 0);
        for line in text.lines().map(|line| line.split('#').next().unwrap_or("").trim()).filter(|line| !line.is_empty()) {
            let (left, hex) = line.rsplit_once('=').unwrap_or((line, "not hex"));
            let bytes = bytes_of(hex.trim()).unwrap_or_else(|| fail(&format!("no bytes: {line}")));
            if left.trim() == "refused" {
                refused += 1;
                if judge::read(&bytes).result != NO_RECORD {
                    wrong(line, "it is not refused with 11");
                }
            } else {
                records += 1;
                replay_record(line, &record_in(left).unwrap_or_else(|| fail(&format!("no record: {line}"))), &bytes);
            }
        }
        if records == 0 || refused == 0 {
            fail(&format!("{path} has no records or nothing refused"));
        }
        println!("{records} stored records and {refused} stored buffers that are none, {path}: no difference");
    }
}
