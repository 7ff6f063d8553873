// What is compared, part by part. Each prints how much it was; a difference has ended the program before.

use crate::flat::Flat;
use crate::record::{bytes, Record, KINDS};
use crate::{broken, damage, judge, made};

pub const RECORDS: usize = 1000;
// So many of them are such as no search gives.
const UNLIKELY: u64 = 2 * made::ALL;

// Whether the records of a kind have every method, kind of answer, count and mark, and the extreme doubles.
fn missing(records: &[&Record]) -> Option<String> {
    let has = |test: &dyn Fn(&Record) -> bool| records.iter().any(|record| test(record));
    let holds = |bits: u64| has(&|r| r.coefficients.contains(&bits)) && has(&|r| r.starts.contains(&bits));
    let kind_of_method = |method: u64, kind: u64| has(&|r| r.method == method && r.kind == kind);
    for method in 1..=5 {
        if let Some(kind) = KINDS.into_iter().find(|kind| !kind_of_method(method, *kind)) {
            return Some(format!("method {method} with kind {kind}"));
        }
        if let Some(count) = (1..=16).find(|count| !has(&|r| r.method == method && r.coefficients.len() == *count)) {
            return Some(format!("method {method} with {count} coefficients"));
        }
    }
    if let Some(mark) = (0..=2).find(|mark| !has(&|r| r.mark == *mark)) {
        return Some(format!("mark {mark}"));
    }
    let extremes = [1, 1 << 63, f64::MAX.to_bits(), (-f64::MAX).to_bits()];
    extremes.into_iter().find(|bits| !holds(*bits)).map(|bits| format!("{bits:016x} as a coefficient or a start"))
}

fn fail(reason: &str) -> ! {
    eprintln!("records: {reason}");
    std::process::exit(2);
}

pub fn records(seed: u64) -> Vec<Record> {
    let mut list: Vec<Record> = [1, 2].iter().flat_map(|kind| [made::shortest(*kind), made::longest(*kind)]).collect();
    list.extend((0..UNLIKELY).map(|index| made::unlikely(seed, index)));
    list.extend(made::of_calls(seed, RECORDS - list.len()));
    for kind in [1, 2] {
        let alike: Vec<&Record> = list.iter().filter(|record| record.record_kind == kind).collect();
        if let Some(what) = missing(&alike) {
            fail(&format!("no record of kind {kind} has {what}"));
        }
        println!("{} of the {RECORDS} records are of kind {kind}", alike.len());
    }
    let parted = |test: fn(f64, f64) -> bool| {
        list.iter().filter(|r| test(f64::from_bits(r.value_tolerance), f64::from_bits(r.point_tolerance))).count()
    };
    let (larger, smaller) = (parted(|value, point| value > point), parted(|value, point| value < point));
    if larger == 0 || smaller == 0 {
        fail("no record has a larger or a smaller value tolerance");
    }
    println!("{larger} have a larger and {smaller} a smaller value tolerance than point tolerance");
    list
}

pub fn short_buffers() {
    judge::read_and_write_back(&[]);
    for first in 0..=255 {
        judge::read_and_write_back(&[first]);
        for second in 0..=255 {
            judge::read_and_write_back(&[first, second]);
        }
    }
    println!("{} buffers of no, one and two bytes: no difference", 1 + 256 + 65536);
}

pub fn as_they_are(records: &[Record]) {
    for record in records {
        let whole = bytes(record);
        let written = judge::write(&Flat::of(record), whole.len());
        if written.result != 0 || !judge::read_and_write_back(&written.buffer[..whole.len()]) {
            println!("a record that is not written or not read: {}", crate::words::line_of(record));
            std::process::exit(1);
        }
    }
    println!("{} records written and read: no difference", records.len());
}

// Each byte is changed to every other, and the record is cut everywhere: how many were compared, and how many of them read.
fn changes_of(record: &Record) -> [u64; 2] {
    let whole = bytes(record);
    let (mut compared, mut read) = (0, 0);
    let mut changed = whole.clone();
    for (i, old) in whole.iter().enumerate() {
        for new in (0..=255).filter(|new| new != old) {
            changed[i] = new;
            compared += 1;
            read += u64::from(judge::read_and_write_back(&changed));
        }
        changed[i] = *old;
        // What is cut off still lies behind.
        judge::read_and_write_back(&whole[..i]);
        compared += 1;
    }
    [compared, read]
}

fn sum(a: [u64; 2], b: [u64; 2]) -> [u64; 2] {
    [a[0] + b[0], a[1] + b[1]]
}

// Of so many records, spread over all. They are shared out among the processors.
pub fn one_byte_changes(records: &[Record], many: usize) {
    let chosen: Vec<&Record> = records.iter().step_by(records.len().div_ceil(many.max(1))).collect();
    let shares = std::thread::available_parallelism().map_or(1, |n| n.get());
    let share = &|first: usize| chosen.iter().skip(first).step_by(shares).map(|record| changes_of(record)).fold([0, 0], sum);
    let [compared, read] = std::thread::scope(|scope| {
        let running: Vec<_> = (0..shares).map(|first| scope.spawn(move || share(first))).collect();
        running.into_iter().map(|one| one.join().unwrap()).fold([0, 0], sum)
    });
    println!("{compared} changes of one byte and cuts of {} of them, {read} of which read: no difference", chosen.len());
}

// Each row behind every head, with as many tolerances as either kind has, and with its tolerances changed.
pub fn other_heads(records: &[Record]) {
    let (mut compared, mut read) = (0, 0);
    for record in records {
        let headed = |kind: u64| damage::heads().into_iter().map(move |head| [head, damage::body(record, kind)].concat());
        for buffer in headed(1).chain(headed(2)).chain(damage::other_tolerances(record)) {
            compared += 1;
            read += u64::from(judge::read_and_write_back(&buffer));
        }
    }
    println!("{compared} records with another head or other tolerances, {read} of which read: no difference");
}

pub fn damaged(count: u64, seed: u64, records: &[Record]) {
    let read = (0..count).filter(|index| judge::read_and_write_back(&damage::damaged(seed, *index, records))).count();
    println!("{count} random and damaged buffers, seed {seed}, {read} of which read: no difference");
}

// Every method with every kind, each with one field after another changed, into every room up to some bytes too many.
pub fn broken_calls(seed: u64) {
    let unlikely = (0..30).flat_map(|index| [index, index + made::ALL]).map(|index| made::unlikely(seed, index));
    let bases = unlikely.chain([1, 2].into_iter().flat_map(|kind| [made::shortest(kind), made::longest(kind)]));
    let most = bytes(&made::longest(2)).len();
    let (mut variants, mut compared, mut refused) = (0, 0, [0, 0]);
    for base in bases {
        for flat in broken::variants(&Flat::of(&base)) {
            variants += 1;
            // One with too many coefficients would be longer than any record.
            let longest = bytes(&base).len().max(bytes(&flat.record()).len()).min(most);
            for room in 0..=longest + 3 {
                compared += 1;
                match judge::write(&flat, room).result {
                    10 => refused[0] += 1,
                    11 => refused[1] += 1,
                    _ => {}
                }
            }
        }
    }
    let [no_room, no_record] = refused;
    print!("{variants} calls and answers with a field changed, each to every room: {compared} written, ");
    println!("{no_record} of which refused with 11, {no_room} with 10: no difference");
}

// A record followed by anything must read as the record alone.
pub fn what_follows(seed: u64, records: &[Record]) {
    let mut compared = 0;
    for (index, record) in records.iter().enumerate() {
        let whole = bytes(record);
        let alone = judge::read(&whole);
        for tail in damage::tails(seed, index as u64, &records[(index + 1) % records.len()]) {
            let followed = [&whole[..], &tail].concat();
            compared += 1;
            if judge::read(&followed) != alone {
                println!("a record that reads otherwise when bytes follow it:\n{}", crate::words::hex(&followed));
                std::process::exit(1);
            }
        }
    }
    println!("{compared} records followed by other bytes: no difference");
}
