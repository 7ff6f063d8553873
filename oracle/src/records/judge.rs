// Both routes side by side. The first difference is printed and ends the program with status 1.
// It is printed under a lock that is never given back, so that two threads do not print at once.

use crate::flat::{self, archive, Flat, Reading, Writing};
use crate::words::{hex, line_of};

fn row(doubles: &[u64]) -> String {
    doubles.iter().map(|bits| format!(" {bits:016x}")).collect()
}

fn print_reading(whose: &str, reading: &Reading) {
    println!("{whose} reads with result {}", reading.result);
    println!("  coefficients{}", row(&reading.coefficients));
    println!("  points{}, numbers{}", row(&reading.points), row(&reading.numbers));
    let [length, method, count, limit, kind, record_kind] = reading.words;
    println!("  length {length}, method {method}, count {count}, limit {limit}, kind {kind}, tallies {:?}", reading.tallies);
    println!("  kind of record {record_kind}");
}

fn print_writing(whose: &str, writing: &Writing) {
    println!("{whose} writes with result {}, length {}, and the buffer with what is behind it:", writing.result, writing.length);
    println!("  {}", hex(&writing.buffer));
}

fn differ_in_reading(bytes: &[u8], routes: [&Reading; 2]) -> ! {
    let _alone = std::io::stdout().lock();
    println!("a difference in reading {} bytes:\n{}", bytes.len(), hex(bytes));
    print_reading("the second route", routes[0]);
    print_reading("the archive", routes[1]);
    std::process::exit(1);
}

fn differ_in_writing(flat: &Flat, room: usize, routes: [&Writing; 2]) -> ! {
    let _alone = std::io::stdout().lock();
    println!("a difference in writing to a room of {room} bytes:\n{}", line_of(&flat.record()));
    println!("starts as given:{}, numbers{}", row(&[flat.first, flat.second]), row(&flat.numbers));
    print_writing("the second route", routes[0]);
    print_writing("the archive", routes[1]);
    std::process::exit(1);
}

// Both must read alike, and the bytes must stay.
pub fn read(bytes: &[u8]) -> Reading {
    let before = bytes.to_vec();
    let (asked, answered) = (flat::read(bytes), archive::read(bytes));
    if asked != answered || bytes != before {
        differ_in_reading(&before, [&asked, &answered]);
    }
    answered
}

// Both must write alike, all bytes of the buffer and those behind it.
pub fn write(flat: &Flat, room: usize) -> Writing {
    let (asked, answered) = (flat::write(flat, room), archive::write(flat, room));
    if asked != answered {
        differ_in_writing(flat, room, [&asked, &answered]);
    }
    answered
}

// The call and the answer out of what was read, as they would be handed to the writer.
pub fn as_given(reading: &Reading) -> Flat {
    let [_, method, count, limit, kind, record_kind] = reading.words;
    let [first, second, value_tolerance, point_tolerance] = reading.points;
    Flat {
        record_kind,
        coefficients: reading.coefficients[..count as usize].to_vec(),
        method,
        first,
        second,
        value_tolerance,
        point_tolerance,
        limit,
        kind,
        numbers: reading.numbers,
        tallies: reading.tallies,
    }
}

// Both must read alike, and what reads must be written back as the same bytes. Says whether it reads.
pub fn read_and_write_back(bytes: &[u8]) -> bool {
    let reading = read(bytes);
    if reading.result != 0 {
        return false;
    }
    let length = reading.words[0] as usize;
    let written = write(&as_given(&reading), length);
    if written.result != 0 || written.buffer[..length] != bytes[..length] {
        let _alone = std::io::stdout().lock();
        println!("not written back as it was read:\n{}", hex(bytes));
        print_writing("the archive", &written);
        std::process::exit(1);
    }
    true
}
