// Holds the archive's reader and writer of records against the second route in record.rs. See README.md.
// Without an archive it only writes the stored list, and part of what is here is not used.
#![cfg_attr(not(archive), allow(dead_code))]

#[path = "records/broken.rs"]
#[cfg(archive)]
mod broken;
// What only `compare` uses is no concern here.
#[allow(dead_code)]
mod call;
#[path = "records/damage.rs"]
mod damage;
#[allow(dead_code)]
mod families;
#[path = "records/flat.rs"]
mod flat;
#[path = "records/judge.rs"]
#[cfg(archive)]
mod judge;
#[path = "records/kept.rs"]
mod kept;
#[path = "records/made.rs"]
mod made;
#[path = "../model.rs"]
mod model;
#[path = "records/parts.rs"]
#[cfg(archive)]
mod parts;
#[path = "../record.rs"]
mod record;
#[path = "records/words.rs"]
mod words;

fn usage() -> ! {
    eprintln!("usage: records --write");
    eprintln!("       records COUNT SEED [CHANGED]   where an archive is linked");
    eprintln!("       records --stored FILE          where an archive is linked");
    std::process::exit(2);
}

#[cfg(archive)]
fn compare(words: &[&str]) {
    if let ["--stored", path] = words {
        return kept::replay::replay(path);
    }
    let numbers: Vec<u64> = words.iter().map(|word| word.parse().unwrap_or_else(|_| usage())).collect();
    let (count, seed, changed) = match numbers[..] {
        [count, seed] => (count, seed, parts::RECORDS),
        [count, seed, changed] => (count, seed, changed as usize),
        _ => usage(),
    };
    let records = parts::records(seed);
    parts::short_buffers();
    parts::as_they_are(&records);
    parts::one_byte_changes(&records, changed);
    parts::other_heads(&records);
    parts::damaged(count, seed, &records);
    parts::broken_calls(seed);
    parts::what_follows(seed, &records);
}

#[cfg(not(archive))]
fn compare(_: &[&str]) {
    usage();
}

fn main() {
    let words: Vec<String> = std::env::args().skip(1).collect();
    match words.iter().map(String::as_str).collect::<Vec<_>>().as_slice() {
        ["--write"] => kept::write(),
        others => compare(others),
    }
}
