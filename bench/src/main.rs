// The same calls through the proved archive and through the crate roots 0.0.8, as it is and made to tell as much, timed side by side.
// Records likewise, beside a plain Rust writer and reader. And the archive beside another one.
mod beside;
mod calls;
mod plain;
mod record_sides;
mod records;
mod sides;
mod timing;
mod told;

use calls::{calls_of, Call, Method, Row, COUNTS, METHODS, ROWS};
use sides::{checked, summed, Side};
use std::process::exit;
use timing::{batch, passes_of, BATCHES, BATCH_NANOSECONDS, ROUNDS};

pub fn fail(what: &str) -> ! {
    eprintln!("{what}");
    exit(1)
}

struct Cell {
    row: Row,
    method: Method,
    count: usize,
    calls: Vec<Call>,
    expected: u64,
    values: f64,
    derivatives: f64,
    passes: Vec<usize>,
    // Nanoseconds for all calls, by side: the least batch of all rounds.
    least: [f64; 3],
}

fn sides_of(method: Method) -> &'static [Side] {
    match method {
        Method::Polynom => &[Side::Proved, Side::Rust],
        _ => &[Side::Proved, Side::Rust, Side::Telling],
    }
}

impl Cell {
    // Nothing where a row has no calls of the method. The answers are compared here, before anything is timed.
    fn new(row: Row, method: Method, count: usize) -> Option<Cell> {
        let calls = calls_of(row, method, count);
        if calls.is_empty() {
            return None;
        }
        let (mut expected, mut values, mut derivatives) = (0u64, 0, 0);
        for call in &calls {
            let (sum, tallies) = checked(call);
            expected = expected.wrapping_add(sum);
            values += tallies[1];
            derivatives += tallies[2];
        }
        let passes = sides_of(method).iter().map(|side| passes_of(|| summed(*side, &calls), expected)).collect();
        let n = calls.len() as f64;
        let (values, derivatives) = (values as f64 / n, derivatives as f64 / n);
        Some(Cell { row, method, count, calls, expected, values, derivatives, passes, least: [f64::INFINITY; 3] })
    }

    // The sides in turn.
    fn round(&mut self) {
        for _ in 0..BATCHES {
            for (i, side) in sides_of(self.method).iter().enumerate() {
                let taken = batch(|| summed(*side, &self.calls), self.passes[i], self.expected) / self.passes[i] as f64;
                self.least[i] = self.least[i].min(taken);
            }
        }
    }

    fn time(&self, side: Side) -> f64 {
        self.least[side as usize] / self.calls.len() as f64
    }

    fn ratio(&self) -> f64 {
        self.time(Side::Proved) / self.time(Side::Rust)
    }

    fn print(&self) {
        let telling = match self.method {
            Method::Polynom => "- | -".to_string(),
            _ => format!("{:.1} | {:.2}", self.time(Side::Telling), self.time(Side::Proved) / self.time(Side::Telling)),
        };
        println!(
            "| {} | {} | {} | {:.1} | {:.1} | {:.1} | {:.1} | {:.2} | {telling} |",
            self.method.words(),
            self.count,
            self.calls.len(),
            self.values,
            self.derivatives,
            self.time(Side::Proved),
            self.time(Side::Rust),
            self.ratio()
        );
    }
}

fn cells() -> Vec<Cell> {
    let mut cells = Vec::new();
    for row in ROWS {
        for method in METHODS {
            cells.extend(COUNTS.into_iter().filter_map(|count| Cell::new(row, method, count)));
        }
    }
    cells
}

// The tables of searches, unless only those of records are asked for, and the tables of records.
fn tables(searches: bool) {
    let mut cells = if searches { cells() } else { Vec::new() };
    let mut of_records = records::cells();
    for _ in 0..ROUNDS {
        cells.iter_mut().for_each(Cell::round);
        of_records.iter_mut().for_each(records::Cell::round);
    }
    println!("ns: the least of {} batches of {} ms of thread time, in {ROUNDS} rounds", ROUNDS * BATCHES, BATCH_NANOSECONDS / 1e6);
    if searches {
        search_tables(&cells);
    }
    records::tables(&of_records);
}

fn search_tables(cells: &[Cell]) {
    for row in ROWS {
        println!("\n## {}\n", row.words());
        println!("| Method | coefficients | calls | values | derivatives | proved, ns | Rust, ns | ratio | Rust telling, ns | ratio |");
        println!("|---|--:|--:|--:|--:|--:|--:|--:|--:|--:|");
        let of_row = || cells.iter().filter(|cell| cell.row == row);
        of_row().for_each(Cell::print);
        println!("\n| proved / Rust (mean values) | 1 | 2 | 4 | 8 | 16 |\n|---|--:|--:|--:|--:|--:|");
        for method in METHODS {
            let words = COUNTS.map(|count| match of_row().find(|cell| cell.method == method && cell.count == count) {
                Some(cell) => format!("{:.2} ({:.1})", cell.ratio(), cell.values),
                None => "-".to_string(),
            });
            println!("| {} | {} |", method.words(), words.join(" | "));
        }
        println!("\n| proved / Rust telling | 1 | 2 | 4 | 8 | 16 |\n|---|--:|--:|--:|--:|--:|");
        for method in METHODS.into_iter().filter(|method| *method != Method::Polynom) {
            let words = COUNTS.map(|count| match of_row().find(|cell| cell.method == method && cell.count == count) {
                Some(cell) => format!("{:.2}", cell.time(Side::Proved) / cell.time(Side::Telling)),
                None => "-".to_string(),
            });
            println!("| {} | {} |", method.words(), words.join(" | "));
        }
    }
}

// One side of one cell and nothing timed, for counting instructions. Prints the number of calls.
fn one_cell(words: &[String]) -> Option<()> {
    let [row, method, count, side, passes] = words else { return None };
    let row = ROWS.into_iter().find(|r| r.name() == row)?;
    let method = METHODS.into_iter().find(|m| (*m as u64).to_string() == *method)?;
    let calls = calls_of(row, method, count.parse().ok().filter(|n| COUNTS.contains(n))?);
    let side = match side.as_str() {
        "proved" => Side::Proved,
        "rust" => Side::Rust,
        "telling" => Side::Telling,
        "former" => Side::Former,
        _ => return None,
    };
    for _ in 0..passes.parse::<usize>().ok()? {
        std::hint::black_box(summed(side, &calls));
    }
    println!("{}", calls.len());
    Some(())
}

// The same for records.
fn one_cell_of_records(words: &[String]) -> Option<()> {
    let [work, count, side, passes] = words else { return None };
    let work = records::WORKS.into_iter().find(|w| w.words() == work)?;
    let drawn = records::Drawn::new(count.parse().ok().filter(|n| COUNTS.contains(n))?);
    let side = match side.as_str() {
        "proved" => records::Side::Proved,
        "rust" => records::Side::Rust,
        "former" => records::Side::Former,
        _ => return None,
    };
    for _ in 0..passes.parse::<usize>().ok()? {
        std::hint::black_box(drawn.summed(work, side));
    }
    println!("{}", drawn.len());
    Some(())
}

fn main() {
    let words: Vec<String> = std::env::args().skip(1).collect();
    match words.first().map(String::as_str) {
        None => tables(true),
        Some("--records") => tables(false),
        Some("--beside") => beside::tables(),
        Some("--cell") => {
            if one_cell(&words[1..]).is_none() {
                fail("--cell search|at-once|refused METHOD COUNT proved|rust|telling|former PASSES");
            }
        }
        Some("--record-cell") => {
            if one_cell_of_records(&words[1..]).is_none() {
                fail("--record-cell writing|reading COUNT proved|rust|former PASSES");
            }
        }
        Some(_) => fail("bench [--records | --beside | --cell .. | --record-cell ..]"),
    }
}
