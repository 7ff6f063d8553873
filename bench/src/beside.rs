// The archive beside another one, timed in the same rounds: searches and records.

use crate::calls::{calls_of, Method, Row, COUNTS, METHODS, ROWS};
use crate::fail;
use crate::records::{Drawn, Side as RecordSide, Work, WORKS};
use crate::sides::{checked, former_agrees, former_is_alike, summed, Side};
use crate::timing::{batch, passes_of, BATCHES, BATCH_NANOSECONDS, ROUNDS};
use std::rc::Rc;

// The other archive's work and then this one's, on the same calls.
struct Cell {
    works: [Box<dyn Fn() -> u64>; 2],
    calls: usize,
    expected: u64,
    passes: [usize; 2],
    // Nanoseconds for all calls: the least batch of all rounds.
    least: [f64; 2],
}

impl Cell {
    fn new(works: [Box<dyn Fn() -> u64>; 2], calls: usize, expected: u64) -> Cell {
        let passes = works.each_ref().map(|work| passes_of(work, expected));
        Cell { works, calls, expected, passes, least: [f64::INFINITY; 2] }
    }

    // Nothing where a row has no calls of the method. Both archives' answers are compared here, before anything is timed.
    fn of_searches(row: Row, method: Method, count: usize) -> Option<Cell> {
        let calls = Rc::new(calls_of(row, method, count));
        if calls.is_empty() {
            return None;
        }
        if !calls.iter().all(former_agrees) {
            fail("the archives differ");
        }
        let expected = calls.iter().fold(0u64, |sum, call| sum.wrapping_add(checked(call).0));
        let works = [Side::Former, Side::Proved].map(|side| {
            let calls = calls.clone();
            Box::new(move || summed(side, &calls)) as Box<dyn Fn() -> u64>
        });
        Some(Cell::new(works, calls.len(), expected))
    }

    fn of_records(work: Work, count: usize) -> Cell {
        let drawn = Rc::new(Drawn::new(count));
        if !drawn.former_agrees() {
            fail("the archives differ about a record");
        }
        let works = [RecordSide::Former, RecordSide::Proved].map(|side| {
            let drawn = drawn.clone();
            Box::new(move || drawn.summed(work, side)) as Box<dyn Fn() -> u64>
        });
        Cell::new(works, drawn.len(), drawn.expected(work))
    }

    // The archives in turn.
    fn round(&mut self) {
        for _ in 0..BATCHES {
            for i in 0..2 {
                let taken = batch(&self.works[i], self.passes[i], self.expected) / self.passes[i] as f64;
                self.least[i] = self.least[i].min(taken);
            }
        }
    }

    fn words(&self) -> String {
        let [former, present] = self.least.map(|least| least / self.calls as f64);
        format!("{former:.1}, {present:.1} ({:.2})", present / former)
    }
}

// A line of a table: what it is of, and a cell for each number of coefficients.
struct Line {
    name: &'static str,
    cells: Vec<Option<Cell>>,
}

fn lines_of(row: Row) -> Vec<Line> {
    let line = |method: Method| Line { name: method.words(), cells: COUNTS.map(|count| Cell::of_searches(row, method, count)).into() };
    METHODS.map(line).into()
}

fn lines_of_records() -> Vec<Line> {
    let line = |work: Work| Line { name: work.words(), cells: COUNTS.map(|count| Some(Cell::of_records(work, count))).into() };
    WORKS.map(line).into()
}

pub fn tables() {
    let mut tables: Vec<(&str, Vec<Line>)> = ROWS.map(|row| (row.words(), lines_of(row))).into();
    if former_is_alike() {
        tables.push(("Records of searches that found a root by its value", lines_of_records()));
    }
    for _ in 0..ROUNDS {
        let lines = tables.iter_mut().flat_map(|(_, lines)| lines);
        lines.flat_map(|line| line.cells.iter_mut().flatten()).for_each(Cell::round);
    }
    println!("ns by the other archive, ns by this one, in brackets this one's divided by the other's;");
    println!("the least of {} batches of {} ms of thread time, in {ROUNDS} rounds", ROUNDS * BATCHES, BATCH_NANOSECONDS / 1e6);
    if !former_is_alike() {
        println!("the other archive has version 2 of the interface: its eps is both tolerances, and its records are left out");
    }
    for (words, lines) in &tables {
        println!("\n## {words}\n\n| | 1 | 2 | 4 | 8 | 16 |\n|---|--:|--:|--:|--:|--:|");
        for Line { name, cells } in lines {
            let words: Vec<String> = cells.iter().map(|cell| cell.as_ref().map_or("-".to_string(), Cell::words)).collect();
            println!("| {name} | {} |", words.join(" | "));
        }
    }
}
