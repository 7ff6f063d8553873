// Holds a program that speaks the line protocol, or the proved archive in this process, against the published Rust. See README.md.

#[cfg(archive)]
mod archive;
mod call;
mod families;
#[path = "../model.rs"]
mod model;
// What only `oracle` uses is no concern here.
#[allow(dead_code)]
mod run;
mod shrink;
mod store;
#[allow(dead_code)]
mod watch;

use call::{Call, BRENT, METHODS, NEWTON, POLYNOMIAL, SECANT};
use std::io::{Read, Write};
use std::process::{Command, Stdio};
use std::time::Instant;
use watch::{Tallies, Test};

// The lists of inputs/ from which calls are made and stored, with their names; bounds.txt and finite.txt are only compared.
const KNOWN: [(&str, &str); 4] = [
    ("cases.txt", include_str!("../inputs/cases.txt")),
    ("readings.txt", include_str!("../inputs/readings.txt")),
    ("found.txt", include_str!("../inputs/found.txt")),
    ("rare.txt", include_str!("../inputs/rare.txt")),
];

struct Options {
    count: u64,
    seed: u64,
    tool: String,
    // A tool that is not the model is held against the model too.
    with_model: bool,
    batch: usize,
    file: Option<String>,
    small: bool,
    // The archive answers, which is linked into this program, in place of a tool.
    #[cfg_attr(not(archive), allow(dead_code))]
    archive: bool,
}

fn usage() -> ! {
    eprintln!("usage: compare COUNT SEED [--line-tool PATH] [--rust-only] [--batch N]");
    eprintln!("       compare --small [--line-tool PATH] [--rust-only] [--batch N]");
    eprintln!("       compare --file PATH [--line-tool PATH] [--rust-only]");
    eprintln!("       compare --store COUNT SEED FOLDER");
    eprintln!("       --archive in place of --line-tool PATH where in-process has linked one");
    std::process::exit(2);
}

fn options() -> Options {
    let beside = std::env::current_exe().ok().and_then(|p| Some(p.parent()?.join("model").to_str()?.to_string()));
    let mut chosen = Options {
        count: 0,
        seed: 0,
        tool: beside.unwrap_or_else(|| "model".to_string()),
        with_model: false,
        batch: 20_000,
        file: None,
        small: false,
        archive: false,
    };
    let mut plain = Vec::new();
    let mut rust_only = false;
    let mut words = std::env::args().skip(1);
    while let Some(word) = words.next() {
        match word.as_str() {
            "--line-tool" => {
                chosen.tool = words.next().unwrap_or_else(|| usage());
                chosen.with_model = true;
            }
            "--archive" if cfg!(archive) => (chosen.archive, chosen.with_model) = (true, true),
            "--batch" => chosen.batch = words.next().and_then(|n| n.parse().ok()).filter(|n| *n > 0).unwrap_or_else(|| usage()),
            "--rust-only" => rust_only = true,
            "--small" => chosen.small = true,
            "--file" => chosen.file = Some(words.next().unwrap_or_else(|| usage())),
            _ => plain.push(word.parse::<u64>().unwrap_or_else(|_| usage())),
        }
    }
    chosen.with_model &= !rust_only;
    match (plain.as_slice(), &chosen.file, chosen.small) {
        ([count, seed], None, false) => (chosen.count, chosen.seed) = (*count, *seed),
        ([], Some(_), false) | ([], None, true) => {}
        _ => usage(),
    }
    chosen
}

// Refusals 1 to 5, stated once more so that a tool cannot hide behind them.
fn refused_at_once(call: &Call) -> Option<u8> {
    if !(1..=16).contains(&call.coefficients.len()) {
        Some(1)
    } else if call.coefficients.iter().any(|x| !x.is_finite()) {
        Some(2)
    } else if call.starts.iter().any(|x| !x.is_finite()) {
        Some(3)
    } else if call.tolerances().iter().any(|x| !(x.is_finite() && *x >= families::power_of_two(-300))) {
        Some(4)
    } else if call.limit > 400 {
        Some(5)
    } else {
        None
    }
}

// The values that the Rust's run asks for. In each completed step of Brent the Rust works out the
// kept end's value again, and the port does not: v values in s steps ask for v - s.
fn values_asked(call: &Call, tallies: &Tallies) -> u64 {
    match call.method {
        BRENT => tallies.values - tallies.steps,
        _ => tallies.values,
    }
}

// The answer line that the Rust's run asks for, without its mark: kind and numbers come from
// the test that ended the run, refusal 9 from the first number that was not finite.
fn asked_for(call: &Call) -> String {
    if let Some(refusal) = refused_at_once(call) {
        return format!("{} 0 0 0", 10 + refusal);
    }
    let run = run::run(call, false);
    let t = run.not_finite.unwrap_or(run.tallies);
    let tallies = format!("{} {} {}", t.steps, values_asked(call, &t), t.derivatives);
    if run.not_finite.is_some() {
        return format!("19 {tallies}");
    }
    match (run.result, run.last) {
        (Err(number), _) => format!("{} {tallies}", 10 + number),
        (Ok(root), Some(Test::Found { y, held: true })) => format!("0 {:016x} {:016x} {tallies}", root.to_bits(), y.to_bits()),
        (Ok(root), Some(Test::Converged { p, q, held: true })) => {
            format!("1 {:016x} {:016x} {:016x} {tallies}", root.to_bits(), p.to_bits(), q.to_bits())
        }
        (Ok(root), _) => format!("untested {:016x} {tallies}", root.to_bits()),
    }
}

// An answer line taken apart: kind, steps, values, derivatives, mark.
fn parts(answer: &str) -> Option<(u64, u64, u64, u64, u64)> {
    let fields: Vec<&str> = answer.split(' ').collect();
    let number = |i: usize| fields.get(i)?.parse::<u64>().ok();
    let kind = number(0)?;
    let doubles = match kind {
        0 => 2,
        1 => 3,
        11..=19 => 0,
        _ => return None,
    };
    if fields.len() != doubles + 5 {
        return None;
    }
    Some((kind, number(doubles + 1)?, number(doubles + 2)?, number(doubles + 3)?, number(doubles + 4)?))
}

// Document 01's bounds on values and derivatives.
fn bounds(call: &Call) -> (u64, u64) {
    let m = call.limit.max(1);
    match call.method {
        NEWTON => (call.limit.max(2), call.limit.max(2)),
        POLYNOMIAL => (2 + 2 * m, m),
        _ => (2 + m, 0),
    }
}

// Why the tool's answer is wrong, if it is. Where the mark is not 0 the Rust has no say.
fn difference(call: &Call, asked: &str, answer: &str, with_model: bool) -> Option<String> {
    let Some((_, _, values, derivatives, mark)) = parts(answer) else {
        return Some(format!("not an answer: {answer}"));
    };
    let unmarked = &answer[..answer.rfind(' ').unwrap_or(0)];
    if mark == 0 || refused_at_once(call).is_some() {
        if mark != 0 || unmarked != asked {
            return Some(format!("the Rust asks for:  {asked} 0\nthe line tool says: {answer}"));
        }
    } else if mark > 2 || call.method == SECANT || call.method == NEWTON {
        return Some(format!("a mark that cannot be: {answer}"));
    }
    let (most_values, most_derivatives) = bounds(call);
    if values > most_values || derivatives > most_derivatives {
        return Some(format!("more evaluations than {most_values} and {most_derivatives}: {answer}"));
    }
    if with_model {
        let model = model::answer(&call.line());
        if model != answer {
            return Some(format!("the model says:     {model}\nthe line tool says: {answer}"));
        }
    }
    None
}

// A tool is a file or, where no file has that name, a command with its words.
fn command(tool: &str) -> Command {
    if let Ok(path) = std::fs::canonicalize(tool) {
        return Command::new(path);
    }
    let mut words = tool.split_ascii_whitespace();
    let mut command = Command::new(words.next().unwrap_or(tool));
    command.args(words);
    command
}

// One process a batch: it is given all lines, then the end of input, and must answer each and end well.
fn ask<T>(tool: &str, lines: String, meanwhile: impl FnOnce() -> T) -> Result<(Vec<String>, T), String> {
    let mut child = command(tool)
        .stdin(Stdio::piped())
        .stdout(Stdio::piped())
        .spawn()
        .map_err(|e| format!("{tool} does not start: {e}"))?;
    let mut input = child.stdin.take().unwrap();
    let mut output = child.stdout.take().unwrap();
    let count = lines.lines().count();
    let writer = std::thread::spawn(move || input.write_all(lines.as_bytes()));
    let reader = std::thread::spawn(move || {
        let mut text = String::new();
        output.read_to_string(&mut text).map(|_| text)
    });
    let made = meanwhile();
    let text = reader.join().unwrap().map_err(|e| format!("{tool}: {e}"))?;
    let _ = writer.join().unwrap();
    let status = child.wait().map_err(|e| format!("{tool}: {e}"))?;
    let answers: Vec<String> = text.lines().map(str::to_string).collect();
    if answers.len() != count {
        return Err(format!("{tool} answered {} of {count} lines", answers.len()));
    }
    if !status.success() {
        return Err(format!("{tool} ended with {status}"));
    }
    Ok((answers, made))
}

fn as_lines(calls: &[Call]) -> String {
    calls.iter().map(|c| c.line() + "\n").collect()
}

// What the tool or the archive answers, and what is made meanwhile.
fn answered<T>(options: &Options, calls: &[Call], meanwhile: impl FnOnce() -> T) -> Result<(Vec<String>, T), String> {
    #[cfg(archive)]
    if options.archive {
        return Ok((calls.iter().map(archive::answer).collect(), meanwhile()));
    }
    ask(&options.tool, as_lines(calls), meanwhile)
}

// For each call the reason why the answer is wrong, if it is, and the answer.
fn judge(options: &Options, calls: &[Call]) -> Vec<(Option<String>, String)> {
    let asked = || calls.iter().map(asked_for).collect::<Vec<_>>();
    let (answers, asked) = answered(options, calls, asked).unwrap_or_else(|reason| {
        eprintln!("compare: {reason}");
        std::process::exit(2);
    });
    let verdict =
        |((call, asked), answer): ((&Call, &String), String)| (difference(call, asked, &answer, options.with_model), answer);
    calls.iter().zip(&asked).zip(answers).map(verdict).collect()
}

// Counts for a method: kinds 0, 1 and 11 to 19, and marks.
#[derive(Default, Clone)]
struct Counts {
    calls: u64,
    kinds: [u64; 20],
    marks: [u64; 3],
    judged: u64,
    steps: u64,
    different: Different,
}

// Of the calls with two different tolerances: how many there are, how many the Rust tells, in how many the value
// tolerance is the larger one and in how many the smaller, and in how many by a factor of 1000 or more. Neither is it
// where one of them is a NaN.
#[derive(Default, Clone)]
struct Different {
    calls: u64,
    judged: u64,
    value_larger: u64,
    value_smaller: u64,
    far_larger: u64,
    far_smaller: u64,
}

impl Counts {
    fn add(&mut self, call: &Call, answer: &str) {
        let Some((kind, steps, _, _, mark)) = parts(answer) else { return };
        let judged = mark == 0 && !(11..=15).contains(&kind);
        self.calls += 1;
        self.kinds[kind as usize] += 1;
        self.marks[mark as usize] += 1;
        self.steps += steps;
        self.judged += u64::from(judged);
        if !call.has_one_eps() {
            self.different.calls += 1;
            self.different.judged += u64::from(judged);
            self.different.value_larger += u64::from(call.value_tolerance > call.point_tolerance);
            self.different.value_smaller += u64::from(call.value_tolerance < call.point_tolerance);
            self.different.far_larger += u64::from(judged && call.value_tolerance / 1000.0 >= call.point_tolerance);
            self.different.far_smaller += u64::from(judged && call.point_tolerance / 1000.0 >= call.value_tolerance);
        }
    }
}

fn sum(counts: &[Counts]) -> Counts {
    let mut all = Counts::default();
    for c in counts {
        all.calls += c.calls;
        all.judged += c.judged;
        all.steps += c.steps;
        (0..20).for_each(|i| all.kinds[i] += c.kinds[i]);
        (0..3).for_each(|i| all.marks[i] += c.marks[i]);
        all.different.calls += c.different.calls;
        all.different.judged += c.different.judged;
        all.different.value_larger += c.different.value_larger;
        all.different.value_smaller += c.different.value_smaller;
        all.different.far_larger += c.different.far_larger;
        all.different.far_smaller += c.different.far_smaller;
    }
    all
}

fn print_table(counts: &[Counts]) {
    let all = sum(counts);
    let rows = || METHODS.iter().zip(counts).chain([(&"all", &all)]);
    print!("{:18}{:>10}{:>10}{:>9}{:>9}", "method", "calls", "by Rust", "value", "width");
    (1..=9).for_each(|i| print!("{:>9}", format!("no. {i}")));
    println!("{:>10}{:>8}{:>8}{:>12}", "mark 0", "mark 1", "mark 2", "steps");
    for (name, c) in rows() {
        print!("{name:18}{:>10}{:>10}{:>9}{:>9}", c.calls, c.judged, c.kinds[0], c.kinds[1]);
        (11..20).for_each(|i| print!("{:>9}", c.kinds[i]));
        println!("{:>10}{:>8}{:>8}{:>12}", c.marks[0], c.marks[1], c.marks[2], c.steps);
    }
    let [calls, judged, larger, smaller] = ["calls", "by Rust", "value larger", "value smaller"];
    println!("{:18}{calls:>10}{judged:>10}{larger:>16}{smaller:>16}{:>14}{:>14}", "two tolerances", "1000 times", "a 1000th");
    for (name, Counts { different: d, .. }) in rows() {
        print!("{name:18}{:>10}{:>10}{:>16}{:>16}", d.calls, d.judged, d.value_larger, d.value_smaller);
        println!("{:>14}{:>14}", d.far_larger, d.far_smaller);
    }
}

fn report(options: &Options, call: &Call, reason: &str) -> ! {
    println!("a difference:");
    println!("{}", call.line());
    println!("{}", call.in_words());
    println!("{reason}");
    let (call, reason) = shrink::shrink(call.clone(), reason.to_string(), |calls| {
        judge(options, calls).into_iter().map(|(reason, _)| reason).collect()
    });
    println!("its smallest form found:");
    println!("{}", call.line());
    println!("{}", call.in_words());
    println!("{reason}");
    std::process::exit(1);
}

// A line of a list: CALL [= ANSWER] [# comment].
fn listed(text: &str) -> Vec<(Call, Option<String>)> {
    let mut list = Vec::new();
    for line in text.lines() {
        let line = line.split('#').next().unwrap_or("").trim();
        if line.is_empty() {
            continue;
        }
        let (call, answer) = match line.split_once('=') {
            Some((call, answer)) => (call, Some(answer.trim().to_string())),
            None => (line, None),
        };
        let call = call::read(call).unwrap_or_else(|| {
            eprintln!("compare: not a call: {line}");
            std::process::exit(2);
        });
        list.push((call, answer));
    }
    list
}

fn known() -> Vec<Call> {
    KNOWN.iter().flat_map(|(_, text)| listed(text)).map(|(call, _)| call).collect()
}

fn compare_file(options: &Options, path: &str) {
    let text = std::fs::read_to_string(path).unwrap_or_else(|e| {
        eprintln!("compare: {path}: {e}");
        std::process::exit(2);
    });
    let list = listed(&text);
    let calls: Vec<Call> = list.iter().map(|(call, _)| call.clone()).collect();
    let mut counts = vec![Counts::default(); 5];
    for ((call, stored), (reason, answer)) in list.iter().zip(judge(options, &calls)) {
        if let Some(reason) = reason {
            report(options, call, &reason);
        }
        if stored.as_ref().is_some_and(|stored| *stored != answer) {
            println!("a stored answer differs:\n{}\n{}", call.line(), call.in_words());
            println!("stored:             {}\nthe line tool says: {answer}", stored.as_ref().unwrap());
            std::process::exit(1);
        }
        counts[call.method as usize - 1].add(call, &answer);
    }
    println!("{} calls of {path}: no difference", calls.len());
    print_table(&counts);
}

fn main() {
    let words: Vec<String> = std::env::args().skip(1).collect();
    if let [option, count, seed, folder] = words.as_slice() {
        if option == "--store" {
            let number = |word: &String| word.parse::<u64>().unwrap_or_else(|_| usage());
            return store::store(number(count) as usize, number(seed), folder);
        }
    }
    let options = options();
    if let Some(path) = &options.file {
        return compare_file(&options, path);
    }
    let began = Instant::now();
    let known = known();
    let made = (0..options.count).map(|i| families::call(options.seed, i, &known));
    let mut calls: Box<dyn Iterator<Item = Call>> = if options.small { Box::new(families::small()) } else { Box::new(made) };
    let mut counts = vec![Counts::default(); 5];
    loop {
        let batch: Vec<Call> = calls.by_ref().take(options.batch).collect();
        if batch.is_empty() {
            break;
        }
        for (call, (reason, answer)) in batch.iter().zip(judge(&options, &batch)) {
            if let Some(reason) = reason {
                report(&options, call, &reason);
            }
            counts[call.method as usize - 1].add(call, &answer);
        }
    }
    let count: u64 = counts.iter().map(|c| c.calls).sum();
    if options.small {
        println!("{count} calls, all the small ones: no difference");
    } else {
        println!("{count} calls, seed {}: no difference", options.seed);
    }
    print_table(&counts);
    eprintln!("{:.1} s", began.elapsed().as_secs_f64());
}
