// Writes calls and the answers they must get, for trying a program where there is no Rust: FOLDER/stdin,
// FOLDER/stdout, and FOLDER/sources.txt with the route that decided each answer.

use crate::call::{Call, METHODS, NEWTON};
use crate::families::{self, neighbour, power_of_two, NAMES};
use crate::{asked_for, difference, known, listed, model, parts, print_table, refused_at_once, Counts, KNOWN};
use std::collections::{BTreeMap, HashSet};

// So many calls of all families are looked at; those to be stored are picked from them.
const LOOKED_AT: u64 = 400_000;
// No more than this is kept of calls that are alike.
const KEPT: usize = 60;

const LIMITS: [u64; 9] = [0, 1, 2, 3, 398, 399, 400, 401, u64::MAX];
const LEAST_SUBNORMAL: f64 = f64::from_bits(1);

struct Group {
    title: String,
    calls: Vec<Call>,
}

fn fail(reason: &str) -> ! {
    eprintln!("compare: {reason}");
    std::process::exit(1);
}

// Kind, steps and mark as the model has them.
fn ending(call: &Call) -> (u64, u64, u64) {
    let (kind, steps, _, _, mark) = parts(&model::answer(&call.line())).unwrap_or_else(|| fail("the model gave no answer"));
    (kind, steps, mark)
}

// The answer, and whether the Rust's run told the whole of it. The two routes must agree.
fn decided(call: &Call) -> (String, bool) {
    let asked = asked_for(call);
    let by_model = model::answer(&call.line());
    if let Some(reason) = difference(call, &asked, &by_model, false) {
        fail(&format!("{}\n{reason}", call.line()));
    }
    let (kind, _, mark) = ending(call);
    if mark == 0 && matches!(kind, 0 | 1 | 16 | 17 | 18) {
        (asked + " 0", true)
    } else {
        (by_model, false)
    }
}

// What was looked at: by family, method and ending, and by method and count for the families of moderate numbers.
#[derive(Default)]
struct Looked {
    made: BTreeMap<(usize, u8), BTreeMap<(u64, u64), Vec<Call>>>,
    counted: BTreeMap<(u8, usize), Vec<Call>>,
    endings: BTreeMap<(u8, u64, u64), Call>,
}

fn look(seed: u64) -> Looked {
    let known = known();
    let mut looked = Looked::default();
    for index in 0..LOOKED_AT {
        let call = families::call(seed, index, &known);
        let family = families::family(seed, index);
        let (kind, _, mark) = ending(&call);
        looked.endings.entry((call.method, kind, mark)).or_insert_with(|| call.clone());
        if NAMES[family].0 <= 7 && kind != 19 {
            let alike = looked.counted.entry((call.method, call.coefficients.len())).or_default();
            if alike.len() < KEPT {
                alike.push(call.clone());
            }
        }
        let alike = looked.made.entry((family, call.method)).or_default().entry((kind, mark)).or_default();
        if alike.len() < KEPT {
            alike.push(call);
        }
    }
    looked
}

impl Looked {
    // Calls with moderate numbers and different starts, a few of each count.
    fn plain(&self, method: u8) -> impl Iterator<Item = &Call> {
        let nth = move |i: usize| [2, 3, 4, 1, 5].into_iter().filter_map(move |n| self.counted.get(&(method, n))?.get(i));
        (0..KEPT).flat_map(nth).filter(|call| call.starts.len() == 1 || call.starts[0] != call.starts[1])
    }
    fn of_family(&self, method: u8, name: &str) -> impl Iterator<Item = &Call> {
        let family = NAMES.iter().position(|(_, other)| *other == name).unwrap_or(0);
        self.made.get(&(family, method)).into_iter().flat_map(|endings| endings.values().flatten())
    }
}

// Runs that need every step they may have, and runs that end by themselves.
fn limits(looked: &Looked, method: u8) -> Vec<Call> {
    let longest = |call: &&Call| ending(&Call { limit: 400, ..(*call).clone() }) == (18, 400, 0);
    let shorter = |call: &&Call| {
        let (kind, steps, _) = ending(&Call { limit: 400, ..(*call).clone() });
        kind < 10 && steps > 3
    };
    let all = || looked.of_family(method, "long runs").chain(looked.plain(method));
    let mut calls = Vec::new();
    for call in all().filter(longest).take(3).chain(all().filter(shorter).take(2)) {
        calls.extend(LIMITS.map(|limit| Call { limit, ..call.clone() }));
    }
    calls
}

fn with_count(call: &Call, count: usize) -> Call {
    Call { coefficients: call.coefficients.iter().copied().cycle().take(count).collect(), ..call.clone() }
}

fn counts(looked: &Looked, method: u8) -> Vec<Call> {
    let mut calls = Vec::new();
    for count in 0..=16 {
        let none = Vec::new();
        let alike = looked.counted.get(&(method, count)).unwrap_or(&none);
        // One of each ending first.
        let mut endings = HashSet::new();
        let (first, later): (Vec<&Call>, Vec<&Call>) = alike.iter().partition(|call| endings.insert(ending(call).0));
        calls.extend(first.into_iter().chain(later).take(4).cloned());
    }
    for count in [0, 17, 18, 40] {
        calls.extend(looked.plain(method).take(2).map(|call| with_count(call, count)));
    }
    calls
}

// No tolerances: what lies below the least one, what is not above zero and what is not finite.
fn bad_tolerances() -> impl Iterator<Item = f64> {
    let least = power_of_two(-300);
    let small = [neighbour(least, -1), power_of_two(-301), f64::MIN_POSITIVE, LEAST_SUBNORMAL, 0.0, -0.0, -least, -1.0];
    let not_numbers = [0x7ff8_0000_0000_0000, 0xfff0_0000_0000_0001].map(f64::from_bits);
    small.into_iter().chain([f64::INFINITY, -f64::INFINITY]).chain(not_numbers)
}

// Both tolerances at an edge, each alone, and two as far and as little apart as there is, both ways. The first call gets bad ones too.
fn tolerances(looked: &Looked, method: u8) -> Vec<Call> {
    let (least, largest) = (power_of_two(-300), f64::MAX);
    let mut calls = Vec::new();
    for (number, call) in looked.plain(method).take(2).enumerate() {
        let eps = call.value_tolerance;
        let bad = bad_tolerances().take(if number == 0 { usize::MAX } else { 0 });
        for edge in [least, neighbour(least, 1), largest].into_iter().chain(bad) {
            calls.push(call.with_eps(edge));
            calls.push(Call { value_tolerance: edge, ..call.with_eps(eps) });
            calls.push(Call { point_tolerance: edge, ..call.with_eps(eps) });
        }
        for (p, q) in [(least, largest), (eps, neighbour(eps, 1)), (eps, eps * 1024.0)] {
            calls.push(Call { value_tolerance: p, point_tolerance: q, ..call.clone() });
            calls.push(Call { value_tolerance: q, point_tolerance: p, ..call.clone() });
        }
    }
    calls
}

// Reversed and equal starts, both zeros and the least numbers beside them.
fn starts(looked: &Looked, method: u8) -> Vec<Call> {
    let mut calls = Vec::new();
    let zero_root = |call: &Call| {
        let mut call = call.clone();
        *call.coefficients.last_mut().unwrap() = 0.0;
        call
    };
    let bases: Vec<Call> = looked.plain(method).take(2).flat_map(|call| [call.clone(), zero_root(call)]).collect();
    for call in bases {
        let p = call.starts[0];
        let tiny = LEAST_SUBNORMAL;
        if method == NEWTON {
            calls.extend([p, -p, 0.0, -0.0, tiny, -tiny, f64::MAX].map(|x| Call { starts: vec![x], ..call.clone() }));
            continue;
        }
        let q = call.starts[1];
        let mut pairs = vec![[p, q], [q, p], [p, p], [q, q], [0.0, -0.0], [-0.0, 0.0], [0.0, 0.0], [-0.0, -0.0]];
        pairs.extend([[0.0, q], [-0.0, q], [p, 0.0], [p, -0.0], [tiny, -tiny], [-tiny, tiny], [p, tiny], [-tiny, q]]);
        pairs.extend([[neighbour(p, 1), p], [f64::MAX, -f64::MAX]]);
        calls.extend(pairs.iter().map(|pair| Call { starts: pair.to_vec(), ..call.clone() }));
    }
    calls
}

// Every reason of 1 to 5, every two of them, and all; 4 by each tolerance.
fn reasons(looked: &Looked, method: u8) -> Vec<Call> {
    let Some(plain) = looked.plain(method).next() else { return Vec::new() };
    let mut calls = Vec::new();
    for set in 1..32u32 {
        if set.count_ones() > 2 && set != 31 {
            continue;
        }
        let mut call = Call { limit: 9, ..plain.with_eps(0.25) };
        let has = |refusal: u32| set & (1 << (refusal - 1)) != 0;
        if has(1) {
            call = with_count(&call, 17);
        }
        if has(2) {
            *call.coefficients.last_mut().unwrap() = f64::INFINITY;
        }
        if has(3) {
            *call.starts.last_mut().unwrap() = f64::from_bits(0x7ff8_0000_0000_0000);
        }
        if has(5) {
            call.limit = 401;
        }
        if has(4) {
            calls.push(Call { value_tolerance: -0.25, ..call.clone() });
            call.point_tolerance = -0.25;
        }
        calls.push(call);
    }
    calls
}

// So many of a family's calls, from each ending in turn, in the order of their endings.
fn in_turn(endings: &BTreeMap<(u64, u64), Vec<Call>>, many: usize, stored: &mut HashSet<String>) -> Vec<Call> {
    let mut queues: Vec<_> = endings.values().map(|calls| (calls.iter(), Vec::new())).collect();
    let mut left = many;
    loop {
        let before = left;
        for (queue, taken) in &mut queues {
            if left > 0 {
                if let Some(call) = queue.find(|call| stored.insert(call.line())) {
                    taken.push(call.clone());
                    left -= 1;
                }
            }
        }
        if left == before {
            return queues.into_iter().flat_map(|(_, taken)| taken).collect();
        }
    }
}

// The groups in the order of the file. A call that stands in a list or in an earlier group is left out.
fn groups(count: usize, seed: u64) -> Vec<Group> {
    let looked = look(seed);
    let mut groups = Vec::new();
    let mut stored = HashSet::new();
    for (name, text) in KNOWN {
        let calls: Vec<Call> = listed(text).into_iter().map(|(call, _)| call).collect();
        stored.extend(calls.iter().map(Call::line));
        groups.push(Group { title: format!("oracle/inputs/{name}"), calls });
    }
    type Edge = fn(&Looked, u8) -> Vec<Call>;
    let edges: [(&str, Edge); 5] = [
        ("limits around 0 and 400", limits),
        ("counts of coefficients", counts),
        ("tolerances around 2^-300 and other edges of them", tolerances),
        ("reversed and equal starts, both zeros", starts),
        ("reasons to refuse at once, one, two or all", reasons),
    ];
    for (name, edge) in edges {
        for (method, method_name) in (1..).zip(METHODS) {
            let mut calls = edge(&looked, method);
            calls.retain(|call| stored.insert(call.line()));
            groups.push(Group { title: format!("{name}: {method_name}"), calls });
        }
    }
    let so_far: usize = groups.iter().map(|group| group.calls.len()).sum();
    let mut left = count.saturating_sub(so_far);
    let mut places = NAMES.len() * METHODS.len();
    for (family, (_, name)) in NAMES.iter().enumerate() {
        for (method, method_name) in (1..).zip(METHODS) {
            let none = BTreeMap::new();
            let endings = looked.made.get(&(family, method)).unwrap_or(&none);
            let calls = in_turn(endings, left / places, &mut stored);
            left -= calls.len();
            places -= 1;
            groups.push(Group { title: format!("{name}: {method_name}"), calls });
        }
    }
    let all: HashSet<_> = groups.iter().flat_map(|group| &group.calls).map(|call| (call.method, ending(call).0, ending(call).2)).collect();
    for ((method, kind, mark), call) in &looked.endings {
        if !all.contains(&(*method, *kind, *mark)) {
            fail(&format!("method {method} with kind {kind} and mark {mark} was left out: {}", call.line()));
        }
    }
    groups
}

// What must occur, with each method (Newton has one start).
fn traits(call: &Call) -> Vec<String> {
    let mut list = Vec::new();
    let size = |x: &f64| x.to_bits() & !(1 << 63);
    let subnormal = |x: &f64| (1..1 << 52).contains(&size(x));
    let huge = |x: &f64| (power_of_two(1000).to_bits()..0x7ff0_0000_0000_0000).contains(&size(x));
    let numbers = || call.coefficients.iter().chain(&call.starts);
    list.push(format!("limit {}", call.limit));
    list.push(format!("{} coefficients", call.coefficients.len()));
    let mut note = |name: &str, holds: bool| {
        if holds {
            list.push(name.to_string());
        }
    };
    note("a subnormal coefficient", call.coefficients.iter().any(subnormal));
    note("a subnormal start", call.starts.iter().any(subnormal));
    note("a number of 2^1000 or more", numbers().any(huge));
    note("a start +0", call.starts.iter().any(|x| x.to_bits() == 0));
    note("a start -0", call.starts.iter().any(|x| x.to_bits() == 1 << 63));
    note("a coefficient -0", call.coefficients.iter().any(|x| x.to_bits() == 1 << 63));
    let both_at = |edge: f64| call.value_tolerance == edge && call.point_tolerance == edge;
    note("both tolerances 2^-300", both_at(power_of_two(-300)));
    note("both tolerances just below 2^-300", both_at(neighbour(power_of_two(-300), -1)));
    for (name, tolerance, other) in
        [("value", call.value_tolerance, call.point_tolerance), ("point", call.point_tolerance, call.value_tolerance)]
    {
        let (least, alone) = (power_of_two(-300), other >= power_of_two(-300) && other != tolerance);
        note(&format!("{name} tolerance 2^-300 alone"), tolerance == least && alone);
        note(&format!("{name} tolerance just below alone"), tolerance == neighbour(least, -1) && alone);
        note(&format!("a larger {name} tolerance"), refused_at_once(call).is_none() && tolerance > other);
    }
    if let [p, q] = call.starts.as_slice() {
        note("reversed starts", p > q);
        note("equal starts", p == q);
        note("both zeros as starts", *p == 0.0 && *q == 0.0 && p.to_bits() != q.to_bits());
    }
    list
}

fn wanted() -> Vec<(String, bool)> {
    let mut list: Vec<(String, bool)> = Vec::new();
    list.extend([0, 1, 2, 399, 400, 401].map(|limit| (format!("limit {limit}"), true)));
    list.extend((1..=17).chain([40]).map(|count| (format!("{count} coefficients"), true)));
    for name in ["a subnormal coefficient", "a subnormal start", "a number of 2^1000 or more", "a start +0", "a start -0"] {
        list.push((name.to_string(), true));
    }
    list.push(("a coefficient -0".to_string(), true));
    list.extend(["both tolerances 2^-300", "both tolerances just below 2^-300"].map(|name| (name.to_string(), true)));
    for name in ["value", "point"] {
        list.push((format!("{name} tolerance 2^-300 alone"), true));
        list.push((format!("{name} tolerance just below alone"), true));
        list.push((format!("a larger {name} tolerance"), true));
    }
    list.extend(["reversed starts", "equal starts", "both zeros as starts"].map(|name| (name.to_string(), false)));
    list
}

fn print_rows(head: &str, rows: &[(String, [u64; 5])]) {
    print!("{head:34}");
    METHODS.iter().for_each(|name| print!("{name:>19}"));
    println!();
    for (name, counts) in rows {
        print!("{name:34}");
        counts.iter().for_each(|n| print!("{n:>19}"));
        println!();
    }
}

pub fn store(count: usize, seed: u64, folder: &str) {
    let groups = groups(count, seed);
    let mut stdin = String::new();
    let mut stdout = String::new();
    let mut sources = format!(
        "# Which route decided each line of stdout, by the number of the line. Written by oracle/stored {count} {seed}.\n\
         # rust: kind, numbers, steps and counts are those of the watched run of crate roots 0.0.8, but that of Brent's\n\
         # values its steps are taken away: the Rust works out the kept end's value again in each step, so where it\n\
         # evaluated v times in s completed steps, v - s is stored. Only that the mark is 0 comes from document 01.\n\
         # Its rule for values has the value tolerance and its rule for points the point tolerance.\n\
         # document: refusals 1 to 5 and 9 and marked answers, which the Rust lacks.\n"
    );
    let mut endings: BTreeMap<(u64, u64, bool), [u64; 5]> = BTreeMap::new();
    let mut seen: BTreeMap<String, [u64; 5]> = BTreeMap::new();
    let mut counts = vec![Counts::default(); 5];
    let mut line = 0;
    let mut by_rust = 0;
    for group in &groups {
        if group.calls.is_empty() {
            continue;
        }
        sources += &format!("# {} to {}: {}\n", line + 1, line + group.calls.len(), group.title);
        for call in &group.calls {
            let (answer, rust) = decided(call);
            line += 1;
            stdin += &(call.line() + "\n");
            stdout += &(answer.clone() + "\n");
            sources += &format!("{line} {}\n", if rust { "rust" } else { "document" });
            by_rust += u64::from(rust);
            let method = call.method as usize - 1;
            let (kind, _, mark) = ending(call);
            endings.entry((kind, mark, rust)).or_default()[method] += 1;
            counts[method].add(call, &answer);
            for name in traits(call) {
                seen.entry(name).or_default()[method] += 1;
            }
        }
    }
    // The lists have answers of their own.
    let listed_answers = KNOWN.iter().flat_map(|(_, text)| listed(text)).map(|(_, answer)| answer);
    for (number, (listed, answer)) in listed_answers.zip(stdout.lines()).enumerate() {
        if listed.is_some_and(|listed| listed != answer) {
            fail(&format!("line {}: the list has another answer", number + 1));
        }
    }
    let rows: Vec<(String, [u64; 5])> =
        wanted().into_iter().map(|(name, _)| (name.clone(), seen.get(&name).copied().unwrap_or_default())).collect();
    for ((name, newton_too), (_, counts)) in wanted().iter().zip(&rows) {
        for (method, n) in (1..).zip(counts) {
            if *n == 0 && (*newton_too || method != NEWTON) {
                fail(&format!("no call of {} has {name}", METHODS[method as usize - 1]));
            }
        }
    }
    for (name, text) in [("stdin", &stdin), ("stdout", &stdout), ("sources.txt", &sources)] {
        let path = std::path::Path::new(folder).join(name);
        let written = std::fs::create_dir_all(folder).and_then(|()| std::fs::write(&path, text));
        written.unwrap_or_else(|e| fail(&format!("{}: {e}", path.display())));
        println!("{}: {} bytes", path.display(), text.len());
    }
    println!("{line} calls, seed {seed}: {by_rust} answers by the Rust, {} by document 01", line as u64 - by_rust);
    print_table(&counts);
    let named = |(kind, mark, rust): (u64, u64, bool)| {
        let kind = match kind {
            0 => "value".to_string(),
            1 => "width".to_string(),
            _ => format!("no. {}", kind - 10),
        };
        format!("{kind}, mark {mark}, {}", if rust { "rust" } else { "document" })
    };
    print_rows("answer", &endings.into_iter().map(|(key, counts)| (named(key), counts)).collect::<Vec<_>>());
    print_rows("calls with", &rows);
}
