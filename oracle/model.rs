// A second route to document 01 with document 02's two tolerances: the five methods written from their rules alone.
// Nothing of the published crate is used here; `compare` holds the two side by side.

// The stop rule's constants. 2^-300 has the biased exponent 1023 - 300.
const LEAST_TOLERANCE: f64 = f64::from_bits((1023 - 300) << 52);
const GREATEST_LIMIT: u64 = 400;
const MOST_COEFFICIENTS: usize = 16;

// A line may carry more coefficients than a call may have, so that refusal 1 can be asked for.
const MOST_ON_A_LINE: u64 = 40;

// A point and the computed value there.
#[derive(Clone, Copy)]
struct Sample {
    x: f64,
    y: f64,
}

// Values are measured by the first tolerance, points by the second.
struct StopRule {
    value_tolerance: f64,
    point_tolerance: f64,
    limit: u64,
}

impl StopRule {
    fn found(&self, y: f64) -> bool {
        y.abs() < self.value_tolerance
    }
    fn converged(&self, p: f64, q: f64) -> bool {
        (p - q).abs() < self.point_tolerance
    }
    fn reached(&self, steps: u64) -> bool {
        steps >= self.limit
    }
}

// How a run ends. Refusals carry no numbers.
enum Answer {
    ByValue { root: f64, value: f64 },
    ByWidth { root: f64, p: f64, q: f64 },
    Refused(u8),
}

use Answer::{ByValue, ByWidth, Refused};

const NO_BRACKETING: u8 = 6;
const ZERO_DERIVATIVE: u8 = 7;
const NO_CONVERGENCY: u8 = 8;
const NOT_FINITE: u8 = 9;

// The polynomial with what was counted so far.
struct Run<'a> {
    a: &'a [f64],
    steps: u64,
    values: u64,
    derivatives: u64,
    mark: u8,
}

impl Run<'_> {
    // The mark keeps the first added rule that departed from the Rust.
    fn depart(&mut self, rule: u8) {
        if self.mark == 0 {
            self.mark = rule;
        }
    }

    // The value at x, counted, then checked. Nothing stands for refusal 9.
    fn evaluate(&mut self, x: f64) -> Option<Sample> {
        self.values += 1;
        let y = value(self.a, x);
        if finite(y) {
            Some(Sample { x, y })
        } else {
            None
        }
    }

    // The value with its derivative: one of each, checked together.
    fn evaluate_both(&mut self, x: f64) -> Option<(Sample, f64)> {
        self.values += 1;
        self.derivatives += 1;
        let y = value(self.a, x);
        let d = derivative(self.a, x);
        if finite(y) && finite(d) {
            Some((Sample { x, y }, d))
        } else {
            None
        }
    }

    // A finite candidate outside of the pair becomes the nearer end.
    fn pull(&mut self, u: f64, v: f64, x: f64) -> f64 {
        let (low, high) = if u <= v { (u, v) } else { (v, u) };
        if x < low {
            self.depart(2);
            low
        } else if high < x {
            self.depart(2);
            high
        } else {
            x
        }
    }

    // The sign rule's answer; the mark notes when the product test says otherwise.
    fn by_sign(&mut self, by_sign: bool, by_product: bool) -> bool {
        if by_sign != by_product {
            self.depart(1);
        }
        by_sign
    }
}

// Finite: the eleven exponent bits are not all ones.
fn finite(x: f64) -> bool {
    (x.to_bits() >> 52) & 2047 != 2047
}

fn same_sign(p: f64, q: f64) -> bool {
    (p > 0.0 && q > 0.0) || (p < 0.0 && q < 0.0)
}

fn opposite_sign(p: f64, q: f64) -> bool {
    (p > 0.0 && q < 0.0) || (p < 0.0 && q > 0.0)
}

// x^n + a[0]x^(n-1) + ... + a[n-1], added from a[n-1] upwards, the last xn at the end.
fn value(a: &[f64], x: f64) -> f64 {
    let mut sum = 0.0;
    let mut xn = 1.0;
    for i in (0..a.len()).rev() {
        sum = sum + a[i] * xn;
        xn = xn * x;
    }
    sum + xn
}

// The derivative in the same order; a term is (a * n) * xn1.
fn derivative(a: &[f64], x: f64) -> f64 {
    let mut sum = 0.0;
    let mut xn = 1.0;
    let mut xn1 = 0.0;
    let mut n = 0.0;
    for i in (0..a.len()).rev() {
        sum = sum + (a[i] * n) * xn1;
        xn1 = xn;
        xn = xn * x;
        n = n + 1.0;
    }
    sum + n * xn1
}

// Smaller first; equal ones keep their order.
fn ordered(p: f64, q: f64) -> (f64, f64) {
    if p > q {
        (q, p)
    } else {
        (p, q)
    }
}

// The larger size first; on a tie the second argument comes first.
fn arrange(p: Sample, q: Sample) -> (Sample, Sample) {
    if p.y.abs() > q.y.abs() {
        (p, q)
    } else {
        (q, p)
    }
}

fn brent(run: &mut Run, first: f64, second: f64, stop: &StopRule) -> Answer {
    let Some(p) = run.evaluate(first) else { return Refused(NOT_FINITE) };
    let Some(q) = run.evaluate(second) else { return Refused(NOT_FINITE) };
    let (mut a, mut b) = arrange(p, q);
    if run.by_sign(same_sign(a.y, b.y), a.y * b.y > 0.0) {
        return Refused(NO_BRACKETING);
    }
    let mut c = a;
    let mut d = a.x;
    let mut flag = true;
    loop {
        if stop.found(a.y) {
            return ByValue { root: a.x, value: a.y };
        }
        if stop.found(b.y) {
            return ByValue { root: b.x, value: b.y };
        }
        if stop.converged(a.x, b.x) {
            return ByWidth { root: c.x, p: a.x, q: b.x };
        }
        let mut s = if a.y != c.y && b.y != c.y {
            let at_a = a.x * b.y * c.y / ((a.y - b.y) * (a.y - c.y));
            let at_b = b.x * a.y * c.y / ((b.y - a.y) * (b.y - c.y));
            let at_c = c.x * a.y * b.y / ((c.y - a.y) * (c.y - b.y));
            at_a + at_b + at_c
        } else {
            b.x - b.y * (b.x - a.x) / (b.y - a.y)
        };
        let first_holds = (s - b.x) * (s - (3.0 * a.x + b.x) / 4.0) > 0.0;
        let second_holds = flag && (s - b.x).abs() >= (b.x - c.x).abs() / 2.0;
        let third_holds = !flag && (s - b.x).abs() >= (c.x - d).abs() / 2.0;
        let fourth_holds = flag && stop.converged(b.x, c.x);
        let fifth_holds = !flag && stop.converged(c.x, d);
        if first_holds || second_holds || third_holds || fourth_holds || fifth_holds {
            s = (a.x + b.x) / 2.0;
            flag = true;
        } else {
            flag = false;
        }
        if !finite(s) {
            return Refused(NOT_FINITE);
        }
        s = run.pull(a.x, b.x, s);
        let Some(t) = run.evaluate(s) else { return Refused(NOT_FINITE) };
        d = c.x;
        c = b;
        // Both ends' values are kept with the points: only the new point is evaluated.
        if run.by_sign(opposite_sign(a.y, t.y), a.y * t.y < 0.0) {
            (a, b) = arrange(a, t);
        } else {
            (a, b) = arrange(t, b);
        }
        run.steps += 1;
        if stop.reached(run.steps) {
            return Refused(NO_CONVERGENCY);
        }
    }
}

// Which end the step before replaced.
#[derive(Clone, Copy, PartialEq)]
enum Edge {
    First,
    Neither,
    Second,
}

// The branch that the product tests would take, on the weights that the Rust multiplies.
fn edge_by_product(y: f64, weight1: f64, weight2: f64) -> Edge {
    if y * weight1 > 0.0 {
        Edge::First
    } else if y * weight2 > 0.0 {
        Edge::Second
    } else {
        Edge::Neither
    }
}

fn illinois(run: &mut Run, first: f64, second: f64, stop: &StopRule) -> Answer {
    let (low, high) = ordered(first, second);
    let Some(mut s1) = run.evaluate(low) else { return Refused(NOT_FINITE) };
    if stop.found(s1.y) {
        return ByValue { root: s1.x, value: s1.y };
    }
    let Some(mut s2) = run.evaluate(high) else { return Refused(NOT_FINITE) };
    if stop.found(s2.y) {
        return ByValue { root: s2.x, value: s2.y };
    }
    if run.by_sign(same_sign(s1.y, s2.y), s1.y * s2.y > 0.0) {
        return Refused(NO_BRACKETING);
    }
    let (mut weight1, mut weight2) = (s1.y, s2.y);
    let mut edge = Edge::Neither;
    loop {
        let x = (s1.x * weight2 - s2.x * weight1) / (weight2 - weight1);
        if !finite(x) {
            return Refused(NOT_FINITE);
        }
        let x = run.pull(s1.x, s2.x, x);
        if stop.converged(s1.x, s2.x) {
            return ByWidth { root: x, p: s1.x, q: s2.x };
        }
        let Some(s) = run.evaluate(x) else { return Refused(NOT_FINITE) };
        if stop.found(s.y) {
            return ByValue { root: s.x, value: s.y };
        }
        let by_product = edge_by_product(s.y, weight1, weight2);
        if same_sign(s.y, s1.y) {
            run.by_sign(true, by_product == Edge::First);
            s1 = s;
            weight1 = s.y;
            if edge == Edge::First {
                weight2 = weight2 / 2.0;
            }
            edge = Edge::First;
        } else {
            run.by_sign(true, by_product == Edge::Second);
            s2 = s;
            weight2 = s.y;
            if edge == Edge::Second {
                weight1 = weight1 / 2.0;
            }
            edge = Edge::Second;
        }
        run.steps += 1;
        if stop.reached(run.steps) {
            return Refused(NO_CONVERGENCY);
        }
    }
}

fn secant(run: &mut Run, first: f64, second: f64, stop: &StopRule) -> Answer {
    let Some(mut s1) = run.evaluate(first) else { return Refused(NOT_FINITE) };
    if stop.found(s1.y) {
        return ByValue { root: s1.x, value: s1.y };
    }
    let Some(mut s2) = run.evaluate(second) else { return Refused(NOT_FINITE) };
    if stop.found(s2.y) {
        return ByValue { root: s2.x, value: s2.y };
    }
    loop {
        if (s1.y - s2.y).abs() < stop.value_tolerance {
            return Refused(ZERO_DERIVATIVE);
        }
        let x = s2.x - s2.y * (s2.x - s1.x) / (s2.y - s1.y);
        if !finite(x) {
            return Refused(NOT_FINITE);
        }
        if stop.converged(x, s2.x) {
            return ByWidth { root: x, p: x, q: s2.x };
        }
        let Some(s) = run.evaluate(x) else { return Refused(NOT_FINITE) };
        if stop.found(s.y) {
            return ByValue { root: s.x, value: s.y };
        }
        s1 = s2;
        s2 = s;
        run.steps += 1;
        if stop.reached(run.steps) {
            return Refused(NO_CONVERGENCY);
        }
    }
}

fn newton(run: &mut Run, start: f64, stop: &StopRule) -> Answer {
    let mut x = start;
    loop {
        let Some((s, slope)) = run.evaluate_both(x) else { return Refused(NOT_FINITE) };
        if stop.found(s.y) {
            return ByValue { root: x, value: s.y };
        }
        if slope.abs() < stop.value_tolerance {
            if run.steps != 0 {
                return Refused(ZERO_DERIVATIVE);
            }
            // The nudge is a step without a limit test.
            x = x + 1.0;
            run.steps += 1;
            if !finite(x) {
                return Refused(NOT_FINITE);
            }
            continue;
        }
        let x1 = x - s.y / slope;
        if !finite(x1) {
            return Refused(NOT_FINITE);
        }
        if stop.converged(x, x1) {
            return ByWidth { root: x1, p: x, q: x1 };
        }
        x = x1;
        run.steps += 1;
        if stop.reached(run.steps) {
            return Refused(NO_CONVERGENCY);
        }
    }
}

// The secant's point, held between 1/27 and 26/27 of the width; half way where there is none.
fn middle(begin: Sample, end: Sample) -> f64 {
    if !same_sign(begin.y, end.y) && begin.y != end.y {
        let mut shift = -begin.y * (end.x - begin.x) / (end.y - begin.y);
        if shift < (end.x - begin.x) / 27.0 {
            shift = (end.x - begin.x) / 27.0;
        }
        if shift > (end.x - begin.x) * 26.0 / 27.0 {
            shift = (end.x - begin.x) * 26.0 / 27.0;
        }
        begin.x + shift
    } else {
        (begin.x + end.x) / 2.0
    }
}

fn polynomial_search(run: &mut Run, first: f64, second: f64, stop: &StopRule) -> Answer {
    let (low, high) = ordered(first, second);
    let Some(mut begin) = run.evaluate(low) else { return Refused(NOT_FINITE) };
    let Some(mut end) = run.evaluate(high) else { return Refused(NOT_FINITE) };
    if !run.by_sign(!same_sign(begin.y, end.y), begin.y * end.y <= 0.0) {
        return Refused(NO_BRACKETING);
    }
    loop {
        if stop.found(begin.y) {
            return ByValue { root: begin.x, value: begin.y };
        }
        if stop.found(end.y) {
            return ByValue { root: end.x, value: end.y };
        }
        let converged = stop.converged(begin.x, end.x);
        let x = middle(begin, end);
        if !finite(x) {
            return Refused(NOT_FINITE);
        }
        let x = run.pull(begin.x, end.x, x);
        if converged {
            return ByWidth { root: x, p: begin.x, q: end.x };
        }
        let Some((at_middle, slope)) = run.evaluate_both(x) else { return Refused(NOT_FINITE) };
        let mut next = at_middle;
        if slope != 0.0 {
            let newton_point = at_middle.x - at_middle.y / slope;
            if newton_point >= begin.x && newton_point <= end.x {
                let Some(at_newton) = run.evaluate(newton_point) else { return Refused(NOT_FINITE) };
                if at_newton.y.abs() < at_middle.y.abs() {
                    next = at_newton;
                }
            }
        }
        if run.by_sign(!same_sign(begin.y, next.y), begin.y * next.y <= 0.0) {
            end = next;
        } else {
            begin = next;
        }
        run.steps += 1;
        if stop.reached(run.steps) {
            return Refused(NO_CONVERGENCY);
        }
    }
}

struct Call {
    method: u8,
    coefficients: Vec<f64>,
    starts: Vec<f64>,
    value_tolerance: f64,
    point_tolerance: f64,
    limit: u64,
}

fn bad_tolerance(x: f64) -> bool {
    !finite(x) || x < LEAST_TOLERANCE
}

// Refusals 1 to 5, in this order, before any evaluation.
fn refused_at_once(call: &Call) -> Option<u8> {
    let count = call.coefficients.len();
    if count == 0 || count > MOST_COEFFICIENTS {
        return Some(1);
    }
    if !call.coefficients.iter().all(|&x| finite(x)) {
        return Some(2);
    }
    if !call.starts.iter().all(|&x| finite(x)) {
        return Some(3);
    }
    if bad_tolerance(call.value_tolerance) || bad_tolerance(call.point_tolerance) {
        return Some(4);
    }
    if call.limit > GREATEST_LIMIT {
        return Some(5);
    }
    None
}

fn search<'a>(call: &'a Call) -> (Answer, Run<'a>) {
    let mut run = Run { a: &call.coefficients, steps: 0, values: 0, derivatives: 0, mark: 0 };
    let Call { value_tolerance, point_tolerance, limit, .. } = *call;
    let stop = StopRule { value_tolerance, point_tolerance, limit };
    let starts = &call.starts;
    let answer = match refused_at_once(call) {
        Some(refusal) => Refused(refusal),
        None => match call.method {
            1 => brent(&mut run, starts[0], starts[1], &stop),
            2 => illinois(&mut run, starts[0], starts[1], &stop),
            3 => secant(&mut run, starts[0], starts[1], &stop),
            4 => newton(&mut run, starts[0], &stop),
            _ => polynomial_search(&mut run, starts[0], starts[1], &stop),
        },
    };
    (answer, run)
}

// A number in decimal digits and nothing else.
fn decimal(field: Option<&str>, what: &'static str) -> Result<u64, &'static str> {
    let field = field.ok_or(what)?;
    if !field.bytes().all(|b| b.is_ascii_digit()) {
        return Err(what);
    }
    field.parse().map_err(|_| what)
}

// A double as the 16 hex digits of its bits.
fn double(field: Option<&str>, what: &'static str) -> Result<f64, &'static str> {
    let field = field.ok_or(what)?;
    if field.len() != 16 || !field.bytes().all(|b| b.is_ascii_hexdigit()) {
        return Err(what);
    }
    u64::from_str_radix(field, 16).map(f64::from_bits).map_err(|_| what)
}

fn read(line: &str) -> Result<Call, &'static str> {
    let mut fields = line.split_ascii_whitespace();
    let method = match fields.next() {
        Some("1") => 1,
        Some("2") => 2,
        Some("3") => 3,
        Some("4") => 4,
        Some("5") => 5,
        _ => return Err("method"),
    };
    let count = decimal(fields.next(), "count")?;
    if count > MOST_ON_A_LINE {
        return Err("count");
    }
    let mut coefficients = Vec::new();
    for _ in 0..count {
        coefficients.push(double(fields.next(), "coefficient")?);
    }
    let mut starts = Vec::new();
    for _ in 0..(if method == 4 { 1 } else { 2 }) {
        starts.push(double(fields.next(), "start")?);
    }
    let value_tolerance = double(fields.next(), "value tolerance")?;
    let point_tolerance = double(fields.next(), "point tolerance")?;
    let limit = decimal(fields.next(), "limit")?;
    if fields.next().is_some() {
        return Err("length");
    }
    Ok(Call { method, coefficients, starts, value_tolerance, point_tolerance, limit })
}

// One line in, one line out: KIND NUMBERS.. STEPS VALUES DERIVATIVES MARK, or error REASON.
pub fn answer(line: &str) -> String {
    let call = match read(line) {
        Ok(call) => call,
        Err(reason) => return format!("error {reason}"),
    };
    let (answer, run) = search(&call);
    let tallies = format!("{} {} {} {}", run.steps, run.values, run.derivatives, run.mark);
    match answer {
        ByValue { root, value } => format!("0 {:016x} {:016x} {tallies}", root.to_bits(), value.to_bits()),
        ByWidth { root, p, q } => {
            format!("1 {:016x} {:016x} {:016x} {tallies}", root.to_bits(), p.to_bits(), q.to_bits())
        }
        Refused(number) => format!("{} {tallies}", 10 + number),
    }
}

#[allow(dead_code)]
fn main() -> std::io::Result<()> {
    use std::io::{BufRead, Write};
    let mut out = std::io::BufWriter::new(std::io::stdout().lock());
    for line in std::io::stdin().lock().split(b'\n') {
        writeln!(out, "{}", answer(&String::from_utf8_lossy(&line?)))?;
    }
    out.flush()
}
