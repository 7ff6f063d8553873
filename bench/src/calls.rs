// The calls of a cell: polynomials made from known roots, with starts around one of them.

use crate::sides::proved;

pub const COUNTS: [usize; 5] = [1, 2, 4, 8, 16];
pub const CALLS: usize = 500;
// Both tolerances: the crate's SimpleConvergency has one number for them.
pub const EPS: f64 = 1e-12;
pub const LIMIT: u64 = 100;

#[derive(Clone, Copy, Debug, PartialEq)]
pub enum Method {
    Brent = 1,
    Illinois = 2,
    Secant = 3,
    Newton = 4,
    Polynom = 5,
}

pub const METHODS: [Method; 5] = [Method::Brent, Method::Illinois, Method::Secant, Method::Newton, Method::Polynom];

impl Method {
    pub fn words(self) -> &'static str {
        match self {
            Method::Brent => "Brent",
            Method::Illinois => "Illinois",
            Method::Secant => "secant",
            Method::Newton => "Newton",
            Method::Polynom => "polynomial search",
        }
    }
}

#[derive(Clone, Copy, PartialEq)]
pub enum Row {
    Search,
    AtOnce,
    Refused,
}

pub const ROWS: [Row; 3] = [Row::Search, Row::AtOnce, Row::Refused];

impl Row {
    pub fn name(self) -> &'static str {
        match self {
            Row::Search => "search",
            Row::AtOnce => "at-once",
            Row::Refused => "refused",
        }
    }
    pub fn words(self) -> &'static str {
        match self {
            Row::Search => "Searches that find a root",
            Row::AtOnce => "Searches whose first start is the root",
            Row::Refused => "Searches refused with 6 or 7",
        }
    }
}

#[derive(Clone, Debug)]
pub struct Call {
    pub method: Method,
    a: [f64; 16],
    count: usize,
    pub first: f64,
    pub second: f64,
    pub value_tolerance: f64,
    pub point_tolerance: f64,
    pub limit: u64,
}

impl Call {
    #[inline(always)]
    pub fn coefficients(&self) -> &[f64] {
        &self.a[..self.count]
    }
}

// xorshift64*
struct Dice(u64);

impl Dice {
    fn next(&mut self) -> u64 {
        self.0 ^= self.0 >> 12;
        self.0 ^= self.0 << 25;
        self.0 ^= self.0 >> 27;
        self.0.wrapping_mul(0x2545_f491_4f6c_dd1d)
    }
    fn between(&mut self, low: f64, high: f64) -> f64 {
        low + (high - low) * ((self.next() >> 11) as f64 / (1u64 << 53) as f64)
    }
    fn either(&mut self) -> bool {
        self.next() >> 63 == 1
    }
}

// p times x^k + factor[0] x^(k-1) + .., where p has the leading 1 written out.
fn times(p: &[f64], factor: &[f64]) -> Vec<f64> {
    let mut product = vec![0.0; p.len() + factor.len()];
    for (i, c) in p.iter().enumerate() {
        product[i] += c;
        for (j, f) in factor.iter().enumerate() {
            product[i + j + 1] += c * f;
        }
    }
    product
}

// The real root `root`; for an even count another real one of size 2 to 3; all others in pairs that are not real.
fn polynomial(dice: &mut Dice, count: usize, root: f64) -> Vec<f64> {
    let mut p = times(&[1.0], &[-root]);
    if count % 2 == 0 {
        let far = dice.between(2.0, 3.0);
        p = times(&p, &[if dice.either() { far } else { -far }]);
    }
    while p.len() <= count {
        let (size, angle) = (dice.between(0.6, 1.3), dice.between(0.3, 2.8));
        p = times(&p, &[-2.0 * size * angle.cos(), size * size]);
    }
    p[1..].to_vec()
}

// A quarter-valued s, and a polynomial whose slope is zero at s and at s + 1, where Newton is nudged to.
fn flat(dice: &mut Dice, count: usize) -> Option<(Vec<f64>, f64)> {
    if count < 4 {
        return None;
    }
    let s = dice.between(-4.0, 2.0).round() / 4.0;
    let mut slope = times(&times(&[1.0], &[-s]), &[-s - 1.0]);
    while slope.len() < count {
        slope = times(&slope, &[dice.between(-1.0, 1.0)]);
    }
    let n = count as f64;
    let mut a: Vec<f64> = slope[1..].iter().enumerate().map(|(i, c)| c * n / (n - 1.0 - i as f64)).collect();
    a.push(dice.between(1.0, 2.0));
    Some((a, s))
}

fn drawn(dice: &mut Dice, row: Row, method: Method, count: usize) -> Option<Call> {
    let root = dice.between(-0.9, 0.9);
    let (left, right) = (root - dice.between(0.1, 0.7), root + dice.between(0.1, 0.7));
    let mut coefficients = polynomial(dice, count, root);
    let (mut first, mut second) = if dice.either() { (left, right) } else { (right, left) };
    if row == Row::Refused {
        match method {
            Method::Secant => second = first,
            Method::Newton => (coefficients, first) = flat(dice, count)?,
            _ => second = first + (first - root) * dice.between(0.1, 0.4),
        }
    }
    let mut a = [0.0; 16];
    a[..count].copy_from_slice(&coefficients);
    let mut call = Call { method, a, count, first, second, value_tolerance: EPS, point_tolerance: EPS, limit: LIMIT };
    let answer = proved(&call);
    if answer.tallies[3] != 0 {
        return None;
    }
    let found = answer.kind < 10;
    match row {
        Row::Search => (found && (answer.numbers[0] - root).abs() < 1e-6).then_some(call),
        Row::Refused => (answer.kind == 16 || answer.kind == 17).then_some(call),
        Row::AtOnce => {
            // The root that the search found by its value becomes the first and smaller start.
            call.first = answer.numbers[0];
            call.second = right;
            let again = proved(&call);
            (answer.kind == 0 && again.kind == 0 && again.tallies[0] == 0 && again.tallies[3] == 0).then_some(call)
        }
    }
}

// The same calls in every run. Draws that a method doesn't answer as the row wants are left out; no calls at all if too many are.
pub fn calls_of(row: Row, method: Method, count: usize) -> Vec<Call> {
    let mut dice = Dice(0x9e37_79b9_7f4a_7c15 ^ (row as u64 * 1000 + method as u64 * 100 + count as u64));
    let mut calls = Vec::new();
    for _ in 0..40 * CALLS {
        if calls.len() < CALLS {
            calls.extend(drawn(&mut dice, row, method, count));
        }
    }
    if calls.len() < CALLS {
        calls.clear();
    }
    calls
}
