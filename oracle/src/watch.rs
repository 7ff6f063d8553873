// Watching the published methods from outside: closures count evaluations, a Convergency of our
// own notes every stop test, and a float type of our own shows what find_root evaluates inside.

use roots::{Convergency, FloatType, SimpleConvergency};
use std::cell::RefCell;
use std::ops::{Add, Div, Mul, Neg, Sub};

#[derive(Clone, Copy)]
pub enum Test {
    Found { y: f64, held: bool },
    Converged { p: f64, q: f64, held: bool },
    Limit { iter: usize, held: bool },
}

#[derive(Clone, Copy, Default)]
pub struct Tallies {
    pub steps: u64,
    pub values: u64,
    pub derivatives: u64,
}

// What was seen of one run. `not_finite` holds the tallies at the first value, derivative,
// point or candidate that was not finite.
#[derive(Default)]
pub struct Seen {
    pub tallies: Tallies,
    pub not_finite: Option<Tallies>,
    pub last: Option<Test>,
    pub kept: Option<Vec<Test>>,
}

impl Seen {
    pub fn check(&mut self, x: f64) {
        if !x.is_finite() && self.not_finite.is_none() {
            self.not_finite = Some(self.tallies);
        }
    }
    pub fn value(&mut self, y: f64) {
        self.tallies.values += 1;
        self.check(y);
    }
    pub fn derivative(&mut self, d: f64) {
        self.tallies.derivatives += 1;
        self.check(d);
    }
    pub fn both(&mut self, y: f64, d: f64) {
        self.tallies.values += 1;
        self.tallies.derivatives += 1;
        self.check(y);
        self.check(d);
    }
    fn note(&mut self, test: Test) {
        self.last = Some(test);
        if let Some(kept) = &mut self.kept {
            kept.push(test);
        }
    }
}

// Two of the crate's own rules, one for values and one for points. Both have the limit.
pub struct Rules {
    pub value: SimpleConvergency<f64>,
    pub point: SimpleConvergency<f64>,
}

impl Convergency<f64> for Rules {
    fn is_root_found(&mut self, y: f64) -> bool {
        self.value.is_root_found(y)
    }
    fn is_converged(&mut self, p: f64, q: f64) -> bool {
        self.point.is_converged(p, q)
    }
    fn is_iteration_limit_reached(&mut self, iter: usize) -> bool {
        self.value.is_iteration_limit_reached(iter)
    }
}

// Asks the rules and notes question and answer.
pub struct Recorder<'a> {
    pub rules: Rules,
    pub seen: &'a RefCell<Seen>,
}

impl Convergency<f64> for Recorder<'_> {
    fn is_root_found(&mut self, y: f64) -> bool {
        let held = self.rules.is_root_found(y);
        self.seen.borrow_mut().note(Test::Found { y, held });
        held
    }
    fn is_converged(&mut self, p: f64, q: f64) -> bool {
        let held = self.rules.is_converged(p, q);
        let mut seen = self.seen.borrow_mut();
        seen.check(p);
        seen.check(q);
        seen.note(Test::Converged { p, q, held });
        held
    }
    fn is_iteration_limit_reached(&mut self, iter: usize) -> bool {
        let held = self.rules.is_iteration_limit_reached(iter);
        let mut seen = self.seen.borrow_mut();
        seen.tallies.steps = iter as u64;
        seen.note(Test::Limit { iter, held });
        held
    }
}

// An f64 whose operations are written to a log.
#[derive(Clone, Copy, Debug, PartialEq, PartialOrd)]
pub struct Watched(pub f64);

#[derive(Clone, Copy, Debug, PartialEq)]
enum Operation {
    Zero,
    One,
    Add,
    Mul,
    Other,
}

struct Entry {
    operation: Operation,
    right: f64,
    result: f64,
}

thread_local! {
    static LOG: RefCell<Vec<Entry>> = const { RefCell::new(Vec::new()) };
}

fn log(operation: Operation, right: f64, result: f64) -> Watched {
    LOG.with(|log| log.borrow_mut().push(Entry { operation, right, result }));
    Watched(result)
}

impl From<i16> for Watched {
    fn from(n: i16) -> Self {
        log(Operation::Other, 0.0, f64::from(n))
    }
}
impl Neg for Watched {
    type Output = Self;
    fn neg(self) -> Self {
        log(Operation::Other, 0.0, -self.0)
    }
}
impl Add for Watched {
    type Output = Self;
    fn add(self, right: Self) -> Self {
        log(Operation::Add, right.0, self.0 + right.0)
    }
}
impl Sub for Watched {
    type Output = Self;
    fn sub(self, right: Self) -> Self {
        log(Operation::Other, right.0, self.0 - right.0)
    }
}
impl Mul for Watched {
    type Output = Self;
    fn mul(self, right: Self) -> Self {
        log(Operation::Mul, right.0, self.0 * right.0)
    }
}
impl Div for Watched {
    type Output = Self;
    fn div(self, right: Self) -> Self {
        log(Operation::Other, right.0, self.0 / right.0)
    }
}

// find_root asks for zero, one and abs; the rest belongs to parts that are not run.
impl FloatType for Watched {
    fn zero() -> Self {
        log(Operation::Zero, 0.0, 0.0)
    }
    fn one() -> Self {
        log(Operation::One, 0.0, 1.0)
    }
    fn abs(self) -> Self {
        Watched(self.0.abs())
    }
    fn one_third() -> Self {
        unimplemented!()
    }
    fn pi() -> Self {
        unimplemented!()
    }
    fn two_third_pi() -> Self {
        unimplemented!()
    }
    fn sqrt(self) -> Self {
        unimplemented!()
    }
    fn atan(self) -> Self {
        unimplemented!()
    }
    fn acos(self) -> Self {
        unimplemented!()
    }
    fn sin(self) -> Self {
        unimplemented!()
    }
    fn cos(self) -> Self {
        unimplemented!()
    }
    fn powf(self, _: Self) -> Self {
        unimplemented!()
    }
}

// The stop tests of the watched run. The log is read out at every step, so it stays short.
pub struct Follower<'a> {
    pub rules: Rules,
    pub coefficients: usize,
    pub seen: &'a RefCell<Seen>,
}

impl Convergency<Watched> for Follower<'_> {
    fn is_root_found(&mut self, y: Watched) -> bool {
        self.rules.is_root_found(y.0)
    }
    fn is_converged(&mut self, p: Watched, q: Watched) -> bool {
        self.rules.is_converged(p.0, q.0)
    }
    fn is_iteration_limit_reached(&mut self, iter: usize) -> bool {
        read_log(self.coefficients, &mut self.seen.borrow_mut());
        self.seen.borrow_mut().tallies.steps = iter as u64;
        self.rules.is_iteration_limit_reached(iter)
    }
}

pub fn forget_log() {
    LOG.with(|log| log.borrow_mut().clear());
}

// Reads the evaluations out of the log and empties it. polynom.rs begins `value` with zero, one
// and `value_and_derivative` with one and four zeros; nothing else in find_root asks for one.
pub fn read_log(coefficients: usize, seen: &mut Seen) {
    use Operation::{Add, Mul, One, Zero};
    const VALUE_TERM: [Operation; 3] = [Mul, Add, Mul];
    const BOTH_TERM: [Operation; 8] = [Mul, Add, Mul, Mul, Add, Mul, One, Add];
    LOG.with(|log| {
        let mut log = log.borrow_mut();
        let follows = |at: usize, pattern: &[Operation]| {
            at + pattern.len() <= log.len() && pattern.iter().zip(&log[at..]).all(|(p, e)| *p == e.operation)
        };
        let mut at = 0;
        while at < log.len() {
            if follows(at, &[Zero, One]) {
                at += 2;
                if coefficients > 0 {
                    seen.check(log[at + 2].right);
                }
                for _ in 0..coefficients {
                    assert!(follows(at, &VALUE_TERM));
                    at += VALUE_TERM.len();
                }
                assert!(follows(at, &[Add]));
                seen.value(log[at].result);
                at += 1;
            } else if follows(at, &[One, Zero, Zero, Zero, Zero]) {
                at += 5;
                if coefficients > 0 {
                    seen.check(log[at + 5].right);
                }
                for _ in 0..coefficients {
                    assert!(follows(at, &BOTH_TERM));
                    at += BOTH_TERM.len();
                }
                assert!(follows(at, &[Add, Mul, Add]));
                seen.both(log[at].result, log[at + 2].result);
                at += 3;
            } else {
                assert!(log[at].operation != One);
                at += 1;
            }
        }
        log.clear();
    })
}
