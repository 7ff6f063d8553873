// The crate roots 0.0.8 made to tell what the proved side tells: the call is checked, values are counted and must be finite,
// and the reason, the tallies and all numbers are written. It has no mark, pulls no point and checks no candidate, so it still
// does less. The polynomial search has no closure to count in, and is left out.

use crate::calls::{Call, Method};
use crate::plain::LEAST_TOLERANCE;
use crate::sides::Answer;
use roots::{find_root_brent, find_root_newton_raphson, find_root_regula_falsi, find_root_secant};
use roots::{Convergency, Polynom, SearchError};
use std::cell::Cell;

// The test that was made last is the one that ended the search.
#[derive(Clone, Copy)]
enum Last {
    Value(f64),
    Width(f64, f64),
}

struct Telling {
    value_tolerance: f64,
    point_tolerance: f64,
    limit: u64,
    steps: u64,
    last: Last,
}

impl Telling {
    #[inline(always)]
    fn new(call: &Call) -> Telling {
        let Call { value_tolerance, point_tolerance, limit, .. } = *call;
        Telling { value_tolerance, point_tolerance, limit, steps: 0, last: Last::Value(0.0) }
    }
}

impl Convergency<f64> for Telling {
    #[inline(always)]
    fn is_root_found(&mut self, y: f64) -> bool {
        self.last = Last::Value(y);
        y.abs() < self.value_tolerance
    }
    #[inline(always)]
    fn is_converged(&mut self, x1: f64, x2: f64) -> bool {
        self.last = Last::Width(x1, x2);
        (x1 - x2).abs() < self.point_tolerance
    }
    #[inline(always)]
    fn is_iteration_limit_reached(&mut self, iter: usize) -> bool {
        self.steps = iter as u64;
        iter as u64 >= self.limit
    }
}

#[inline(always)]
fn bad_tolerance(x: f64) -> bool {
    !x.is_finite() || x < LEAST_TOLERANCE
}

// 1 to 5 in that order, before any evaluation, as the proved side has them.
#[inline(always)]
fn refusal(call: &Call, second: f64) -> u64 {
    let a = call.coefficients();
    if a.is_empty() || a.len() > 16 {
        1
    } else if a.iter().any(|c| !c.is_finite()) {
        2
    } else if !call.first.is_finite() || !second.is_finite() {
        3
    } else if bad_tolerance(call.value_tolerance) || bad_tolerance(call.point_tolerance) {
        4
    } else if call.limit > 400 {
        5
    } else {
        0
    }
}

fn refused(number: u64, tallies: [u64; 4]) -> Answer {
    Answer { kind: 10 + number, numbers: [0.0; 3], tallies }
}

#[inline(always)]
fn told(result: Result<f64, SearchError>, telling: Telling, counts: [u64; 2], finite: bool) -> Answer {
    let tallies = [telling.steps, counts[0], counts[1], 0];
    if !finite {
        return refused(9, tallies);
    }
    match (result, telling.last) {
        (Ok(root), Last::Value(value)) => Answer { kind: 0, numbers: [root, value, 0.0], tallies },
        (Ok(root), Last::Width(p, q)) => Answer { kind: 1, numbers: [root, p, q], tallies },
        (Err(SearchError::NoBracketing), _) => refused(6, tallies),
        (Err(SearchError::ZeroDerivative), _) => refused(7, tallies),
        (Err(SearchError::NoConvergency), _) => refused(8, tallies),
    }
}

// One search by a method whose closure gives values only. `again` values of each step are of a point evaluated before:
// Brent's Rust works out the kept end's value again, which the proved side does not count.
macro_rules! by_values {
    ($name:ident, $search:ident, $again:literal) => {
        #[inline(never)]
        fn $name(call: &Call) -> Answer {
            let a = call.coefficients();
            let number = refusal(call, call.second);
            if number != 0 {
                return refused(number, [0; 4]);
            }
            let (values, finite) = (Cell::new(0), Cell::new(true));
            let value = |x: f64| {
                values.set(values.get() + 1);
                let y = a.value(&x);
                finite.set(finite.get() & y.is_finite());
                y
            };
            let mut telling = Telling::new(call);
            let result = $search(call.first, call.second, value, &mut telling);
            let worked_out_again = $again * telling.steps;
            told(result, telling, [values.get() - worked_out_again, 0], finite.get())
        }
    };
}

by_values!(brent, find_root_brent, 1);
by_values!(illinois, find_root_regula_falsi, 0);
by_values!(secant, find_root_secant, 0);

#[inline(never)]
fn newton(call: &Call) -> Answer {
    let a = call.coefficients();
    let number = refusal(call, call.first);
    if number != 0 {
        return refused(number, [0; 4]);
    }
    let (values, derivatives, finite) = (Cell::new(0), Cell::new(0), Cell::new(true));
    let value = |x: f64| {
        values.set(values.get() + 1);
        let y = a.value(&x);
        finite.set(finite.get() & y.is_finite());
        y
    };
    let derivative = |x: f64| {
        derivatives.set(derivatives.get() + 1);
        let slope = a.value_and_derivative(&x).derivative;
        finite.set(finite.get() & slope.is_finite());
        slope
    };
    let mut telling = Telling::new(call);
    let result = find_root_newton_raphson(call.first, value, derivative, &mut telling);
    told(result, telling, [values.get(), derivatives.get()], finite.get())
}

#[inline(always)]
pub fn telling(method: Method, call: &Call) -> Option<Answer> {
    match method {
        Method::Brent => Some(brent(call)),
        Method::Illinois => Some(illinois(call)),
        Method::Secant => Some(secant(call)),
        Method::Newton => Some(newton(call)),
        Method::Polynom => None,
    }
}
