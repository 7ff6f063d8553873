// One call on the published methods, with everything about it that can be seen from outside.

use crate::call::{Call, BRENT, ILLINOIS, NEWTON, SECANT};
use crate::watch::{forget_log, read_log, Follower, Recorder, Rules, Seen, Tallies, Test, Watched};
use roots::{find_root_brent, find_root_newton_raphson, find_root_regula_falsi, find_root_secant};
use roots::{Interval, Polynom, Sample, SearchError, SimpleConvergency};
use std::cell::RefCell;

pub struct Run {
    pub result: Result<f64, u8>,
    pub tallies: Tallies,
    pub not_finite: Option<Tallies>,
    pub last: Option<Test>,
    pub kept: Option<Vec<Test>>,
}

pub fn number(error: SearchError) -> u8 {
    match error {
        SearchError::NoBracketing => 6,
        SearchError::ZeroDerivative => 7,
        SearchError::NoConvergency => 8,
    }
}

fn rules(call: &Call) -> Rules {
    let rule = |eps: f64| SimpleConvergency { eps, max_iter: call.limit as usize };
    Rules { value: rule(call.value_tolerance), point: rule(call.point_tolerance) }
}

// The polynomial search is lent a ready interval: the smaller start first, equal ones as given.
fn interval(call: &Call) -> [f64; 2] {
    let (p, q) = (call.starts[0], call.starts[1]);
    if p > q {
        [q, p]
    } else {
        [p, q]
    }
}

fn polynomial_search(call: &Call, seen: &RefCell<Seen>) -> Result<f64, SearchError> {
    let a = call.coefficients.as_slice();
    let [begin, end] = interval(call).map(|x| Sample { x, y: a.value(&x) });
    for y in [begin.y, end.y] {
        seen.borrow_mut().value(y);
    }

    // The evaluations inside come from a second run, on the float type that keeps a log.
    let watched: Vec<Watched> = a.iter().map(|&x| Watched(x)).collect();
    let sample = |s: &Sample<f64>| Sample { x: Watched(s.x), y: Watched(s.y) };
    let mut lent = Interval { begin: sample(&begin), end: sample(&end) };
    forget_log();
    let mut follower = Follower { rules: rules(call), coefficients: a.len(), seen };
    let followed = watched.as_slice().find_root(&mut lent, &mut follower);
    read_log(a.len(), &mut seen.borrow_mut());

    let steps = seen.borrow().tallies.steps;
    let mut lent = Interval { begin, end };
    let result = a.find_root(&mut lent, &mut Recorder { rules: rules(call), seen });
    let same = match (&followed, &result) {
        (Ok(p), Ok(q)) => p.0.to_bits() == q.to_bits() || (p.0.is_nan() && q.is_nan()),
        (Err(p), Err(q)) => p == q,
        _ => false,
    };
    assert!(same && steps == seen.borrow().tallies.steps, "the watched run went another way: {}", call.line());
    result
}

pub fn run(call: &Call, keep: bool) -> Run {
    let seen = RefCell::new(Seen { kept: keep.then(Vec::new), ..Seen::default() });
    let a = call.coefficients.as_slice();
    let value = |x: f64| {
        let y = a.value(&x);
        let mut seen = seen.borrow_mut();
        seen.check(x);
        seen.value(y);
        y
    };
    let derivative = |x: f64| {
        let d = a.value_and_derivative(&x).derivative;
        seen.borrow_mut().derivative(d);
        d
    };
    let mut stop = Recorder { rules: rules(call), seen: &seen };
    let starts = call.starts.as_slice();
    let result = match call.method {
        BRENT => find_root_brent(starts[0], starts[1], value, &mut stop),
        ILLINOIS => find_root_regula_falsi(starts[0], starts[1], value, &mut stop),
        SECANT => find_root_secant(starts[0], starts[1], value, &mut stop),
        NEWTON => find_root_newton_raphson(starts[0], value, derivative, &mut stop),
        _ => polynomial_search(call, &seen),
    };
    let mut seen = seen.into_inner();
    if let Ok(root) = result {
        seen.check(root);
    }
    let limit_ended = matches!(result, Err(SearchError::NoConvergency));
    if call.method == NEWTON {
        // A pass asks for both; the nudge is a step without a limit test, so steps are passes before this one.
        if let Some(at) = &mut seen.not_finite {
            at.derivatives = at.values;
            at.steps = at.values - 1;
        }
        if !limit_ended {
            seen.tallies.steps = seen.tallies.values - 1;
        }
    }
    Run { result: result.map_err(number), tallies: seen.tallies, not_finite: seen.not_finite, last: seen.last, kept: seen.kept }
}
