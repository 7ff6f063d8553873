// One call on either side. Each gets coefficients, starts, tolerances and limit at run time and returns from a call that is not inlined.

use crate::calls::{Call, Method};
use crate::fail;
use crate::told::telling;
use roots::{find_root_brent, find_root_newton_raphson, find_root_regula_falsi, find_root_secant};
use roots::{Interval, Polynom, Sample, SearchError, SimpleConvergency};
use std::mem::MaybeUninit;

#[derive(Clone, Copy, PartialEq)]
pub enum Side {
    Proved,
    Rust,
    // The Rust made to tell what the proved side tells.
    Telling,
    // Another archive, under other names: see build.rs.
    Former,
}

// As include/roots.h says: coefficients, count, method, both starts, both tolerances, limit, numbers, tallies.
type Search = unsafe extern "C" fn(*const f64, usize, u64, f64, f64, f64, f64, u64, *mut f64, *mut u64) -> u64;
// Version 2 of the interface had one eps.
type SearchByEps = unsafe extern "C" fn(*const f64, usize, u64, f64, f64, f64, u64, *mut f64, *mut u64) -> u64;

macro_rules! search_as {
    ($search:ident, $version:ident) => {
        extern "C" {
            fn $search(
                a: *const f64, count: usize, method: u64, first: f64, second: f64, value_tolerance: f64, point_tolerance: f64,
                limit: u64, numbers: *mut f64, tallies: *mut u64,
            ) -> u64;
            fn $version() -> u64;
        }
    };
}
search_as!(roots_search, roots_version);
search_as!(former_roots_search, former_roots_version);

// Whether the other archive has this one's interface. It has version 2 otherwise, or nothing is compared.
pub fn former_is_alike() -> bool {
    // SAFETY: both functions have no parameters and only return a number.
    let (present, former) = unsafe { (roots_version(), former_roots_version()) };
    if former != present && former != 2 {
        fail(&format!("the other archive has version {former} of the interface, this one {present}"));
    }
    former == present
}

// The buffers of a call are left as they are before it: the function writes all of them.
pub struct Answer {
    pub kind: u64,
    pub numbers: [f64; 3],
    pub tallies: [u64; 4],
}

#[inline(always)]
fn answered(search: Search, call: &Call) -> Answer {
    let mut answer = MaybeUninit::<Answer>::uninit();
    let at = answer.as_mut_ptr();
    let a = call.coefficients();
    // SAFETY: the pointers are to live memory of the lengths that the function is told or writes, nothing is kept, and all is written.
    unsafe {
        (*at).kind = search(
            a.as_ptr(),
            a.len(),
            call.method as u64,
            call.first,
            call.second,
            call.value_tolerance,
            call.point_tolerance,
            call.limit,
            (*at).numbers.as_mut_ptr(),
            (*at).tallies.as_mut_ptr(),
        );
        answer.assume_init()
    }
}

// The same by version 2, whose eps is both tolerances.
#[inline(always)]
fn answered_by_eps(search: SearchByEps, call: &Call) -> Answer {
    let mut answer = MaybeUninit::<Answer>::uninit();
    let at = answer.as_mut_ptr();
    let a = call.coefficients();
    // SAFETY: as above.
    unsafe {
        (*at).kind = search(
            a.as_ptr(),
            a.len(),
            call.method as u64,
            call.first,
            call.second,
            call.value_tolerance,
            call.limit,
            (*at).numbers.as_mut_ptr(),
            (*at).tallies.as_mut_ptr(),
        );
        answer.assume_init()
    }
}

// The other archive's search, where it is of version 2.
fn former_by_eps() -> SearchByEps {
    // SAFETY: both are pointers to functions, and that version's has this type.
    unsafe { std::mem::transmute::<Search, SearchByEps>(former_roots_search) }
}

#[inline(always)]
pub fn proved(call: &Call) -> Answer {
    answered(roots_search, call)
}

fn rule(eps: f64, limit: u64) -> SimpleConvergency<f64> {
    SimpleConvergency { eps, max_iter: limit as usize }
}

#[inline(never)]
fn brent(a: &[f64], first: f64, second: f64, eps: f64, limit: u64) -> Result<f64, SearchError> {
    find_root_brent(first, second, |x| a.value(&x), &mut rule(eps, limit))
}

#[inline(never)]
fn illinois(a: &[f64], first: f64, second: f64, eps: f64, limit: u64) -> Result<f64, SearchError> {
    find_root_regula_falsi(first, second, |x| a.value(&x), &mut rule(eps, limit))
}

#[inline(never)]
fn secant(a: &[f64], first: f64, second: f64, eps: f64, limit: u64) -> Result<f64, SearchError> {
    find_root_secant(first, second, |x| a.value(&x), &mut rule(eps, limit))
}

// The crate asks f and d apart, so the derivative's closure works out the value once more, as the oracle's does.
#[inline(never)]
fn newton(a: &[f64], first: f64, eps: f64, limit: u64) -> Result<f64, SearchError> {
    find_root_newton_raphson(first, |x| a.value(&x), |x| a.value_and_derivative(&x).derivative, &mut rule(eps, limit))
}

// find_root is lent an interval with both values in it, the smaller start first.
#[inline(never)]
fn polynomial_search(a: &[f64], first: f64, second: f64, eps: f64, limit: u64) -> Result<f64, SearchError> {
    let (low, high) = if first > second { (second, first) } else { (first, second) };
    let sample = |x: f64| Sample { x, y: a.value(&x) };
    let mut interval = Interval { begin: sample(low), end: sample(high) };
    a.find_root(&mut interval, &mut rule(eps, limit))
}

#[inline(always)]
fn rust_by(method: Method, call: &Call) -> Result<f64, SearchError> {
    let a = call.coefficients();
    let Call { first, second, value_tolerance: eps, limit, .. } = *call;
    match method {
        Method::Brent => brent(a, first, second, eps, limit),
        Method::Illinois => illinois(a, first, second, eps, limit),
        Method::Secant => secant(a, first, second, eps, limit),
        Method::Newton => newton(a, first, eps, limit),
        Method::Polynom => polynomial_search(a, first, second, eps, limit),
    }
}

pub fn rust(call: &Call) -> Result<f64, SearchError> {
    rust_by(call.method, call)
}

// Whether the Rust made to tell has the same kind, the same bits, and the same counts. It isn't asked of a step that nudges.
fn tells_the_same(call: &Call, answer: &Answer) -> bool {
    let Some(told) = telling(call.method, call) else { return true };
    let bits = |numbers: &[f64; 3]| numbers.map(f64::to_bits);
    let nudged = call.method == Method::Newton && answer.kind == 17;
    told.kind == answer.kind
        && bits(&told.numbers) == bits(&answer.numbers)
        && (nudged || told.tallies[0] == answer.tallies[0])
        && told.tallies[1..] == answer.tallies[1..]
}

// A root's bits, or an error's number.
#[inline(always)]
fn number_of_rust(result: Result<f64, SearchError>) -> u64 {
    match result {
        Ok(root) => root.to_bits(),
        Err(SearchError::NoBracketing) => 6,
        Err(SearchError::ZeroDerivative) => 7,
        Err(SearchError::NoConvergency) => 8,
    }
}

#[inline(always)]
fn number_of_proved(answer: &Answer) -> u64 {
    if answer.kind < 10 {
        answer.numbers[0].to_bits()
    } else {
        answer.kind - 10
    }
}

// Both sides must give the same root, bit for bit, or the same error. Calls with a mark are not benchmarked.
pub fn checked(call: &Call) -> (u64, [u64; 4]) {
    let answer = proved(call);
    let one = number_of_proved(&answer);
    let other = number_of_rust(rust(call));
    if answer.tallies[3] != 0 || one != other || (answer.kind < 10) != rust(call).is_ok() {
        fail(&format!("the sides differ: {one:016x} {other:016x} {call:?}"));
    }
    if !tells_the_same(call, &answer) {
        fail(&format!("the Rust tells something else: {call:?}"));
    }
    (one, answer.tallies)
}

// Both archives must give the same answer, bit for bit.
pub fn former_agrees(call: &Call) -> bool {
    let one = proved(call);
    let other = if former_is_alike() { answered(former_roots_search, call) } else { answered_by_eps(former_by_eps(), call) };
    one.kind == other.kind && one.numbers.map(f64::to_bits) == other.numbers.map(f64::to_bits) && one.tallies == other.tallies
}

#[inline(always)]
fn summed_by(answer: impl Fn(&Call) -> Answer, calls: &[Call]) -> u64 {
    calls.iter().fold(0, |sum: u64, call| sum.wrapping_add(number_of_proved(&answer(call))))
}

#[inline(never)]
fn summed_proved(calls: &[Call]) -> u64 {
    summed_by(proved, calls)
}

#[inline(never)]
fn summed_former(calls: &[Call]) -> u64 {
    summed_by(|call| answered(former_roots_search, call), calls)
}

#[inline(never)]
fn summed_former_by_eps(calls: &[Call]) -> u64 {
    let search = former_by_eps();
    summed_by(|call| answered_by_eps(search, call), calls)
}

#[inline(never)]
fn summed_telling(calls: &[Call]) -> u64 {
    macro_rules! all {
        ($method:expr) => {
            calls.iter().fold(0, |sum: u64, call| match telling($method, call) {
                Some(answer) => sum.wrapping_add(number_of_proved(&answer)),
                None => sum,
            })
        };
    }
    match calls[0].method {
        Method::Brent => all!(Method::Brent),
        Method::Illinois => all!(Method::Illinois),
        Method::Secant => all!(Method::Secant),
        Method::Newton => all!(Method::Newton),
        Method::Polynom => all!(Method::Polynom),
    }
}

// The method is picked before the loop.
#[inline(never)]
fn summed_rust(calls: &[Call]) -> u64 {
    macro_rules! all {
        ($method:expr) => {
            calls.iter().fold(0, |sum: u64, call| sum.wrapping_add(number_of_rust(rust_by($method, call))))
        };
    }
    match calls[0].method {
        Method::Brent => all!(Method::Brent),
        Method::Illinois => all!(Method::Illinois),
        Method::Secant => all!(Method::Secant),
        Method::Newton => all!(Method::Newton),
        Method::Polynom => all!(Method::Polynom),
    }
}

// The sum of all answers' numbers.
pub fn summed(side: Side, calls: &[Call]) -> u64 {
    match side {
        Side::Proved => summed_proved(calls),
        Side::Rust => summed_rust(calls),
        Side::Telling => summed_telling(calls),
        Side::Former if former_is_alike() => summed_former(calls),
        Side::Former => summed_former_by_eps(calls),
    }
}
