//! Safe calls of the proved root search, under the names and in the argument order of the crate roots 0.0.8.
//!
//! Where roots takes a closure, these take the lent coefficients of `x^n + a[0]x^(n-1) + .. + a[n-1]`:
//!
//! ```
//! use chhorlaneak_roots::{find_root_brent, SimpleConvergency};
//!
//! let mut convergency = SimpleConvergency { eps: 1e-15f64, max_iter: 30 };
//! let found = find_root_brent(10f64, 0f64, &[0.0, -1.0], &mut convergency).unwrap();
//! assert!((found.root - 1.0).abs() < 1e-15);
//! ```
//!
//! A plain `f64` is eps with limit 30, as in roots; one eps is the tolerance of values and of points:
//!
//! ```
//! use chhorlaneak_roots::{find_root_newton_raphson, Reason};
//!
//! let refused = find_root_newton_raphson(0f64, &[0.0, 1.0], &mut 1e-3f64).unwrap_err();
//! assert_eq!(refused.number, 7);
//! println!("{refused}");
//! ```
//!
//! Values and points that are measured on separate scales have a tolerance each:
//!
//! ```
//! use chhorlaneak_roots::{find_root_newton_raphson, Reason, TwoTolerances};
//!
//! // a strip with the density (x^3 + 100x^2) / 6,000,000 at x mm: where it is 0.5, to 0.001 of density, or to 0.01 mm
//! let mut convergency = TwoTolerances { value_tolerance: 6000.0, point_tolerance: 0.01, max_iter: 30 };
//! let found = find_root_newton_raphson(100f64, &[100.0, 0.0, -3e6], &mut convergency).unwrap();
//! assert_eq!((found.root, found.reason), (117.5, Reason::ByValue { value: 2859.375 }));
//! ```
//!
//! A search goes on file as a [`Record`], whose bytes any machine reads back.
//!
//! Nothing here computes an answer. The proof covers the archive's source; the compiler's back end and this crate's own lines are not proved.
#![deny(missing_docs)]

mod records;

pub use records::{Method, Record, RecordError};
use std::error::Error;
use std::fmt;

// Nothing checks this declaration against the proved source: it says what include/roots.h says.
extern "C" {
    fn roots_search(
        coefficients: *const f64,
        count: usize,
        method: u64,
        first: f64,
        second: f64,
        value_tolerance: f64,
        point_tolerance: f64,
        limit: u64,
        numbers: *mut f64,
        tallies: *mut u64,
    ) -> u64;
}

/// When a search may stop: how close is close enough, and how many steps at most.
pub trait Convergency {
    /// A value below this in size counts as zero.
    fn value_tolerance(&self) -> f64;
    /// Two points that are closer than this count as one.
    fn point_tolerance(&self) -> f64;
    /// The greatest number of steps.
    fn limit(&self) -> u64;
}

/// The same eps for both axes, and the greatest number of steps.
#[derive(Debug, Clone, Copy, PartialEq)]
pub struct SimpleConvergency {
    /// Precision for both X and Y axes.
    pub eps: f64,
    /// Maximum number of steps.
    pub max_iter: usize,
}

impl Convergency for SimpleConvergency {
    fn value_tolerance(&self) -> f64 {
        self.eps
    }
    fn point_tolerance(&self) -> f64 {
        self.eps
    }
    fn limit(&self) -> u64 {
        self.max_iter as u64
    }
}

/// A tolerance for each axis, and the greatest number of steps. roots has no such type.
#[derive(Debug, Clone, Copy, PartialEq)]
pub struct TwoTolerances {
    /// Precision for the Y axis: a value below this in size counts as zero.
    pub value_tolerance: f64,
    /// Precision for the X axis: two points that are closer than this count as one.
    pub point_tolerance: f64,
    /// Maximum number of steps.
    pub max_iter: usize,
}

impl Convergency for TwoTolerances {
    fn value_tolerance(&self) -> f64 {
        self.value_tolerance
    }
    fn point_tolerance(&self) -> f64 {
        self.point_tolerance
    }
    fn limit(&self) -> u64 {
        self.max_iter as u64
    }
}

/// A plain eps is both tolerances, with limit 30.
impl Convergency for f64 {
    fn value_tolerance(&self) -> f64 {
        *self
    }
    fn point_tolerance(&self) -> f64 {
        *self
    }
    fn limit(&self) -> u64 {
        30
    }
}

/// What a search took: steps and evaluations, and the first added rule that departed from roots.
#[derive(Debug, Clone, Copy, PartialEq, Eq, Default)]
pub struct Tally {
    /// Completed steps.
    pub steps: u64,
    /// Polynomial values.
    pub values: u64,
    /// Derivatives.
    pub derivatives: u64,
    /// 0, or 1 for the sign rule, or 2 for a pulled candidate.
    pub mark: u8,
}

/// Why a root was accepted.
#[derive(Debug, Clone, Copy, PartialEq)]
pub enum Reason {
    /// The computed value at the root is below the value tolerance in size.
    ByValue {
        /// That value.
        value: f64,
    },
    /// The computed difference of two points is below the point tolerance in size.
    ByWidth {
        /// The first of the two points.
        p: f64,
        /// The second.
        q: f64,
    },
}

/// A root, why it was accepted, and what the search took.
#[derive(Debug, Clone, Copy, PartialEq)]
pub struct Found {
    /// The root.
    pub root: f64,
    /// Why it was accepted.
    pub reason: Reason,
    /// What the search took.
    pub tally: Tally,
}

impl fmt::Display for Found {
    fn fmt(&self, f: &mut fmt::Formatter) -> fmt::Result {
        match self.reason {
            Reason::ByValue { value } => write!(f, "root {:?} by value {:?}", self.root, value),
            Reason::ByWidth { p, q } => write!(f, "root {:?} by width of {:?} and {:?}", self.root, p, q),
        }
    }
}

/// One of the nine refusals, and what the search took until then.
#[derive(Debug, Clone, Copy, PartialEq, Eq)]
pub struct Refusal {
    /// 1 to 9.
    pub number: u8,
    /// What the search took; all zero for 1 to 5.
    pub tally: Tally,
}

impl Refusal {
    /// The refusal in words.
    pub fn words(&self) -> &'static str {
        match self.number {
            1 => "no coefficients, or more than 16",
            2 => "a coefficient isn't finite",
            3 => "a start isn't finite",
            4 => "a tolerance isn't finite or is below 2^-300",
            5 => "the limit is above 400",
            6 => "Initial values do not bracket zero",
            7 => "The algorithm cannot continue from the point where the derivative is zero",
            8 => "The algorithm could not converge within the given number of iterations",
            9 => "a value, a derivative or a candidate isn't finite",
            _ => "no such refusal",
        }
    }
}

impl fmt::Display for Refusal {
    fn fmt(&self, f: &mut fmt::Formatter) -> fmt::Result {
        write!(f, "refusal {}: {}", self.number, self.words())
    }
}

impl Error for Refusal {}

// One call of the proved function. The two buffers are ours and do not overlap the coefficients.
fn search(method: u64, first: f64, second: f64, a: &[f64], convergency: &mut dyn Convergency) -> Result<Found, Refusal> {
    let mut numbers = [0f64; 3];
    let mut counts = [0u64; 4];
    // SAFETY: the pointers are to live memory of the lengths that the function is told or writes, and nothing is kept.
    let kind = unsafe {
        roots_search(
            a.as_ptr(),
            a.len(),
            method,
            first,
            second,
            convergency.value_tolerance(),
            convergency.point_tolerance(),
            convergency.limit(),
            numbers.as_mut_ptr(),
            counts.as_mut_ptr(),
        )
    };
    answer_of(kind, numbers, counts)
}

// What a kind, its numbers and the tallies say.
fn answer_of(kind: u64, numbers: [f64; 3], counts: [u64; 4]) -> Result<Found, Refusal> {
    let tally = Tally {
        steps: counts[0],
        values: counts[1],
        derivatives: counts[2],
        mark: counts[3] as u8,
    };
    let root = numbers[0];
    match kind {
        0 => Ok(Found { root, reason: Reason::ByValue { value: numbers[1] }, tally }),
        1 => Ok(Found { root, reason: Reason::ByWidth { p: numbers[1], q: numbers[2] }, tally }),
        refused => Err(Refusal { number: (refused - 10) as u8, tally }),
    }
}

/// Brent's method between two starts.
pub fn find_root_brent(a: f64, b: f64, coefficients: &[f64], convergency: &mut dyn Convergency) -> Result<Found, Refusal> {
    search(1, a, b, coefficients, convergency)
}

/// The Illinois form of regula falsi between two starts.
pub fn find_root_regula_falsi(a: f64, b: f64, coefficients: &[f64], convergency: &mut dyn Convergency) -> Result<Found, Refusal> {
    search(2, a, b, coefficients, convergency)
}

/// The secant method from two points.
pub fn find_root_secant(first: f64, second: f64, coefficients: &[f64], convergency: &mut dyn Convergency) -> Result<Found, Refusal> {
    search(3, first, second, coefficients, convergency)
}

/// Newton's method from one point; the derivative is worked out from the coefficients.
pub fn find_root_newton_raphson(start: f64, coefficients: &[f64], convergency: &mut dyn Convergency) -> Result<Found, Refusal> {
    search(4, start, 0.0, coefficients, convergency)
}

/// The polynomial search between two starts, which roots keeps private as `find_root` of polynom.rs.
pub fn find_root_polynom(a: f64, b: f64, coefficients: &[f64], convergency: &mut dyn Convergency) -> Result<Found, Refusal> {
    search(5, a, b, coefficients, convergency)
}
