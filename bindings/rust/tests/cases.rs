// W1 to W13 of document 01, its limits, and which test goes by which tolerance, against the proved archive.
use chhorlaneak_roots::*;

const PART: f64 = 1.0 / 1024.0;

fn refused(answer: Result<Found, Refusal>, number: u8, steps: u64, values: u64, derivatives: u64) {
    let tally = Tally { steps, values, derivatives, mark: 0 };
    assert_eq!(answer, Err(Refusal { number, tally }));
}

fn accepted(answer: Result<Found, Refusal>, root: f64, reason: Reason, steps: u64, values: u64) {
    let tally = Tally { steps, values, derivatives: 0, mark: 0 };
    assert_eq!(answer, Ok(Found { root, reason, tally }));
}

fn rule(eps: f64, max_iter: usize) -> SimpleConvergency {
    SimpleConvergency { eps, max_iter }
}

fn apart(value_tolerance: f64, point_tolerance: f64, max_iter: usize) -> TwoTolerances {
    TwoTolerances { value_tolerance, point_tolerance, max_iter }
}

#[test]
fn w1_to_w5() {
    let a = [0.0, -2.0];
    let one = &mut rule(PART, 1);
    refused(find_root_brent(0.0, 2.0, &a, one), 8, 1, 3, 0);
    refused(find_root_regula_falsi(0.0, 2.0, &a, one), 8, 1, 3, 0);
    refused(find_root_secant(0.0, 2.0, &a, one), 8, 1, 3, 0);
    refused(find_root_newton_raphson(0.0, &a, one), 8, 2, 2, 2);
    refused(find_root_polynom(0.0, 2.0, &a, one), 8, 1, 4, 1);
}

#[test]
fn w6_to_w8() {
    accepted(find_root_regula_falsi(0.0, 1.0, &[0.0, -1.0], &mut rule(PART, 1)), 1.0, Reason::ByValue { value: 0.0 }, 0, 2);
    refused(find_root_brent(0.0, 2.0, &[-1.0], &mut rule(PART, 1)), 8, 1, 3, 0);
    accepted(find_root_brent(0.0, 2.0, &[-1.0], &mut rule(PART, 2)), 1.0, Reason::ByValue { value: 0.0 }, 1, 3);
}

#[test]
fn w9_and_w10() {
    let a = [100.0, -150.0];
    accepted(find_root_brent(0.0, 2.0, &a, &mut rule(4.0, 10)), 0.0, Reason::ByWidth { p: 0.0, q: 2.0 }, 0, 2);
    accepted(find_root_regula_falsi(0.0, 2.0, &a, &mut rule(4.0, 10)), 300.0 / 204.0, Reason::ByWidth { p: 0.0, q: 2.0 }, 0, 2);
}

#[test]
fn w11_to_w13() {
    refused(find_root_newton_raphson(0.0, &[0.0, 1.0], &mut rule(PART, 5)), 7, 2, 3, 3);
    accepted(find_root_regula_falsi(1.0 / 64.0, 1.0, &[0.0, 0.0], &mut rule(PART, 9)), 1.0 / 64.0, Reason::ByValue { value: 1.0 / 4096.0 }, 0, 1);
    refused(find_root_brent(1.0 / 64.0, 1.0, &[0.0, 0.0], &mut rule(PART, 9)), 6, 0, 2, 0);
}

#[test]
fn limits() {
    let least = 2f64.powi(-300);
    assert!(find_root_regula_falsi(0.0, 1.0, &[0.0; 16], &mut rule(PART, 30)).is_ok());
    refused(find_root_regula_falsi(0.0, 1.0, &[0.0; 17], &mut rule(PART, 30)), 1, 0, 0, 0);
    refused(find_root_regula_falsi(0.0, 1.0, &[], &mut rule(PART, 30)), 1, 0, 0, 0);
    assert!(find_root_regula_falsi(0.0, 1.0, &[0.0], &mut rule(least, 9)).is_ok());
    refused(find_root_regula_falsi(0.0, 1.0, &[0.0], &mut rule(least / 2.0, 9)), 4, 0, 0, 0);
    assert!(find_root_regula_falsi(0.0, 1.0, &[0.0], &mut rule(PART, 400)).is_ok());
    refused(find_root_regula_falsi(0.0, 1.0, &[0.0], &mut rule(PART, 401)), 5, 0, 0, 0);
    refused(find_root_brent(0.0, 1.0, &[f64::NAN], &mut rule(PART, 30)), 2, 0, 0, 0);
    refused(find_root_brent(0.0, f64::INFINITY, &[0.0], &mut rule(PART, 30)), 3, 0, 0, 0);
    refused(find_root_brent(0.0, 1.0, &[0.0], &mut -PART), 4, 0, 0, 0);
    assert!(find_root_regula_falsi(0.0, 1.0, &[0.0], &mut apart(least, PART, 9)).is_ok());
    assert!(find_root_regula_falsi(0.0, 1.0, &[0.0], &mut apart(PART, least, 9)).is_ok());
    for wrong in [least / 2.0, 0.0, -PART, f64::NAN, f64::INFINITY] {
        refused(find_root_regula_falsi(0.0, 1.0, &[0.0], &mut apart(wrong, PART, 9)), 4, 0, 0, 0);
        refused(find_root_regula_falsi(0.0, 1.0, &[0.0], &mut apart(PART, wrong, 9)), 4, 0, 0, 0);
    }
}

// x^2 + 100x - 150 is -150 at 0 and 54 at 2: at once one of them is small enough, or the two points are close enough.
#[test]
fn found_by_the_value_tolerance() {
    let a = [100.0, -150.0];
    let stop = &mut apart(60.0, PART, 10);
    let at_2 = Reason::ByValue { value: 54.0 };
    accepted(find_root_brent(0.0, 2.0, &a, stop), 2.0, at_2, 0, 2);
    accepted(find_root_regula_falsi(0.0, 2.0, &a, stop), 2.0, at_2, 0, 2);
    accepted(find_root_secant(0.0, 2.0, &a, stop), 2.0, at_2, 0, 2);
    accepted(find_root_polynom(0.0, 2.0, &a, stop), 2.0, at_2, 0, 2);
}

#[test]
fn converged_by_the_point_tolerance() {
    let a = [100.0, -150.0];
    let stop = &mut apart(PART, 4.0, 10);
    let pair = Reason::ByWidth { p: 0.0, q: 2.0 };
    let cut = 300.0 / 204.0;
    accepted(find_root_brent(0.0, 2.0, &a, stop), 0.0, pair, 0, 2);
    accepted(find_root_regula_falsi(0.0, 2.0, &a, stop), cut, pair, 0, 2);
    accepted(find_root_secant(0.0, 2.0, &a, stop), cut, Reason::ByWidth { p: cut, q: 2.0 }, 0, 2);
    accepted(find_root_polynom(0.0, 2.0, &a, stop), cut, pair, 0, 2);
    let newton = find_root_newton_raphson(0.0, &a, stop).unwrap();
    assert_eq!((newton.root, newton.reason), (1.5, Reason::ByWidth { p: 0.0, q: 1.5 }));
}

// x^2 + 100 is 101 at 1 and 104 at 2, its slope 2 and 4. Newton's first flat place is nudged away.
#[test]
fn flat_by_the_value_tolerance() {
    let a = [0.0, 100.0];
    refused(find_root_secant(1.0, 2.0, &a, &mut apart(4.0, PART, 1)), 7, 0, 2, 0);
    refused(find_root_secant(1.0, 2.0, &a, &mut apart(PART, 4.0, 1)), 8, 1, 3, 0);
    refused(find_root_newton_raphson(1.0, &a, &mut apart(5.0, PART, 9)), 7, 1, 2, 2);
    refused(find_root_newton_raphson(1.0, &a, &mut apart(PART, 5.0, 1)), 8, 1, 1, 1);
}

// By the value tolerance the fourth condition would bisect to -0.5 in the first, and the fifth would not bisect in the second.
#[test]
fn brents_conditions_by_the_point_tolerance() {
    accepted(find_root_brent(-2.0, 1.0, &[-3.0, -2.0], &mut apart(4.0, PART, 3)), 0.0, Reason::ByValue { value: -2.0 }, 1, 3);
    let pair = Reason::ByWidth { p: 0.31011781011781014, q: 0.4535689535689536 };
    accepted(find_root_brent(0.0, 4.0, &[2.0, -1.0], &mut apart(PART, 0.25, 4)), 0.4535689535689536, pair, 3, 5);
}

// A strip with the density (x^3 + 100x^2) / 6,000,000 at x mm, where it is 0.5: 0.001 of density is 6000 here.
#[test]
fn density_and_position() {
    let a = [100.0, 0.0, -3e6];
    let found = find_root_newton_raphson(100.0, &a, &mut apart(6000.0, 0.01, 30)).unwrap();
    assert_eq!((found.root, found.reason), (117.5, Reason::ByValue { value: 2859.375 }));
    let one_eps = find_root_newton_raphson(100.0, &a, &mut rule(6000.0, 30)).unwrap();
    assert_eq!((one_eps.root, one_eps.reason), (120.0, Reason::ByWidth { p: 100.0, q: 120.0 }));
}

#[test]
fn one_eps_is_both() {
    let a = [0.0, -2.0];
    for eps in [PART, 1e-12, 4.0] {
        assert_eq!(find_root_brent(0.0, 2.0, &a, &mut rule(eps, 30)), find_root_brent(0.0, 2.0, &a, &mut apart(eps, eps, 30)));
        assert_eq!(find_root_polynom(0.0, 2.0, &a, &mut { eps }), find_root_polynom(0.0, 2.0, &a, &mut apart(eps, eps, 30)));
    }
}

#[test]
fn in_words() {
    let refusal = find_root_brent(1.0, 2.0, &[0.0, 1.0], &mut rule(PART, 30)).unwrap_err();
    assert_eq!(refusal.to_string(), "refusal 6: Initial values do not bracket zero");
    let refusal = find_root_brent(0.0, 2.0, &[0.0], &mut apart(PART, 0.0, 30)).unwrap_err();
    assert_eq!(refusal.to_string(), "refusal 4: a tolerance isn't finite or is below 2^-300");
    let found = find_root_regula_falsi(0.0, 1.0, &[0.0, -1.0], &mut rule(PART, 30)).unwrap();
    assert_eq!(found.to_string(), "root 1.0 by value 0.0");
}
