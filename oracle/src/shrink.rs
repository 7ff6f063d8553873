// Makes a call that shows a difference smaller: fewer coefficients, simpler numbers, one eps for both tolerances, a smaller limit.

use crate::call::Call;
use crate::families::power_of_two;

fn exponent(x: f64) -> i64 {
    (((x.to_bits() >> 52) & 2047) as i64 - 1023).max(-1074)
}

// How hard a number is to look at.
fn size(x: f64) -> u64 {
    if x.to_bits() == 0 {
        return 0;
    }
    if !x.is_finite() {
        return 5;
    }
    let sign = u64::from(x.is_sign_negative());
    if x == 0.0 {
        return 3;
    }
    let digits = 52 - (x.to_bits() & 0x000f_ffff_ffff_ffff).trailing_zeros().min(52) as u64;
    2 + sign + 4 * digits + exponent(x).unsigned_abs()
}

fn simpler(x: f64) -> Vec<f64> {
    let mut list = vec![0.0, 1.0, -1.0, 2.0, 0.5, 3.0, x.abs(), x.round(), (x * 4.0).round() / 4.0, x / 2.0, x * 2.0];
    if !x.is_finite() {
        return vec![0.0, 1.0, f64::INFINITY];
    }
    // Fewer significant digits, and an exponent nearer to 0.
    for digits in [0, 1, 2, 3, 4, 6, 8, 12, 16, 20, 26, 32, 40, 46, 50, 51] {
        list.push(f64::from_bits(x.to_bits() & !(0x000f_ffff_ffff_ffff >> digits)));
    }
    let e = exponent(x);
    for nearer in [0, e / 2, e * 3 / 4, e * 9 / 10, e - e.signum()] {
        if (-1022..=1023).contains(&nearer) && (-1022..=1023).contains(&e) {
            list.push(f64::from_bits((x.to_bits() & !(2047 << 52)) | (((nearer + 1023) as u64) << 52)));
        }
    }
    list
}

fn key(call: &Call) -> (usize, u64, u64) {
    let numbers = call.coefficients.iter().chain(&call.starts).map(|x| size(*x)).sum::<u64>();
    // Two equal tolerances are one number to look at.
    let point = if call.has_one_eps() { 0 } else { 1 + size(call.point_tolerance) };
    (call.coefficients.len(), numbers + size(call.value_tolerance) + point, call.limit)
}

fn candidates(call: &Call) -> Vec<Call> {
    let mut list = Vec::new();
    for i in 0..call.coefficients.len() {
        let mut other = call.clone();
        other.coefficients.remove(i);
        list.push(other);
    }
    for i in 0..call.coefficients.len() {
        for x in simpler(call.coefficients[i]) {
            let mut other = call.clone();
            other.coefficients[i] = x;
            list.push(other);
        }
    }
    for i in 0..call.starts.len() {
        for x in simpler(call.starts[i]) {
            let mut other = call.clone();
            other.starts[i] = x;
            list.push(other);
        }
    }
    for tolerance in call.tolerances() {
        for simple in simpler(tolerance).into_iter().chain([tolerance, 1.0 / 1024.0, power_of_two(-300)]) {
            list.push(call.with_eps(simple));
            list.push(Call { value_tolerance: simple, ..call.clone() });
            list.push(Call { point_tolerance: simple, ..call.clone() });
        }
    }
    for limit in [0, 1, 2, 3, 4, 5, 10, call.limit / 2, call.limit.saturating_sub(1)] {
        list.push(Call { limit, ..call.clone() });
    }
    let now = key(call);
    list.retain(|other| key(other) < now);
    list
}

// `judge` gives the reasons for the calls that differ; the simplest of these is taken each time.
pub fn shrink(mut call: Call, mut reason: String, judge: impl Fn(&[Call]) -> Vec<Option<String>>) -> (Call, String) {
    loop {
        let list = candidates(&call);
        if list.is_empty() {
            return (call, reason);
        }
        let verdicts = judge(&list);
        let best = list.into_iter().zip(verdicts).filter_map(|(c, v)| Some((c, v?))).min_by_key(|(c, _)| key(c));
        match best {
            Some((smaller, why)) => (call, reason) = (smaller, why),
            None => return (call, reason),
        }
    }
}
