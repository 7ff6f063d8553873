// The proved archive in this process: the call of include/roots.h, answered as the line tool answers.
use crate::call::{Call, NEWTON};

extern "C" {
    fn roots_search(
        coefficients: *const f64,
        count: usize,
        method: u64,
        first: f64,
        second: f64,
        value_tolerance: f64,
        point_tolerance: f64,
        limit: u64,
        numbers: *mut [f64; 3],
        tallies: *mut [u64; 4],
    ) -> u64;
}

pub fn answer(call: &Call) -> String {
    let a = &call.coefficients;
    let second = if call.method == NEWTON { 0.0 } else { call.starts[1] };
    let (mut numbers, mut tallies) = ([0.0; 3], [0; 4]);
    // SAFETY: the pointers are to live buffers that do not overlap, and count is the first one's length.
    let kind = unsafe {
        roots_search(
            a.as_ptr(),
            a.len(),
            call.method as u64,
            call.starts[0],
            second,
            call.value_tolerance,
            call.point_tolerance,
            call.limit,
            &mut numbers,
            &mut tallies,
        )
    };
    let doubles = match kind {
        0 => 2,
        1 => 3,
        _ => 0,
    };
    let mut line = kind.to_string();
    numbers[..doubles].iter().for_each(|x| line += &format!(" {:016x}", x.to_bits()));
    tallies.iter().for_each(|n| line += &format!(" {n}"));
    line
}
