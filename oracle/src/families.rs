// Calls of many families. A call depends on the seed, on its index and on the known calls.

use crate::call::{starts, Call};

pub struct Random(u64);

impl Random {
    pub fn new(seed: u64, index: u64) -> Self {
        let mut mixed = Random(seed);
        let mut other = Random(mixed.next() ^ index.wrapping_mul(0xd134_2543_de82_ef95));
        other.next();
        other
    }
    // splitmix64
    pub fn next(&mut self) -> u64 {
        self.0 = self.0.wrapping_add(0x9e37_79b9_7f4a_7c15);
        let mut z = self.0;
        z = (z ^ (z >> 30)).wrapping_mul(0xbf58_476d_1ce4_e5b9);
        z = (z ^ (z >> 27)).wrapping_mul(0x94d0_49bb_1331_11eb);
        z ^ (z >> 31)
    }
    pub fn below(&mut self, n: u64) -> u64 {
        ((u128::from(self.next()) * u128::from(n)) >> 64) as u64
    }
    pub fn between(&mut self, low: i64, high: i64) -> i64 {
        low + self.below((high - low + 1) as u64) as i64
    }
    pub fn one_in(&mut self, n: u64) -> bool {
        self.below(n) == 0
    }
    pub fn pick<T: Copy>(&mut self, of: &[T]) -> T {
        of[self.below(of.len() as u64) as usize]
    }
}

// 2^e for any e at which it is a double.
pub fn power_of_two(e: i64) -> f64 {
    if e >= -1022 {
        f64::from_bits(((e + 1023) as u64) << 52)
    } else {
        f64::from_bits(1 << (e + 1074))
    }
}

fn whole(r: &mut Random, size: i64) -> f64 {
    r.between(-size, size) as f64
}

// A whole number over a small power of two.
fn fraction(r: &mut Random) -> f64 {
    whole(r, 64) / r.pick(&[1.0, 2.0, 4.0, 8.0, 64.0, 256.0])
}

// A double with a random significand and its exponent in a range.
fn scaled(r: &mut Random, low: i64, high: i64) -> f64 {
    let fraction = match r.below(4) {
        0 => 0,
        1 => r.next() & 0x000f_f000_0000_0000,
        _ => r.next() & 0x000f_ffff_ffff_ffff,
    };
    let exponent = (r.between(low, high) + 1023) as u64;
    f64::from_bits((r.next() & (1 << 63)) | (exponent << 52) | fraction)
}

fn zero(r: &mut Random) -> f64 {
    r.pick(&[0.0, -0.0])
}

fn subnormal(r: &mut Random) -> f64 {
    let size = match r.below(3) {
        0 => r.between(1, 9) as u64,
        1 => r.next() & 0x000f_ffff_ffff_ffff,
        _ => 1 << r.below(52),
    };
    f64::from_bits((r.next() & (1 << 63)) | size)
}

pub fn any_finite(r: &mut Random) -> f64 {
    match r.below(12) {
        0 => zero(r),
        1 => subnormal(r),
        2 => r.pick(&[f64::MAX, -f64::MAX, f64::MIN_POSITIVE, 1.0, -1.0]),
        _ => scaled(r, -1022, 1023),
    }
}

fn not_finite(r: &mut Random) -> f64 {
    let sign = r.next() & (1 << 63);
    let fraction = match r.below(3) {
        0 => 0,
        1 => 1 << r.below(52),
        _ => r.next() & 0x000f_ffff_ffff_ffff,
    };
    f64::from_bits(sign | 0x7ff0_0000_0000_0000 | fraction)
}

// The double some places up or down in the order of doubles.
pub fn neighbour(x: f64, places: i64) -> f64 {
    let order = |x: f64| {
        let low = (x.to_bits() & !(1 << 63)) as i64;
        if x.is_sign_negative() {
            -low
        } else {
            low
        }
    };
    let at = order(x).saturating_add(places).clamp(-0x7fef_ffff_ffff_ffff, 0x7fef_ffff_ffff_ffff);
    if at < 0 {
        f64::from_bits((-at) as u64 | (1 << 63))
    } else {
        f64::from_bits(at as u64)
    }
}

fn eps(r: &mut Random) -> f64 {
    match r.below(10) {
        0..=2 => 1.0 / 1024.0,
        3..=4 => r.pick(&[0.25, 0.5, 1.0, 2.0, 4.0]),
        5 => r.pick(&[1e-3, 1e-6, 1e-9, 1e-12, 1e-15]),
        6 => r.pick(&[power_of_two(-300), power_of_two(-299), power_of_two(-52), power_of_two(-200)]),
        7 => scaled(r, -299, 4).abs(),
        8 => scaled(r, -60, 4).abs(),
        _ => r.pick(&[8.0, 1e3, 1e9, 1e100, 1e300, f64::MAX]),
    }
}

fn small_eps(r: &mut Random) -> f64 {
    match r.below(4) {
        0 => power_of_two(-300),
        1 => scaled(r, -299, -40).abs(),
        2 => 1e-15,
        _ => eps(r),
    }
}

// A tolerance as it comes with small whole numbers.
fn several(r: &mut Random) -> f64 {
    r.pick(&[0.5, 1.0, 1.5, 2.0, 3.0, 4.0, 6.0, 100.0])
}

// Most of these are refused with 4; the least tolerance and the double above it pass.
fn bad_tolerance(r: &mut Random) -> f64 {
    match r.below(6) {
        0 => not_finite(r),
        1 => zero(r),
        2 => -eps(r),
        3 => power_of_two(-301),
        4 => neighbour(power_of_two(-300), r.between(-1, 1)),
        _ => subnormal(r),
    }
}

// Another tolerance than this one: larger or smaller by a power of two, one unit in the last place away, or the least.
fn another_tolerance(r: &mut Random, tolerance: f64) -> f64 {
    let least = power_of_two(-300);
    let most = r.pick(&[4, 12, 250]);
    let factor = power_of_two(r.between(1, most));
    let other = match r.below(10) {
        0 => neighbour(tolerance, r.pick(&[1, -1])),
        1 => least,
        2..=5 => tolerance * factor,
        _ => tolerance / factor,
    };
    match other.clamp(least, f64::MAX) {
        same if same == tolerance => same * if same < 1.0 { 2.0 } else { 0.5 },
        other => other,
    }
}

// Leaves one of two equal tolerances and changes the other.
fn part_tolerances(r: &mut Random, call: &mut Call) {
    if r.one_in(2) {
        call.value_tolerance = another_tolerance(r, call.value_tolerance);
    } else {
        call.point_tolerance = another_tolerance(r, call.point_tolerance);
    }
}

fn limit(r: &mut Random) -> u64 {
    match r.below(16) {
        0 => 0,
        1 => 1,
        2 => 2,
        3 => 3,
        4..=6 => 30,
        7 => 400,
        8 => r.below(401),
        _ => r.below(40),
    }
}

fn count(r: &mut Random) -> u64 {
    match r.below(8) {
        0 => 1,
        1..=2 => 2,
        3..=4 => 3,
        5 => r.between(4, 6) as u64,
        6 => r.between(7, 15) as u64,
        _ => r.pick(&[1, 2, 3, 4, 5, 16]),
    }
}

fn many(r: &mut Random, n: u64, of: fn(&mut Random) -> f64) -> Vec<f64> {
    (0..n).map(|_| of(r)).collect()
}

// The coefficients of (x - r0)(x - r1).., without the leading 1.
fn from_roots(roots: &[f64]) -> Vec<f64> {
    let mut a = vec![1.0];
    for root in roots {
        a.push(0.0);
        for i in (1..a.len()).rev() {
            a[i] -= root * a[i - 1];
        }
    }
    a.remove(0);
    a
}

fn value(a: &[f64], x: f64) -> f64 {
    a.iter().fold(1.0, |sum, c| sum * x + c)
}

// Two starts, preferably with values of different sign.
fn bracket(r: &mut Random, a: &[f64], of: fn(&mut Random) -> f64) -> Vec<f64> {
    let mut pair = vec![of(r), of(r)];
    for _ in 0..6 {
        if (value(a, pair[0]) < 0.0) != (value(a, pair[1]) < 0.0) {
            break;
        }
        let i = r.below(2) as usize;
        pair[i] = of(r);
    }
    pair
}

fn cut(method: u8, mut pair: Vec<f64>) -> Vec<f64> {
    pair.truncate(starts(method));
    pair
}

const FAMILIES: u64 = 25;

// What the families are called, each with the last number it has in `made`.
pub const NAMES: [(u64, &str); 20] = [
    (2, "small whole numbers"),
    (3, "fractions over powers of two"),
    (5, "doubles of moderate size"),
    (7, "chosen roots, multiple ones among them"),
    (8, "clustered roots"),
    (9, "roots 1, 2, .., n"),
    (10, "subnormal and tiny numbers"),
    (11, "a tiny value at one end"),
    (12, "near overflow"),
    (13, "a large slope beside small numbers"),
    (14, "any finite doubles"),
    (15, "starts some places apart beside a root"),
    (16, "odd and even polynomials, starts alike in size"),
    (17, "one or two coefficients, all sizes of the tolerances"),
    (18, "steep at zero"),
    (19, "long runs"),
    (20, "the edge of overflow"),
    (21, "a line near the largest double"),
    (23, "known calls, changed"),
    (24, "calls that 1 to 5 refuse, and the largest that pass"),
];

fn chosen(seed: u64, index: u64) -> (Random, u8, u64) {
    let mut r = Random::new(seed, index);
    let method = r.between(1, 5) as u8;
    let family = r.below(FAMILIES);
    (r, method, family)
}

// The place in NAMES of a call's family.
pub fn family(seed: u64, index: u64) -> usize {
    let (_, _, family) = chosen(seed, index);
    NAMES.iter().position(|(last, _)| family <= *last).unwrap_or(NAMES.len() - 1)
}

// `known` is a list of calls worth changing a little.
pub fn call(seed: u64, index: u64, known: &[Call]) -> Call {
    let (mut r, method, family) = chosen(seed, index);
    let r = &mut r;
    let mut call = made(r, method, family, known);
    if call.has_one_eps() && r.one_in(2) {
        part_tolerances(r, &mut call);
    }
    if r.one_in(16) && call.starts.len() == 2 {
        // Equal starts, also with the other zero.
        call.starts[1] = call.starts[0];
        if call.starts[1] == 0.0 && r.one_in(2) {
            call.starts[1] = -call.starts[1];
        }
    }
    if r.one_in(8) && call.starts.len() == 2 {
        call.starts.swap(0, 1);
    }
    call
}

fn made(r: &mut Random, method: u8, family: u64, known: &[Call]) -> Call {
    let n = count(r);
    let plain = |r: &mut Random, coefficients: Vec<f64>, pair: Vec<f64>| {
        let (starts, eps) = (cut(method, pair), eps(r));
        Call { method, coefficients, starts, value_tolerance: eps, point_tolerance: eps, limit: limit(r) }
    };
    match family {
        // Small whole numbers.
        0..=2 => {
            let a = many(r, n, |r| whole(r, 9));
            let pair = bracket(r, &a, |r| whole(r, 9) / r.pick(&[1.0, 1.0, 2.0]));
            plain(r, a, pair)
        }
        // Fractions over powers of two.
        3 => {
            let a = many(r, n, fraction);
            let pair = bracket(r, &a, fraction);
            plain(r, a, pair)
        }
        // Random doubles of moderate size.
        4..=5 => {
            let a = many(r, n, |r| scaled(r, -8, 8));
            let pair = bracket(r, &a, |r| scaled(r, -8, 6));
            plain(r, a, pair)
        }
        // From chosen roots, multiple ones among them; starts near or at roots.
        6..=7 => {
            let mut roots = many(r, n, |r| if r.one_in(2) { whole(r, 5) } else { fraction(r) });
            if r.one_in(3) {
                let root = roots[0];
                roots.iter_mut().step_by(2).for_each(|x| *x = root);
            }
            let a = from_roots(&roots);
            let mut pair = bracket(r, &a, |r| whole(r, 12) / r.pick(&[1.0, 2.0, 3.0]));
            if r.one_in(3) {
                let i = r.below(2) as usize;
                pair[i] = r.pick(&roots);
            }
            plain(r, a, pair)
        }
        // Clustered roots.
        8 => {
            let centre = scaled(r, -4, 4);
            let width = power_of_two(-r.between(3, 50));
            let roots: Vec<f64> = (0..n).map(|_| centre + whole(r, 9) * width).collect();
            let a = from_roots(&roots);
            let near = centre + whole(r, 20) * width;
            let pair = vec![near, if r.one_in(2) { centre + scaled(r, -3, 3) } else { centre - whole(r, 20) * width }];
            plain(r, a, pair).with_eps(small_eps(r))
        }
        // Many equal steps: 1, 2, .., n as roots.
        9 => {
            let n = r.between(2, 16);
            let a = from_roots(&(1..=n).map(|i| i as f64).collect::<Vec<_>>());
            let pair = bracket(r, &a, |r| r.between(0, 34) as f64 / 2.0 + r.pick(&[0.0, 0.0, 0.1]));
            plain(r, a, pair)
        }
        // Subnormal and tiny numbers, where products round to zero.
        10 => {
            let a = many(r, n, |r| match r.below(4) {
                0 => subnormal(r),
                1 => zero(r),
                2 => whole(r, 2),
                _ => scaled(r, -1022, -200),
            });
            let pair = bracket(r, &a, |r| match r.below(4) {
                0 => subnormal(r),
                1 => whole(r, 2),
                _ => scaled(r, -700, -20),
            });
            plain(r, a, pair).with_eps(small_eps(r))
        }
        // One root far out, the other end tiny: the sign of a tiny value decides.
        11 => {
            let tiny = scaled(r, -1000, -280);
            let mut a = many(r, n, |r| if r.one_in(2) { zero(r) } else { whole(r, 3) });
            a[n as usize - 1] = tiny;
            let pair = vec![
                match r.below(3) {
                    0 => -tiny,
                    1 => scaled(r, -1000, -200),
                    _ => whole(r, 3),
                },
                fraction(r),
            ];
            plain(r, a, pair).with_eps(small_eps(r))
        }
        // Near overflow.
        12 => {
            let a = many(r, n, |r| match r.below(3) {
                0 => whole(r, 9),
                1 => scaled(r, 900, 1023),
                _ => scaled(r, -10, 1023),
            });
            let pair = bracket(r, &a, |r| match r.below(3) {
                0 => whole(r, 9),
                1 => scaled(r, 200, 1023),
                _ => scaled(r, -10, 100),
            });
            plain(r, a, pair)
        }
        // A large slope beside small numbers: candidates that round out of the pair.
        13 => {
            let n = r.between(1, 4) as u64;
            let a = many(r, n, |r| if r.one_in(2) { scaled(r, 900, 1023) } else { scaled(r, -1000, 2) });
            let pair = bracket(r, &a, |r| if r.one_in(3) { whole(r, 2) } else { scaled(r, -900, 10) });
            plain(r, a, pair).with_eps(small_eps(r))
        }
        // Any finite doubles.
        14 => {
            let a = many(r, n, any_finite);
            let pair = bracket(r, &a, any_finite);
            plain(r, a, pair).with_eps(small_eps(r))
        }
        // Starts some places apart beside a root.
        15 => {
            let root = if r.one_in(2) { scaled(r, -3, 3) } else { whole(r, 9) };
            let mut roots = many(r, n.min(5), |r| whole(r, 9));
            roots[0] = root;
            let a = from_roots(&roots);
            let pair = vec![neighbour(root, r.between(-4, 4)), neighbour(root, r.between(-40, 40))];
            plain(r, a, pair).with_eps(small_eps(r))
        }
        // Odd or even polynomials with starts alike in size: ties, flat starts.
        16 => {
            let mut a = many(r, n, |r| whole(r, 9));
            let keep = r.below(2) as usize;
            let last = a.len();
            a.iter_mut().enumerate().filter(|(i, _)| (last - i) % 2 == keep).for_each(|(_, x)| *x = 0.0);
            let start = if r.one_in(4) { zero(r) } else { fraction(r) };
            plain(r, a, vec![start, -start])
        }
        // One or two coefficients with all sizes of the tolerances: flat, found and wide at once.
        17 => {
            let n = r.between(1, 2) as u64;
            let a = many(r, n, |r| whole(r, 3) * r.pick(&[1.0, 0.5, 100.0]));
            let pair = many(r, 2, |r| whole(r, 3) * r.pick(&[1.0, 0.5, -0.0]));
            let mut call = plain(r, a, pair).with_eps(several(r));
            if r.one_in(2) {
                call.point_tolerance = several(r);
            }
            call
        }
        // Steep at zero: a start at or beside zero, where the width is small and the slope huge.
        18 => {
            let n = r.between(2, 4) as u64;
            let mut a = many(r, n, |r| match r.below(3) {
                0 => zero(r),
                1 => scaled(r, -20, 400),
                _ => scaled(r, 300, 1000),
            });
            a[n as usize - 2] = scaled(r, 500, 1023);
            a[n as usize - 1] = scaled(r, -300, 10);
            let pair = bracket(r, &a, |r| match r.below(3) {
                0 => {
                    if r.one_in(2) {
                        zero(r)
                    } else {
                        scaled(r, -1022, -600)
                    }
                }
                1 => scaled(r, -310, 2),
                _ => scaled(r, -310, -150),
            });
            plain(r, a, pair).with_eps(power_of_two(r.between(-300, -280)))
        }
        // Long runs: a bracket, a root of odd order and an eps that is hardly ever met.
        19 => {
            let root = if r.one_in(2) { fraction(r) } else { scaled(r, -2, 3) };
            let order = r.pick(&[1, 3, 5, 7]);
            let mut roots = vec![root; order];
            let others = r.below(2) * 2;
            roots.extend(many(r, others, |r| whole(r, 9)));
            let a = from_roots(&roots);
            let pair = bracket(r, &a, |r| scaled(r, -1, 5));
            Call { limit: r.pick(&[30, 100, 400]), ..plain(r, a, pair).with_eps(small_eps(r)) }
        }
        // The edge of overflow: the largest doubles beside some of their last places.
        20 => {
            let n = r.between(3, 7) as u64;
            let mut a = many(r, n, |r| match r.below(3) {
                0 => zero(r),
                1 => whole(r, 8) / 4.0 * power_of_two(971),
                _ => r.pick(&[1.0, -1.0, 0.5, -0.5, 0.75, -0.75]) * neighbour(f64::MAX, -r.between(0, 2)),
            });
            a[n as usize - 1] = r.pick(&[1.0, -1.0]) * neighbour(f64::MAX, -r.between(0, 1));
            let pair = bracket(r, &a, |r| r.pick(&[0.0, 0.0, 1.0, 1.0, -1.0, 0.5, 0.75, 1.25, 0.9]));
            plain(r, a, pair)
        }
        // A line with all its points near the largest double, where sums and products overflow.
        21 => {
            let root = scaled(r, 1021, 1023);
            let pair = many(r, 2, |r| scaled(r, 1020, 1023).abs() * r.pick(&[1.0, 1.0, -1.0]));
            let pair = pair.into_iter().map(|x| if root < 0.0 { -x } else { x }).collect();
            plain(r, vec![-root], pair)
        }
        // A known call, changed in one or two places.
        22..=23 => {
            let mut call = known[r.below(known.len() as u64) as usize].clone();
            for _ in 0..r.between(1, 2) {
                change(r, &mut call);
            }
            call
        }
        // Calls that 1 to 5 refuse, often for more than one reason, and the largest that pass.
        _ => {
            let mut a = many(r, n, |r| whole(r, 9));
            let mut pair = bracket(r, &a, |r| whole(r, 9));
            if r.one_in(3) {
                let n = r.pick(&[0, 16, 17, 18, 30, 40]);
                a = many(r, n, |r| whole(r, 2));
            }
            if r.one_in(3) && !a.is_empty() {
                let i = r.below(a.len() as u64) as usize;
                a[i] = not_finite(r);
            }
            if r.one_in(3) {
                let i = r.below(2) as usize;
                pair[i] = not_finite(r);
            }
            let mut call = plain(r, a, pair);
            if r.one_in(3) {
                let (bad, other) = (bad_tolerance(r), bad_tolerance(r));
                match r.below(5) {
                    0..=1 => call.value_tolerance = bad,
                    2..=3 => call.point_tolerance = bad,
                    _ => (call.value_tolerance, call.point_tolerance) = (bad, r.pick(&[bad, other])),
                }
            }
            if r.one_in(3) {
                call.limit = match r.below(3) {
                    0 => r.between(399, 402) as u64,
                    1 => u64::MAX,
                    _ => r.next(),
                };
            }
            call
        }
    }
}

// Changes one place of a call; it stays a call.
fn change(r: &mut Random, call: &mut Call) {
    let n = call.coefficients.len() as u64;
    match r.below(8) {
        0 => call.limit = limit(r),
        1 => match r.below(3) {
            0 => call.value_tolerance = eps(r),
            1 => call.point_tolerance = eps(r),
            _ => *call = call.with_eps(eps(r)),
        },
        2 => {
            call.method = r.between(1, 5) as u8;
            let other = fraction(r);
            call.starts.resize(starts(call.method), other);
        }
        3..=4 => {
            let i = r.below(call.starts.len() as u64) as usize;
            call.starts[i] = changed(r, call.starts[i]);
        }
        5 if n < 16 => {
            let x = whole(r, 3);
            call.coefficients.insert(r.below(n + 1) as usize, x);
        }
        _ if n > 0 => {
            let i = r.below(n) as usize;
            call.coefficients[i] = changed(r, call.coefficients[i]);
        }
        _ => {}
    }
}

fn changed(r: &mut Random, x: f64) -> f64 {
    match r.below(7) {
        0 => -x,
        1 => x + whole(r, 2),
        2 => neighbour(x, r.between(-3, 3)),
        3 => x * 2.0,
        4 => x / 2.0,
        5 => fraction(r),
        _ => zero(r),
    }
}

// Every call with one to three small coefficients, small starts and a few stop rules; two different tolerances have fewer limits.
pub fn small() -> impl Iterator<Item = Call> {
    const COEFFICIENTS: [f64; 5] = [-2.0, -1.0, 0.0, 1.0, 2.0];
    const STARTS: [f64; 7] = [-2.0, -1.0, -0.0, 0.0, 0.5, 1.0, 2.0];
    const EQUAL: [[f64; 2]; 3] = [[0.25, 0.25], [1.0, 1.0], [2.0, 2.0]];
    const DIFFERENT: [[f64; 2]; 4] = [[0.25, 1.0], [1.0, 0.25], [0.25, 2.0], [2.0, 0.25]];
    let polynomials = (1..=3).flat_map(|n: u32| {
        (0..5usize.pow(n)).map(move |k| (0..n).map(|i| COEFFICIENTS[k / 5usize.pow(i) % 5]).collect::<Vec<f64>>())
    });
    polynomials.flat_map(|coefficients| {
        (1..=5u8).flat_map(move |method| {
            let coefficients = coefficients.clone();
            let count = starts(method);
            (0..STARTS.len().pow(count as u32)).flat_map(move |k| {
                let equal = EQUAL.into_iter().flat_map(|pair| [0, 1, 2, 3, 30].map(|limit| (pair, limit)));
                let different = DIFFERENT.into_iter().flat_map(|pair| [1, 30].map(|limit| (pair, limit)));
                let (coefficients, starts) = (coefficients.clone(), [STARTS[k % 7], STARTS[k / 7]][..count].to_vec());
                equal.chain(different).map(move |([value_tolerance, point_tolerance], limit)| {
                    let (coefficients, starts) = (coefficients.clone(), starts.clone());
                    Call { method, coefficients, starts, value_tolerance, point_tolerance, limit }
                })
            })
        })
    })
}
