// Records against the proved archive: bytes worked out by hand, both ways, and what is refused.
use chhorlaneak_roots::*;

const PART: f64 = 1.0 / 1024.0;

// W1: Brent on x^2 - 2 between 0 and 2, both tolerances 1/1024, limit 1, refused with 8.
// A double is its 64 bits: group k, from 0, holds bits 7k to 7k + 6.
#[rustfmt::skip]
const W1: [u8; 49] = [
    0x00, 0x02,                                                 // kind 2 of records
    0x01,                                                       // method 1
    0x02,                                                       // 2 coefficients
    0x00,                                                       // 0.0: no bit
    0x80, 0x80, 0x80, 0x80, 0x80, 0x80, 0x80, 0x80, 0xc0, 0x01, // -2.0, c000000000000000: bit 62 is 40 of group 8, bit 63 is 01 of group 9
    0x00,                                                       // from 0.0
    0x80, 0x80, 0x80, 0x80, 0x80, 0x80, 0x80, 0x80, 0x40,       // to 2.0, 4000000000000000: bit 62, and no group 9
    0x80, 0x80, 0x80, 0x80, 0x80, 0x80, 0x80, 0xa8, 0x3f,       // value tolerance, 3f50000000000000: bits 52 and 54 are 28 of group 7, bits 56 to 61 are 3f of group 8
    0x80, 0x80, 0x80, 0x80, 0x80, 0x80, 0x80, 0xa8, 0x3f,       // point tolerance, the same
    0x01,                                                       // limit 1
    0x12,                                                       // kind 18 of answers: 10 plus refusal 8, which has no numbers
    0x01, 0x03, 0x00, 0x00,                                     // 1 step, 3 values, 0 derivatives, mark 0
];
const AT_METHOD: usize = 2;
const AT_VALUE_TOLERANCE: usize = 25;
const AT_POINT_TOLERANCE: usize = 34;
const AT_LIMIT: usize = 43;
const AT_KIND: usize = 44;

// The same search as a record of kind 1, which begins with the method and has one tolerance.
#[rustfmt::skip]
const OLD_W1: [u8; 38] = [
    0x01, 0x02,
    0x00, 0x80, 0x80, 0x80, 0x80, 0x80, 0x80, 0x80, 0x80, 0xc0, 0x01,
    0x00, 0x80, 0x80, 0x80, 0x80, 0x80, 0x80, 0x80, 0x80, 0x40,
    0x80, 0x80, 0x80, 0x80, 0x80, 0x80, 0x80, 0xa8, 0x3f,
    0x01, 0x12, 0x01, 0x03, 0x00, 0x00,
];

fn rule(eps: f64, max_iter: usize) -> SimpleConvergency {
    SimpleConvergency { eps, max_iter }
}

fn refused(number: u8) -> Result<Found, Refusal> {
    Err(Refusal { number, tally: Tally { steps: 1, values: 3, derivatives: 0, mark: 0 } })
}

fn w1() -> Record {
    Record::new(Method::Brent { from: 0.0, to: 2.0 }, &[0.0, -2.0], &rule(PART, 1), refused(8)).unwrap()
}

// W1's record with something changed.
fn with(change: impl FnOnce(&mut Record)) -> Record {
    let mut record = w1();
    change(&mut record);
    record
}

fn written(record: &Record) -> Vec<u8> {
    let mut bytes = [0; Record::LONGEST];
    let length = record.write(&mut bytes).unwrap();
    bytes[..length].to_vec()
}

// The longest that there is: kind 2, everything that may be negative is, and the counts are the greatest that a word holds.
fn longest() -> Record {
    let tally = Tally { steps: u64::MAX, values: u64::MAX, derivatives: u64::MAX, mark: 2 };
    let found = Found { root: -0.1, reason: Reason::ByWidth { p: -0.1, q: -0.1 }, tally };
    Record::new(Method::Polynom { from: -0.1, to: -0.2 }, &[-1.0; 16], &rule(PART, 400), Ok(found)).unwrap()
}

fn recorded(method: Method, a: &[f64], mut rule: SimpleConvergency) -> Record {
    let answer = match method {
        Method::Brent { from, to } => find_root_brent(from, to, a, &mut rule),
        Method::RegulaFalsi { from, to } => find_root_regula_falsi(from, to, a, &mut rule),
        Method::Secant { first, second } => find_root_secant(first, second, a, &mut rule),
        Method::NewtonRaphson { start } => find_root_newton_raphson(start, a, &mut rule),
        Method::Polynom { from, to } => find_root_polynom(from, to, a, &mut rule),
    };
    Record::new(method, a, &rule, answer).unwrap()
}

// Every method and every sort of answer as the search gives them, both kinds, two tolerances apart, a short one and the longest.
fn searched() -> Vec<Record> {
    let a = [0.0, -2.0];
    let (from, to, eps) = (0.0, 2.0, 1e-12);
    vec![
        recorded(Method::Brent { from, to }, &a, rule(eps, 300)),
        recorded(Method::RegulaFalsi { from, to }, &a, rule(eps, 300)),
        recorded(Method::Secant { first: from, second: to }, &a, rule(eps, 300)),
        recorded(Method::NewtonRaphson { start: 1.0 }, &a, rule(eps, 300)),
        recorded(Method::Polynom { from, to }, &a, rule(eps, 300)),
        recorded(Method::RegulaFalsi { from, to }, &[100.0, -150.0], rule(4.0, 10)),
        w1(),
        with(|record| record.kind = 1),
        with(|record| record.point_tolerance = 2.0),
        longest(),
    ]
}

#[test]
fn w1_by_hand() {
    assert_eq!(find_root_brent(0.0, 2.0, &[0.0, -2.0], &mut rule(PART, 1)), refused(8));
    assert_eq!(written(&w1()), W1);
    assert_eq!(Record::read(&W1), Ok((w1(), W1.len())));
    assert_eq!((w1().kind, Record::NEWEST), (2, 2));
}

#[test]
fn an_old_record() {
    let (old, length) = Record::read(&OLD_W1).unwrap();
    assert_eq!((old.kind, length), (1, OLD_W1.len()));
    assert_eq!((old.value_tolerance, old.point_tolerance), (PART, PART));
    assert_eq!(old, with(|record| record.kind = 1));
    assert_ne!(old, w1());
    assert_eq!(written(&old), OLD_W1);
    let mut newer = old;
    newer.kind = Record::NEWEST;
    assert_eq!(written(&newer), W1);
}

#[test]
fn tolerances_apart() {
    let record = with(|record| record.point_tolerance = 2.0);
    let two = [0x80, 0x80, 0x80, 0x80, 0x80, 0x80, 0x80, 0x80, 0x40];
    let bytes = w1_with(AT_POINT_TOLERANCE, 9, &two);
    assert_eq!(written(&record), bytes);
    assert_eq!(Record::read(&bytes), Ok((record, bytes.len())));
    assert_ne!(record, w1());
    let turned = with(|record| record.value_tolerance = 2.0);
    assert_eq!(written(&turned), w1_with(AT_VALUE_TOLERANCE, 9, &two));
}

#[test]
fn kinds_without_a_record() {
    for kind in (0..=u8::MAX).filter(|kind| ![1, 2].contains(kind)) {
        has_no_record(with(|record| record.kind = kind));
    }
    let after = |x: f64| f64::from_bits(x.to_bits() + 1);
    has_no_record(with(|record| (record.kind, record.value_tolerance) = (1, after(PART))));
    has_no_record(with(|record| (record.kind, record.point_tolerance) = (1, after(PART))));
    for kind in [&[0x00][..], &[0x01], &[0x03], &[0x04], &[0x82, 0x00], &[0x82, 0x01]] {
        let bytes = w1_with(1, 1, kind);
        assert_eq!(Record::read(&bytes), Err(RecordError::NoRecord), "{bytes:02x?}");
    }
    // kind 1 never begins with 0, and kind 2 never without
    assert_eq!(Record::read(&[&[0x00, 0x01], &OLD_W1[..]].concat()), Err(RecordError::NoRecord));
    assert_eq!(Record::read(&W1[AT_METHOD..]), Err(RecordError::NoRecord));
}

#[test]
fn three_hundred_is_ac_02() {
    let record = with(|record| record.limit = 300);
    let bytes = written(&record);
    assert_eq!(bytes.len(), W1.len() + 1);
    assert_eq!(bytes[AT_LIMIT..AT_LIMIT + 2], [0xac, 0x02]);
    assert_eq!(Record::read(&bytes), Ok((record, bytes.len())));
}

#[test]
fn what_was_written_reads_back() {
    for record in searched() {
        let bytes = written(&record);
        let (read, length) = Record::read(&bytes).unwrap();
        assert_eq!((read, length), (record, bytes.len()));
        assert_eq!(read.coefficients(), record.coefficients());
        assert_eq!(read.answer, record.answer);
        assert_eq!(written(&read), bytes);
    }
}

#[test]
fn newton_has_one_start() {
    let newton = with(|record| record.method = Method::NewtonRaphson { start: 2.0 });
    let bytes = written(&newton);
    assert_eq!(bytes[AT_METHOD], 4);
    assert_eq!(bytes[AT_METHOD + 1..15], W1[AT_METHOD + 1..15]);
    assert_eq!(bytes[15..], W1[16..]);
    assert_eq!(Record::read(&bytes), Ok((newton, W1.len() - 1)));
}

#[test]
fn the_rest_is_left_alone() {
    for record in searched() {
        let bytes = written(&record);
        let mut buffer = [0xee; Record::LONGEST + 9];
        assert_eq!(record.write(&mut buffer), Ok(bytes.len()));
        assert_eq!(buffer[..bytes.len()], bytes);
        assert!(buffer[bytes.len()..].iter().all(|byte| *byte == 0xee));
        assert_eq!(Record::read(&buffer), Ok((record, bytes.len())));
    }
}

#[test]
fn every_cut_is_refused() {
    for record in searched() {
        let bytes = written(&record);
        for end in 0..bytes.len() {
            assert_eq!(Record::read(&bytes[..end]), Err(RecordError::NoRecord), "{end} bytes of {record:?}");
        }
    }
}

#[test]
fn too_little_room() {
    for record in searched() {
        let bytes = written(&record);
        for room in 0..bytes.len() {
            let mut buffer = vec![0xee; room];
            assert_eq!(record.write(&mut buffer), Err(RecordError::NoRoom));
            assert!(buffer.iter().all(|byte| *byte == 0xee));
        }
        let mut exact = vec![0xee; bytes.len()];
        assert_eq!(record.write(&mut exact), Ok(bytes.len()));
        assert_eq!(exact, bytes);
    }
}

#[test]
fn the_longest() {
    // 2 bytes for the kind, 1 and 1 for method and count, 10 for each of 16 coefficients and 2 starts, 9 for each tolerance, which
    // is not negative, 2 for the limit, 1 for the answer's kind, 10 for each of 3 numbers and 3 counts, 1 for the mark.
    assert_eq!(written(&longest()).len(), 2 + 1 + 1 + 16 * 10 + 2 * 10 + 2 * 9 + 2 + 1 + 3 * 10 + 3 * 10 + 1);
    assert_eq!(written(&longest()).len(), 266);
    let mut old = longest();
    old.kind = 1;
    assert_eq!(written(&old).len(), 255);
}

fn found(root: f64, reason: Reason) -> Result<Found, Refusal> {
    Ok(Found { root, reason, tally: Tally::default() })
}

fn has_no_record(record: Record) {
    let mut buffer = [0xee; Record::LONGEST];
    assert_eq!(record.write(&mut buffer), Err(RecordError::NoRecord), "{record:?}");
    assert_eq!(record.write(&mut []), Err(RecordError::NoRecord), "{record:?}");
    assert!(buffer.iter().all(|byte| *byte == 0xee));
}

#[test]
fn calls_without_a_record() {
    let made = |a: &[f64]| Record::new(Method::Brent { from: 0.0, to: 2.0 }, a, &PART, refused(8));
    assert_eq!(made(&[0.0; 17]), Err(RecordError::NoRecord));
    has_no_record(made(&[]).unwrap());
    for wrong in [f64::NAN, f64::INFINITY, f64::NEG_INFINITY] {
        has_no_record(made(&[0.0, wrong]).unwrap());
        has_no_record(with(|record| record.method = Method::Secant { first: wrong, second: 0.0 }));
        has_no_record(with(|record| record.method = Method::Secant { first: 0.0, second: wrong }));
        has_no_record(with(|record| record.method = Method::NewtonRaphson { start: wrong }));
    }
    let least = 2f64.powi(-300);
    written(&with(|record| record.value_tolerance = least));
    written(&with(|record| record.point_tolerance = least));
    for wrong in [f64::NAN, f64::INFINITY, f64::from_bits(least.to_bits() - 1), -PART] {
        has_no_record(with(|record| record.value_tolerance = wrong));
        has_no_record(with(|record| record.point_tolerance = wrong));
        has_no_record(with(|record| (record.kind, record.value_tolerance, record.point_tolerance) = (1, wrong, wrong)));
    }
    written(&with(|record| record.limit = 400));
    has_no_record(with(|record| record.limit = 401));
    has_no_record(with(|record| record.limit = u64::MAX));
}

#[test]
fn answers_without_a_record() {
    for wrong in [f64::NAN, f64::INFINITY, f64::NEG_INFINITY] {
        has_no_record(with(|record| record.answer = found(wrong, Reason::ByValue { value: 0.0 })));
        has_no_record(with(|record| record.answer = found(1.0, Reason::ByValue { value: wrong })));
        has_no_record(with(|record| record.answer = found(1.0, Reason::ByWidth { p: wrong, q: 1.0 })));
        has_no_record(with(|record| record.answer = found(1.0, Reason::ByWidth { p: 1.0, q: wrong })));
    }
    for number in 0..=u8::MAX {
        let record = with(|record| record.answer = refused(number));
        match number {
            6..=9 => assert_eq!(written(&record)[AT_KIND], 10 + number),
            _ => has_no_record(record),
        }
    }
    for mark in 0..=u8::MAX {
        let record = with(|record| record.answer = Err(Refusal { number: 8, tally: Tally { mark, ..Tally::default() } }));
        match mark {
            0..=2 => assert_eq!(written(&record).last(), Some(&mark)),
            _ => has_no_record(record),
        }
    }
}

// W1's bytes with some of them, from a place on, put in the place of others.
fn w1_with(at: usize, taken: usize, put: &[u8]) -> Vec<u8> {
    let mut bytes = W1.to_vec();
    bytes.splice(at..at + taken, put.iter().copied());
    bytes
}

#[test]
fn bytes_that_are_no_record() {
    const STEPS: usize = AT_KIND + 1;
    const MARK: usize = STEPS + 3;
    let most = [0xff, 0xff, 0xff, 0xff, 0xff, 0xff, 0xff, 0xff, 0xff, 0x01];
    assert!(Record::read(&w1_with(STEPS, 1, &most)).is_ok());
    let passes = [0xff, 0xff, 0xff, 0xff, 0xff, 0xff, 0xff, 0xff, 0xff, 0x02];
    let eleven = [0x80, 0x80, 0x80, 0x80, 0x80, 0x80, 0x80, 0x80, 0x80, 0x80, 0x01];
    let infinity = [0x80, 0x80, 0x80, 0x80, 0x80, 0x80, 0x80, 0xf8, 0x7f];
    for (at, taken, put) in [
        (STEPS, 1, &passes[..]),
        (STEPS, 1, &eleven),
        (STEPS, 1, &[0x81, 0x00]),
        (STEPS, 1, &[0x80, 0x00]),
        (AT_METHOD, 1, &[0x00]),
        (AT_METHOD, 1, &[0x06]),
        (AT_METHOD + 1, 1, &[0x00]),
        (AT_METHOD + 1, 1, &[0x11]),
        (AT_METHOD + 2, 1, &infinity),
        (15, 1, &infinity),
        (AT_VALUE_TOLERANCE, 9, &infinity),
        (AT_POINT_TOLERANCE, 9, &infinity),
        (AT_POINT_TOLERANCE, 9, &[0x00]),
        (AT_LIMIT, 1, &[0x91, 0x03]),
        (AT_KIND, 1, &[0x02]),
        (AT_KIND, 1, &[0x0a]),
        (AT_KIND, 1, &[0x0f]),
        (AT_KIND, 1, &[0x14]),
        (MARK, 1, &[0x03]),
    ] {
        let bytes = w1_with(at, taken, put);
        assert_eq!(Record::read(&bytes), Err(RecordError::NoRecord), "{bytes:02x?}");
    }
}

#[test]
fn whatever_reads_is_written_back() {
    for record in searched() {
        let bytes = written(&record);
        for changed in 0..bytes.len() * 8 {
            let mut others = bytes.clone();
            others[changed / 8] ^= 1 << (changed % 8);
            if let Ok((read, length)) = Record::read(&others) {
                assert_eq!(written(&read), others[..length]);
                assert_ne!(read, record);
            }
        }
    }
}

#[test]
fn equal_by_bits() {
    let zero = |a: f64| Record::new(Method::NewtonRaphson { start: 0.0 }, &[a], &PART, refused(8)).unwrap();
    assert_ne!(zero(0.0), zero(-0.0));
    assert_ne!(written(&zero(0.0)), written(&zero(-0.0)));
    assert_eq!(zero(f64::NAN), zero(f64::NAN));
    let mut other = zero(0.0);
    other.method = Method::NewtonRaphson { start: -0.0 };
    assert_ne!(zero(0.0), other);
}

#[test]
fn in_words() {
    assert_eq!((RecordError::NoRoom.number(), RecordError::NoRecord.number()), (10, 11));
    assert_eq!(RecordError::NoRoom.to_string(), "refusal 10: the buffer is too short for the record");
    let expected = "Record { kind: 2, method: Brent { from: 0.0, to: 2.0 }, coefficients: [0.0, -2.0], \
                    value_tolerance: 0.0009765625, point_tolerance: 0.0009765625, limit: 1, ";
    assert!(format!("{:?}", w1()).starts_with(expected));
}
