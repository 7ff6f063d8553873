// A second route to document 02's record of a search, written from its words alone.
// Reading takes the bytes apart into a row of whole numbers and then says what the row means.
// Whether they were written as they must be is asked last, by writing the row once more.

// A call and its answer, and the kind of record that they stand in. Doubles stand here as their 64 bits.
#[derive(Clone, PartialEq)]
pub struct Record {
    pub record_kind: u64,
    pub method: u64,
    pub coefficients: Vec<u64>,
    pub starts: Vec<u64>,
    pub value_tolerance: u64,
    pub point_tolerance: u64,
    pub limit: u64,
    pub kind: u64,
    pub numbers: Vec<u64>,
    pub steps: u64,
    pub values: u64,
    pub derivatives: u64,
    pub mark: u64,
}

pub const NO_ROOM: u64 = 10;
pub const NO_RECORD: u64 = 11;

pub const KINDS: [u64; 6] = [0, 1, 16, 17, 18, 19];

// Newton has one start.
pub fn starts(method: u64) -> u64 {
    if method == 4 {
        1
    } else {
        2
    }
}

// By value: root and value. By width: root, p and q. A refusal has none.
pub fn numbers(kind: u64) -> u64 {
    match kind {
        0 => 2,
        1 => 3,
        _ => 0,
    }
}

// A number in groups of seven bits, lowest first. Zero has one group too.
pub fn groups(number: u64) -> impl Iterator<Item = u8> {
    let bits = 64 - number.leading_zeros();
    let last = bits.div_ceil(7).max(1) - 1;
    (0..=last).map(move |i| (number >> (7 * i) & 127) as u8 + if i < last { 128 } else { 0 })
}

// The record's numbers in their order. The old kind, 1, has no head and one tolerance, its eps.
pub fn row(record: &Record) -> Vec<u64> {
    let old = record.record_kind == 1;
    let mut row = if old { vec![] } else { vec![0, record.record_kind] };
    row.extend([record.method, record.coefficients.len() as u64]);
    row.extend(&record.coefficients);
    row.extend(&record.starts);
    row.push(record.value_tolerance);
    if !old {
        row.push(record.point_tolerance);
    }
    row.extend([record.limit, record.kind]);
    row.extend(&record.numbers);
    row.extend([record.steps, record.values, record.derivatives, record.mark]);
    row
}

pub fn bytes(record: &Record) -> Vec<u8> {
    row(record).into_iter().flat_map(groups).collect()
}

fn finite(bits: &u64) -> bool {
    f64::from_bits(*bits).is_finite()
}

// 2^-300, which these make without rounding.
const SIXTY: f64 = (1u64 << 60) as f64;
const LEAST_TOLERANCE: f64 = 1.0 / (SIXTY * SIXTY * SIXTY * SIXTY * SIXTY);

fn tolerance_passes(bits: u64) -> bool {
    finite(&bits) && f64::from_bits(bits) >= LEAST_TOLERANCE
}

// Whether 1 to 5 leave the call alone.
fn call_passes(record: &Record) -> bool {
    (1..=16).contains(&record.coefficients.len())
        && record.coefficients.iter().all(finite)
        && record.starts.iter().all(finite)
        && tolerance_passes(record.value_tolerance)
        && tolerance_passes(record.point_tolerance)
        && record.limit <= 400
}

// Whether there is such a kind of record, and it can hold both tolerances.
fn kind_passes(record: &Record) -> bool {
    match record.record_kind {
        1 => record.value_tolerance == record.point_tolerance,
        other => other == 2,
    }
}

// Whether a call and its answer have a record of that kind. How plausible the answer is does not matter.
pub fn allowed(record: &Record) -> bool {
    kind_passes(record)
        && (1..=5).contains(&record.method)
        && record.starts.len() as u64 == starts(record.method)
        && call_passes(record)
        && KINDS.contains(&record.kind)
        && record.numbers.len() as u64 == numbers(record.kind)
        && record.numbers.iter().all(finite)
        && record.mark <= 2
}

// Every number that ends within the bytes, however large. What passes 120 bits stays above them, and no more of it is known.
fn row_in(bytes: &[u8]) -> impl Iterator<Item = u128> + '_ {
    let ends = |part: &&[u8]| part.last().is_some_and(|last| *last < 128);
    let number = |part: &[u8]| part.iter().rev().fold(0u128, |sum, byte| sum.min(1 << 120) * 128 + u128::from(byte % 128));
    bytes.split_inclusive(|byte| *byte < 128).filter(ends).map(number)
}

// Nothing where there are too few, or one passes 64 bits.
fn take(row: &mut impl Iterator<Item = u128>, many: u64) -> Option<Vec<u64>> {
    (0..many).map(|_| u64::try_from(row.next()?).ok()).collect()
}

fn take_one(row: &mut impl Iterator<Item = u128>) -> Option<u64> {
    take(row, 1).map(|one| one[0])
}

// The record's kind and its method: a row that begins with 0 says its kind next, and any other is of kind 1.
fn head(row: &mut impl Iterator<Item = u128>) -> Option<(u64, u64)> {
    match take_one(row)? {
        0 => Some((take_one(row).filter(|kind| *kind == 2)?, take_one(row)?)),
        method => Some((1, method)),
    }
}

fn understood(row: &mut impl Iterator<Item = u128>) -> Option<Record> {
    let (record_kind, method) = head(row)?;
    let count = take_one(row)?;
    let coefficients = take(row, count)?;
    let starts = take(row, starts(method))?;
    let value_tolerance = take_one(row)?;
    let point_tolerance = if record_kind == 1 { value_tolerance } else { take_one(row)? };
    let limit = take_one(row)?;
    let kind = take_one(row)?;
    let numbers = take(row, numbers(kind))?;
    let steps = take_one(row)?;
    let values = take_one(row)?;
    let derivatives = take_one(row)?;
    let mark = take_one(row)?;
    Some(Record {
        record_kind,
        method,
        coefficients,
        starts,
        value_tolerance,
        point_tolerance,
        limit,
        kind,
        numbers,
        steps,
        values,
        derivatives,
        mark,
    })
}

// The record at the start of the bytes and its length; nothing stands for refusal 11.
pub fn read(start: &[u8]) -> Option<(Record, usize)> {
    let record = understood(&mut row_in(start)).filter(allowed)?;
    let again = bytes(&record);
    start.starts_with(&again).then_some((record, again.len()))
}

// The record's length, or a refusal; 11 comes first.
pub fn write(record: &Record, buffer: &mut [u8]) -> Result<usize, u64> {
    if !allowed(record) {
        return Err(NO_RECORD);
    }
    let bytes = bytes(record);
    buffer.get_mut(..bytes.len()).ok_or(NO_ROOM)?.copy_from_slice(&bytes);
    Ok(bytes.len())
}
