// The writer and the reader of records as a Rust program would have them: safe code with every check that the layout asks for.

pub const LONGEST: usize = 268;
pub const LEAST_TOLERANCE: f64 = 4.909093465297727e-91;
pub const NEWEST: u64 = 2;
const MOST_COEFFICIENTS: usize = 16;
const NEWTON: u64 = 4;

// A call and its answer, as include/roots.h has them; the kind is the answer's.
#[derive(Clone, Debug, Default)]
pub struct Record {
    pub record_kind: u64,
    pub method: u64,
    pub count: usize,
    pub a: [f64; MOST_COEFFICIENTS],
    pub first: f64,
    pub second: f64,
    pub value_tolerance: f64,
    pub point_tolerance: f64,
    pub limit: u64,
    pub kind: u64,
    pub numbers: [f64; 3],
    pub tallies: [u64; 4],
}

#[derive(Clone, Copy, Debug, PartialEq)]
pub enum Refused {
    NoRoom = 10,
    NoRecord = 11,
}

// How many numbers an answer of a kind has; nothing where no answer has that kind.
fn numbers_of(kind: u64) -> Option<usize> {
    match kind {
        0 => Some(2),
        1 => Some(3),
        16..=19 => Some(0),
        _ => None,
    }
}

fn finite(numbers: &[f64]) -> bool {
    numbers.iter().all(|x| x.is_finite())
}

fn is_tolerance(x: f64) -> bool {
    x.is_finite() && x >= LEAST_TOLERANCE
}

// Kind 1 has one tolerance for both.
fn kind_fits(record: &Record) -> bool {
    match record.record_kind {
        1 => record.value_tolerance.to_bits() == record.point_tolerance.to_bits(),
        kind => kind == NEWEST,
    }
}

// The coefficients and the answer's numbers, where call and answer have a record.
fn parts(record: &Record) -> Option<(&[f64], &[f64])> {
    let a = record.a.get(..record.count)?;
    let numbers = &record.numbers[..numbers_of(record.kind)?];
    let fits = kind_fits(record)
        && (1..=5).contains(&record.method)
        && !a.is_empty()
        && finite(a)
        && record.first.is_finite()
        && (record.method == NEWTON || record.second.is_finite())
        && is_tolerance(record.value_tolerance)
        && is_tolerance(record.point_tolerance)
        && record.limit <= 400
        && finite(numbers)
        && record.tallies[3] <= 2;
    fits.then_some((a, numbers))
}

// The numbers of a row, one behind the other.
struct Row<'a> {
    bytes: &'a mut [u8; LONGEST],
    length: usize,
}

impl Row<'_> {
    fn number(&mut self, mut n: u64) {
        while n >= 0x80 {
            self.byte(n as u8 | 0x80);
            n >>= 7;
        }
        self.byte(n as u8);
    }
    fn byte(&mut self, byte: u8) {
        self.bytes[self.length] = byte;
        self.length += 1;
    }
    fn double(&mut self, x: f64) {
        self.number(x.to_bits());
    }
}

fn put(record: &Record, a: &[f64], numbers: &[f64], bytes: &mut [u8; LONGEST]) -> usize {
    let mut row = Row { bytes, length: 0 };
    if record.record_kind == NEWEST {
        row.number(0);
        row.number(NEWEST);
    }
    row.number(record.method);
    row.number(a.len() as u64);
    a.iter().for_each(|x| row.double(*x));
    row.double(record.first);
    if record.method != NEWTON {
        row.double(record.second);
    }
    row.double(record.value_tolerance);
    if record.record_kind == NEWEST {
        row.double(record.point_tolerance);
    }
    row.number(record.limit);
    row.number(record.kind);
    numbers.iter().for_each(|x| row.double(*x));
    record.tallies.iter().for_each(|n| row.number(*n));
    row.length
}

// A buffer with room for any record is written straight away; a shorter one must stay as it is until the record is known to fit.
#[inline(never)]
pub fn write(record: &Record, bytes: &mut [u8]) -> Result<usize, Refused> {
    let (a, numbers) = parts(record).ok_or(Refused::NoRecord)?;
    if let Some(room) = bytes.first_chunk_mut() {
        return Ok(put(record, a, numbers, room));
    }
    let mut row = [0; LONGEST];
    let length = put(record, a, numbers, &mut row);
    bytes.get_mut(..length).ok_or(Refused::NoRoom)?.copy_from_slice(&row[..length]);
    Ok(length)
}

struct Reader<'a> {
    rest: &'a [u8],
}

impl Reader<'_> {
    // Nothing where the bytes end early, pass 64 bits or have a needless last group.
    fn number(&mut self) -> Option<u64> {
        let mut n = 0;
        for (i, byte) in self.rest.iter().take(10).enumerate() {
            let group = u64::from(byte & 0x7f);
            if i == 9 && group > 1 {
                return None;
            }
            n |= group << (7 * i);
            if *byte < 0x80 {
                self.rest = &self.rest[i + 1..];
                return (*byte != 0 || i == 0).then_some(n);
            }
        }
        None
    }
    fn double(&mut self) -> Option<f64> {
        Some(f64::from_bits(self.number()?)).filter(|x| x.is_finite())
    }
    fn tolerance(&mut self) -> Option<f64> {
        self.double().filter(|x| *x >= LEAST_TOLERANCE)
    }
}

// A record of kind 1 begins with its method, which is not 0; a later one with 0 and its kind.
fn read_kind_and_method(reader: &mut Reader, record: &mut Record) -> Option<()> {
    let mut first = reader.number()?;
    record.record_kind = 1;
    if first == 0 {
        record.record_kind = reader.number().filter(|kind| *kind == NEWEST)?;
        first = reader.number()?;
    }
    record.method = Some(first).filter(|method| (1..=5).contains(method))?;
    Some(())
}

fn read_call(reader: &mut Reader, record: &mut Record) -> Option<()> {
    read_kind_and_method(reader, record)?;
    record.count = reader.number().filter(|count| (1..=MOST_COEFFICIENTS as u64).contains(count))? as usize;
    for a in &mut record.a[..record.count] {
        *a = reader.double()?;
    }
    record.first = reader.double()?;
    if record.method != NEWTON {
        record.second = reader.double()?;
    }
    record.value_tolerance = reader.tolerance()?;
    record.point_tolerance = if record.record_kind == 1 { record.value_tolerance } else { reader.tolerance()? };
    record.limit = reader.number().filter(|limit| *limit <= 400)?;
    Some(())
}

fn read_answer(reader: &mut Reader, record: &mut Record) -> Option<()> {
    record.kind = reader.number()?;
    for number in &mut record.numbers[..numbers_of(record.kind)?] {
        *number = reader.double()?;
    }
    for tally in &mut record.tallies {
        *tally = reader.number()?;
    }
    (record.tallies[3] <= 2).then_some(())
}

// The record at the start of the bytes, and its length.
#[inline(never)]
pub fn read(bytes: &[u8]) -> Result<(Record, usize), Refused> {
    let (mut reader, mut record) = (Reader { rest: bytes }, Record::default());
    read_call(&mut reader, &mut record).ok_or(Refused::NoRecord)?;
    read_answer(&mut reader, &mut record).ok_or(Refused::NoRecord)?;
    Ok((record, bytes.len() - reader.rest.len()))
}
