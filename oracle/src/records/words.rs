// Records and bytes as text: KIND CALL = ANSWER as README.md has them, bytes as hex digits.

use crate::call::{self, Call};
use crate::record::{self, Record};

pub fn hex(bytes: &[u8]) -> String {
    bytes.iter().map(|byte| format!("{byte:02x}")).collect()
}

pub fn bytes_of(hex: &str) -> Option<Vec<u8>> {
    if !hex.is_ascii() || hex.len() % 2 != 0 {
        return None;
    }
    (0..hex.len()).step_by(2).map(|i| u8::from_str_radix(&hex[i..i + 2], 16).ok()).collect()
}

// An answer line to its call, in a record of that kind. Nothing where it is not one.
pub fn record_of(record_kind: u64, call: &Call, answer: &str) -> Option<Record> {
    let mut fields = answer.split(' ');
    let kind = fields.next()?.parse().ok()?;
    let many = record::numbers(kind);
    let numbers = (0..many).map(|_| u64::from_str_radix(fields.next()?, 16).ok()).collect::<Option<Vec<_>>>()?;
    let tallies = fields.map(|field| field.parse().ok()).collect::<Option<Vec<u64>>>()?;
    let [steps, values, derivatives, mark] = tallies[..] else { return None };
    let bits = |doubles: &[f64]| doubles.iter().map(|x| x.to_bits()).collect();
    Some(Record {
        record_kind,
        method: u64::from(call.method),
        coefficients: bits(&call.coefficients),
        starts: bits(&call.starts),
        value_tolerance: call.value_tolerance.to_bits(),
        point_tolerance: call.point_tolerance.to_bits(),
        limit: call.limit,
        kind,
        numbers,
        steps,
        values,
        derivatives,
        mark,
    })
}

// The other way round, for any record.
pub fn line_of(r: &Record) -> String {
    let row = |doubles: &[u64]| doubles.iter().map(|bits| format!(" {bits:016x}")).collect::<String>();
    let points = row(&r.starts) + &row(&[r.value_tolerance, r.point_tolerance]);
    let call = format!("{} {}{}{points} {}", r.method, r.coefficients.len(), row(&r.coefficients), r.limit);
    format!("{} {call} = {}{} {} {} {} {}", r.record_kind, r.kind, row(&r.numbers), r.steps, r.values, r.derivatives, r.mark)
}

// KIND CALL = ANSWER.
pub fn record_in(line: &str) -> Option<Record> {
    let (kind, call_and_answer) = line.trim().split_once(' ')?;
    let (call, answer) = call_and_answer.split_once('=')?;
    record_of(kind.parse().ok()?, &call::read(call)?, answer.trim())
}
