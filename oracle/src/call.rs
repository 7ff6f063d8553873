// One call a line: METHOD COUNT A0 .. START [START] VALUE_TOLERANCE POINT_TOLERANCE LIMIT. Doubles are 16 hex digits, their bits.

#[derive(Clone)]
pub struct Call {
    pub method: u8,
    pub coefficients: Vec<f64>,
    pub starts: Vec<f64>,
    pub value_tolerance: f64,
    pub point_tolerance: f64,
    pub limit: u64,
}

pub const BRENT: u8 = 1;
pub const ILLINOIS: u8 = 2;
pub const SECANT: u8 = 3;
pub const NEWTON: u8 = 4;
pub const POLYNOMIAL: u8 = 5;

pub const METHODS: [&str; 5] = ["Brent", "Illinois", "secant", "Newton", "polynomial search"];

fn decimal(field: Option<&str>) -> Option<u64> {
    field.filter(|f| f.bytes().all(|b| b.is_ascii_digit()))?.parse().ok()
}

fn double(field: Option<&str>) -> Option<f64> {
    let field = field.filter(|f| f.len() == 16 && f.bytes().all(|b| b.is_ascii_hexdigit()))?;
    u64::from_str_radix(field, 16).ok().map(f64::from_bits)
}

pub fn starts(method: u8) -> usize {
    if method == NEWTON {
        1
    } else {
        2
    }
}

// Nothing where the line is not a call.
pub fn read(line: &str) -> Option<Call> {
    let mut fields = line.split_ascii_whitespace();
    let method = decimal(fields.next()).filter(|m| (1..=5).contains(m))? as u8;
    let count = decimal(fields.next())?;
    let coefficients = (0..count).map(|_| double(fields.next())).collect::<Option<Vec<_>>>()?;
    let starts = (0..starts(method)).map(|_| double(fields.next())).collect::<Option<Vec<_>>>()?;
    let value_tolerance = double(fields.next())?;
    let point_tolerance = double(fields.next())?;
    let limit = decimal(fields.next())?;
    if fields.next().is_some() {
        return None;
    }
    Some(Call { method, coefficients, starts, value_tolerance, point_tolerance, limit })
}

impl Call {
    pub fn tolerances(&self) -> [f64; 2] {
        [self.value_tolerance, self.point_tolerance]
    }

    // The same call with two equal tolerances: the Rust's one eps.
    pub fn with_eps(&self, eps: f64) -> Call {
        Call { value_tolerance: eps, point_tolerance: eps, ..self.clone() }
    }

    // Equal and different are of the 64 bits.
    pub fn has_one_eps(&self) -> bool {
        self.value_tolerance.to_bits() == self.point_tolerance.to_bits()
    }

    pub fn line(&self) -> String {
        use std::fmt::Write;
        let mut line = format!("{} {}", self.method, self.coefficients.len());
        for x in self.coefficients.iter().chain(&self.starts).chain(&self.tolerances()) {
            write!(line, " {:016x}", x.to_bits()).unwrap();
        }
        write!(line, " {}", self.limit).unwrap();
        line
    }

    // The same call for a reader's eyes.
    pub fn in_words(&self) -> String {
        let method = METHODS[self.method as usize - 1];
        let tolerances = if self.has_one_eps() {
            format!("eps {:?}", self.value_tolerance)
        } else {
            format!("value tolerance {:?}, point tolerance {:?}", self.value_tolerance, self.point_tolerance)
        };
        format!("{method} {:?} from {:?}, {tolerances}, limit {}", self.coefficients, self.starts, self.limit)
    }
}
