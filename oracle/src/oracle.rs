// Asks the published methods: a call a line in, an answer a line out. See README.md.

// What only `compare` uses is no concern here.
#[allow(dead_code)]
mod call;
#[allow(dead_code)]
mod run;
mod watch;

use std::cell::Cell;
use std::io::{BufRead, Write};
use watch::Test;

// All NaNs look alike, so that an answer does not depend on the processor.
fn bits(x: f64) -> u64 {
    if x.is_nan() {
        0x7ff8_0000_0000_0000
    } else {
        x.to_bits()
    }
}

fn answer(line: &str, trace: bool) -> String {
    let Some(call) = call::read(line) else { return "error".to_string() };
    let run = run::run(&call, trace);
    let finite = if run.not_finite.is_none() { "finite" } else { "nonfinite" };
    let counts = format!("{} {} {finite}", run.tallies.values, run.tallies.derivatives);
    let mut text = match run.result {
        Ok(root) => format!("ok {:016x} {counts}", bits(root)),
        Err(number) => format!("err {number} {counts}"),
    };
    let word = |held: bool| if held { "yes" } else { "no" };
    for test in run.kept.unwrap_or_default() {
        text += &match test {
            Test::Found { y, held } => format!(" ; found {:016x} {}", bits(y), word(held)),
            Test::Converged { p, q, held } => format!(" ; converged {:016x} {:016x} {}", bits(p), bits(q), word(held)),
            Test::Limit { iter, held } => format!(" ; limit {iter} {}", word(held)),
        };
    }
    text
}

// A plain eps brings its own limit: how often Newton evaluates x^2 + 1, from 1/2, before it gives up.
fn plainly() -> String {
    let (values, derivatives) = (Cell::new(0), Cell::new(0));
    let counted = |count: &Cell<usize>, y: f64| {
        count.set(count.get() + 1);
        y
    };
    let mut eps = 1.0 / 1024.0;
    let result = roots::find_root_newton_raphson(0.5, |x| counted(&values, x * x + 1.0), |x| counted(&derivatives, 2.0 * x), &mut eps);
    let told = result.map_or_else(|error| format!("err {}", run::number(error)), |root| format!("ok {root}"));
    format!("{told} {} {}", values.get(), derivatives.get())
}

// What docs/MIGRATING.md says of closures: x^2 - 3x + 1 summed from its highest power down, and in the order of polynom.rs.
fn in_both_orders() -> String {
    let root = |f: fn(f64) -> f64| roots::find_root_secant(0.0, 1.0, f, &mut 1e-15f64).map_or_else(|error| format!("{error:?}"), |x| x.to_string());
    format!("{} {}", root(|x| x * x - 3.0 * x + 1.0), root(|x| 1.0 + -3.0 * x + x * x))
}

fn main() -> std::io::Result<()> {
    let trace = match std::env::args().skip(1).collect::<Vec<_>>().as_slice() {
        [] => false,
        [option] if option == "--trace" => true,
        [option] if option == "--plain" => {
            println!("{}", plainly());
            return Ok(());
        }
        [option] if option == "--orders" => {
            println!("{}", in_both_orders());
            return Ok(());
        }
        _ => {
            eprintln!("usage: oracle [--trace] < calls, or oracle --plain or --orders");
            std::process::exit(2);
        }
    };
    let mut out = std::io::BufWriter::new(std::io::stdout().lock());
    for line in std::io::stdin().lock().split(b'\n') {
        writeln!(out, "{}", answer(&String::from_utf8_lossy(&line?), trace))?;
    }
    out.flush()
}
