//! Prints requests: `requests SEED COUNT KIND`, endless if COUNT is 0.

use second::requests::{Kind, Requests};
use std::io::{self, BufWriter, Write};
use std::process::ExitCode;

fn main() -> ExitCode {
    let arguments: Vec<String> = std::env::args().skip(1).collect();
    let Some((seed, count, kind)) = understand(&arguments) else {
        eprintln!("usage: requests SEED COUNT compile|read|machine|all");
        return ExitCode::from(2);
    };
    // Whoever takes no more requests has closed the pipe: that is no failure.
    match print(seed, count, kind) {
        Err(error) if error.kind() != io::ErrorKind::BrokenPipe => ExitCode::from(2),
        _ => ExitCode::SUCCESS,
    }
}

fn understand(arguments: &[String]) -> Option<(u64, u64, Kind)> {
    let [seed, count, kind] = arguments else {
        return None;
    };
    Some((seed.parse().ok()?, count.parse().ok()?, Kind::named(kind)?))
}

fn print(seed: u64, count: u64, kind: Kind) -> io::Result<()> {
    let mut output = BufWriter::with_capacity(1 << 16, io::stdout().lock());
    let mut requests = Requests::new(seed, kind);
    let mut printed = 0;
    while count == 0 || printed < count {
        output.write_all(&requests.line())?;
        output.write_all(b"\n")?;
        printed += 1;
    }
    output.flush()
}
