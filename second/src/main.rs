//! Reads a sheet from standard input and writes its listing; with `--lines`, many folded sheets, one to a line.

use second::{folded, plan};
use std::io::{self, Read, Write};
use std::process::ExitCode;

/// One byte more than a sheet may have, which is enough to tell that it is too long.
const ENOUGH: u64 = 32_769;

fn main() -> io::Result<ExitCode> {
    let arguments: Vec<String> = std::env::args().skip(1).collect();
    match arguments.as_slice() {
        [] => plan_one(),
        [only] if only == "--lines" => plan_lines(),
        _ => {
            eprintln!("usage: second [--lines], with the input on standard input");
            Ok(ExitCode::from(2))
        }
    }
}

fn plan_one() -> io::Result<ExitCode> {
    let mut sheet = Vec::new();
    io::stdin().lock().take(ENOUGH).read_to_end(&mut sheet)?;
    io::stdout().write_all(plan(&sheet).as_bytes())?;
    Ok(ExitCode::SUCCESS)
}

fn plan_lines() -> io::Result<ExitCode> {
    let mut input = Vec::new();
    io::stdin().lock().read_to_end(&mut input)?;
    let mut out = io::BufWriter::new(io::stdout().lock());
    for (number, line) in input.split_inclusive(|&byte| byte == b'\n').enumerate() {
        let line = line.strip_suffix(b"\n").unwrap_or(line);
        let Some(sheet) = folded::unfold(line) else {
            out.flush()?;
            eprintln!("line {}: not a folded sheet", number + 1);
            return Ok(ExitCode::from(2));
        };
        writeln!(out, "{}", folded::fold(&plan(&sheet)))?;
    }
    out.flush()?;
    Ok(ExitCode::SUCCESS)
}
