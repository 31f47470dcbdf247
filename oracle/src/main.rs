//! An independent demapper: exhaustive, over explicit points, in 128-bit integers. It is written from
//! the documents under docs/ and shares nothing with the library, so that a mistake in one is not
//! repeated in the other.
//!
//!     oracle demap < FILE                                prints what demap should print
//!     oracle compare PROGRAM [--cases N] [--seed S]      runs PROGRAM on many files and compares
//!     oracle selfcheck                                   checks this program at known values

mod cases;
mod compare;
mod constellation;
mod detect;
mod drawn;
mod file;
mod random;
mod selfcheck;
mod systematic;
mod writer;

use std::io::{Read, Write};
use std::process::ExitCode;

const USAGE: &str = "usage: oracle demap < FILE
       oracle compare PROGRAM [--cases N] [--seed S]
       oracle selfcheck";

fn main() -> ExitCode {
    let arguments: Vec<String> = std::env::args().skip(1).collect();
    match run(&arguments) {
        Ok(true) => ExitCode::SUCCESS,
        Ok(false) => ExitCode::from(1),
        Err(message) => {
            eprintln!("{message}");
            ExitCode::from(2)
        }
    }
}

/// Whether the run found everything in order, or a message where it could not run.
fn run(arguments: &[String]) -> Result<bool, String> {
    let words: Vec<&str> = arguments.iter().map(String::as_str).collect();
    match words.as_slice() {
        ["demap"] => demap(),
        ["selfcheck"] => Ok(selfcheck::run()),
        ["compare", program, options @ ..] => {
            let (count, seed) = compare_options(options)?;
            compare::run(program, count, seed)
        }
        _ => Err(USAGE.to_string()),
    }
}

fn demap() -> Result<bool, String> {
    let mut bytes = Vec::new();
    std::io::stdin()
        .read_to_end(&mut bytes)
        .map_err(|error| format!("cannot read the input: {error}"))?;
    std::io::stdout()
        .write_all(file::printed(&bytes).as_bytes())
        .map_err(|error| format!("cannot write the output: {error}"))?;
    Ok(true)
}

/// The number of random cases and the seed.
fn compare_options(options: &[&str]) -> Result<(usize, u64), String> {
    let mut count = 3000;
    let mut seed = 1;
    for pair in options.chunks(2) {
        match pair {
            ["--cases", number] => count = number.parse().map_err(|_| USAGE.to_string())?,
            ["--seed", number] => seed = number.parse().map_err(|_| USAGE.to_string())?,
            _ => return Err(USAGE.to_string()),
        }
    }
    Ok((count, seed))
}
