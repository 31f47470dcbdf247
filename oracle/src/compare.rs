//! Runs a program on all cases and compares what it prints, byte for byte.

use crate::cases::{self, Case};
use crate::file;
use std::io::{ErrorKind, Write};
use std::process::{Command, Output, Stdio};
use std::sync::atomic::{AtomicBool, AtomicUsize, Ordering};
use std::thread;

/// What went wrong with a case: either the program could not be run, or its output differs.
enum Trouble {
    Run(String),
    Differs(usize, Output),
}

/// Cases are handed to as many threads as there are cores, in order.
pub fn run(program: &str, count: usize, seed: u64) -> Result<bool, String> {
    println!("seed {seed}");
    let cases = cases::all(seed, count);
    let next = AtomicUsize::new(0);
    let stop = AtomicBool::new(false);
    let work = || -> Option<Trouble> {
        while !stop.load(Ordering::Relaxed) {
            let index = next.fetch_add(1, Ordering::Relaxed);
            let case = cases.get(index)?;
            let trouble = match feed(program, &case.bytes) {
                Err(message) => Trouble::Run(message),
                Ok(output) if agrees(case, &output) => continue,
                Ok(output) => Trouble::Differs(index, output),
            };
            stop.store(true, Ordering::Relaxed);
            return Some(trouble);
        }
        None
    };
    let threads = thread::available_parallelism().map_or(1, usize::from);
    let troubles: Vec<Trouble> = thread::scope(|scope| {
        let workers: Vec<_> = (0..threads).map(|_| scope.spawn(work)).collect();
        workers.into_iter().filter_map(|worker| worker.join().unwrap()).collect()
    });
    if troubles.is_empty() {
        println!("compared {} cases, seed {seed}: all equal", cases.len());
        return Ok(true);
    }
    for trouble in troubles {
        match trouble {
            Trouble::Run(message) => return Err(message),
            Trouble::Differs(index, output) => show(seed, index, &cases[index], &output),
        }
    }
    Ok(false)
}

/// The program must end by itself and print exactly the expected text.
fn agrees(case: &Case, output: &Output) -> bool {
    output.status.code().is_some() && output.stdout == file::printed(&case.bytes).as_bytes()
}

/// One run of the program with the bytes on its standard input.
fn feed(program: &str, bytes: &[u8]) -> Result<Output, String> {
    let failed = |error: std::io::Error| format!("cannot run {program}: {error}");
    let mut child = Command::new(program)
        .stdin(Stdio::piped())
        .stdout(Stdio::piped())
        .stderr(Stdio::piped())
        .spawn()
        .map_err(failed)?;
    let written = child.stdin.take().expect("the input is piped").write_all(bytes);
    let output = child.wait_with_output().map_err(failed)?;
    match written {
        // The program need not read an input to its end.
        Err(error) if error.kind() != ErrorKind::BrokenPipe => Err(failed(error)),
        _ => Ok(output),
    }
}

fn show(seed: u64, index: usize, case: &Case, output: &Output) {
    let hex: Vec<String> = case.bytes.iter().map(|byte| format!("{byte:02X}")).collect();
    println!("MISMATCH, seed {seed}, case {}: {}", index + 1, case.about);
    println!("input, {} bytes:\n{}", case.bytes.len(), hex.join(" "));
    println!("expected:\n{}", file::printed(&case.bytes));
    println!("printed ({}):\n{}", output.status, String::from_utf8_lossy(&output.stdout));
    if !output.stderr.is_empty() {
        println!("on standard error:\n{}", String::from_utf8_lossy(&output.stderr));
    }
}
