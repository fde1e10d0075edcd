// Calls that are made again where memory was refused, so that a test passes even if any one allocation fails.
use nvme_pool::Gate;
use nvme_sim::{InputError, Mode, RunError, command, run, run_with, take_input};
use std::alloc::{AllocError, Global};
use std::io::{Read, Write};
use std::sync::Wait;
use std::thread::Threads;

// The bytes that a test makes room for.
const PAGE: usize = 65_536;

/// An empty list with room for a whole report.
pub fn page(alloc: Global) -> Result<Vec<u8>, AllocError> {
    if let Ok(page) = Vec::with_capacity(alloc, PAGE) {
        return Ok(page);
    }
    Vec::with_capacity(alloc, PAGE)
}

/// A run of a workload with this many workers. Where memory was refused nothing was written.
pub fn run_again<W: Write, R: Threads + Wait + Sync>(
    rt: &R,
    alloc: Global,
    text: &str,
    mode: Mode,
    workers: u8,
    writer: &mut W,
) -> Result<(), RunError> {
    let mut ran = run(rt, alloc, text.as_bytes(), mode, workers, writer);
    if matches!(ran, Err(RunError::NoMemory)) {
        ran = run(rt, alloc, text.as_bytes(), mode, workers, writer);
    }
    match ran {
        Ok(_) => Ok(()),
        Err(error) => Err(error),
    }
}

/// What a run of a workload with this many workers writes.
pub fn report_again<R: Threads + Wait + Sync>(
    rt: &R,
    alloc: Global,
    text: &str,
    mode: Mode,
    workers: u8,
) -> Result<Vec<u8>, RunError> {
    let mut output = page(alloc)?;
    run_again(rt, alloc, text, mode, workers, &mut output)?;
    Ok(output)
}

/// All bytes of a reader.
pub fn taken<I: Read + Copy + Drop>(alloc: Global, input: I) -> Result<Vec<u8>, InputError> {
    let taken = take_input(alloc, input);
    if matches!(taken, Err(InputError::NoMemory)) {
        return take_input(alloc, input);
    }
    taken
}

/// A run with these gates, once. What it writes is dropped.
pub fn run_gated<G: Gate + Send + Drop, R: Threads + Wait + Sync>(
    rt: &R,
    alloc: Global,
    text: &str,
    gates: Vec<G>,
) -> Result<(), RunError> {
    let mut output = page(alloc)?;
    match run_with(rt, alloc, text.as_bytes(), Mode::Loaded, gates, &mut output) {
        Ok(_) => Ok(()),
        Err(error) => Err(error),
    }
}

// The words of a command line, once.
fn words_once(alloc: Global, line: &[&str]) -> Result<Vec<String>, AllocError> {
    let mut words = Vec::new(alloc);
    for word in line {
        words.push(String::from_str(alloc, word)?)?;
    }
    Ok(words)
}

/// The words of a command line.
pub fn words_again(alloc: Global, line: &[&str]) -> Result<Vec<String>, AllocError> {
    if let Ok(words) = words_once(alloc, line) {
        return Ok(words);
    }
    words_once(alloc, line)
}

// The status of the program over these words and streams, and what it wrote to standard error, once. Refused where it
// said that it was out of memory; it then wrote nothing else.
fn told_once<I: Read + Drop, W: Write, R: Threads + Wait + Sync>(
    rt: &R,
    alloc: Global,
    line: &[&str],
    input: I,
    output: &mut W,
) -> Result<(u8, Vec<u8>), AllocError> {
    let words = words_once(alloc, line)?;
    let mut errors = page(alloc)?;
    let status = command(rt, alloc, words.as_slice(), input, output, &mut errors);
    if errors.as_slice() == b"nvmearb: out of memory\n".as_slice() {
        return Err(AllocError);
    }
    Ok((status, errors))
}

/// The status of the program over these words and streams, and what it wrote to standard error.
pub fn told_again<I: Read + Copy + Drop, W: Write, R: Threads + Wait + Sync>(
    rt: &R,
    alloc: Global,
    line: &[&str],
    input: I,
    output: &mut W,
) -> Result<(u8, Vec<u8>), AllocError> {
    if let Ok(told) = told_once(rt, alloc, line, input, output) {
        return Ok(told);
    }
    told_once(rt, alloc, line, input, output)
}

/// What the program left: its status and what it wrote.
#[derive(Drop)]
pub struct Left {
    pub status: u8,
    pub output: Vec<u8>,
    pub errors: Vec<u8>,
}

/// What the program leaves with these words and this input.
pub fn program_again<R: Threads + Wait + Sync>(
    rt: &R,
    alloc: Global,
    line: &[&str],
    input: &[u8],
) -> Result<Left, AllocError> {
    let mut output = page(alloc)?;
    let (status, errors) = told_again(rt, alloc, line, input, &mut output)?;
    Ok(Left {
        status,
        output,
        errors,
    })
}
