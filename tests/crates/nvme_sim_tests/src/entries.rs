// The answer to one entry, by the program and by `once`.
use crate::again::{Left, program_again};
use nvme_sim::{OnceError, once};
use std::alloc::{AllocError, Global};
use std::process::Abort;
use std::sync::Wait;
use std::test::*;
use std::thread::Threads;

const ZEROS: &str = "0000000000000000000000000000000000000000000000000000000000000000";

const READ: &str = "0200070001000000";

/// The words that ask for the answer to one entry over 1,000 blocks.
pub const ONCE: [&str; 4] = ["nvmearb", "once", "--blocks", "1000"];

// A Read with zeros in CDW2 to CDW9, then the digits of CDW10 to CDW12, then an end.
fn read_once(alloc: Global, dwords: &str, end: &str) -> Result<String, AllocError> {
    format!(in alloc; "{READ}{ZEROS}{dwords}000000000000000000000000{end}")
}

/// A Read with the digits of CDW10 to CDW12, and a text after it. It is made again where memory was refused.
pub fn read_of(alloc: Global, dwords: &str, end: &str) -> Result<String, AllocError> {
    if let Ok(text) = read_once(alloc, dwords, end) {
        return Ok(text);
    }
    read_once(alloc, dwords, end)
}

// What the program answers to one entry over 1,000 blocks.
fn answer_to<R: Threads + Wait + Sync>(
    rt: &R,
    alloc: Global,
    dwords: &str,
    end: &str,
) -> Result<Left, AllocError> {
    let text = read_of(alloc, dwords, end)?;
    program_again(rt, alloc, &ONCE, text.as_bytes())
}

const IN_RANGE: &[u8] = b"00000000000000000100010007000100\n";

const OUT_OF_RANGE: &[u8] = b"00000000000000000100010007000101\n";

#[test]
fn read_in_range(rt: HostRuntime) -> Result<(), Fail> {
    let left = answer_to(&rt, rt.alloc(), "100000000000000007000000", "")?;
    assert_eq!(rt; left.output.as_slice(), IN_RANGE);
    assert_eq!(rt; left.errors.len(), 0);
    assert_eq!(rt; left.status, 0);
    Ok(())
}

#[test]
fn slba_beyond_every_size(rt: HostRuntime) -> Result<(), Fail> {
    let left = answer_to(&rt, rt.alloc(), "ffffffffffffffffffff0000", "")?;
    assert_eq!(rt; left.output.as_slice(), OUT_OF_RANGE);
    assert_eq!(rt; left.status, 0);
    Ok(())
}

#[test]
fn last_block_fits(rt: HostRuntime) -> Result<(), Fail> {
    let left = answer_to(&rt, rt.alloc(), "e00300000000000007000000", "")?;
    assert_eq!(rt; left.output.as_slice(), IN_RANGE);
    Ok(())
}

#[test]
fn one_block_too_far(rt: HostRuntime) -> Result<(), Fail> {
    let left = answer_to(&rt, rt.alloc(), "e10300000000000007000000", "")?;
    assert_eq!(rt; left.output.as_slice(), OUT_OF_RANGE);
    Ok(())
}

// A Read in range, and two newlines.
const TWO_NEWLINES: &[u8; 130] =
    b"02000700010000000000000000000000000000000000000000000000000000000000000000000000100000000000000007000000000000000000000000000000\n\n";

// The digits of the same entry, with this byte instead of the last.
fn ending_in(last: u8) -> [u8; 128] {
    let mut text = [0; 128];
    text.copy_from_slice(&TWO_NEWLINES[..128]);
    text[127] = last;
    text
}

// The program refuses this input for its length, and so does `once`.
fn is_no_length<R: Threads + Wait + Sync + Abort>(
    rt: &R,
    alloc: Global,
    input: &[u8],
) -> Result<(), Fail> {
    let left = program_again(rt, alloc, &ONCE, input)?;
    assert_eq!(rt;
        left.errors.as_slice(),
        b"nvmearb: entry: not 128 digits\n".as_slice()
    );
    assert_eq!(rt; (left.output.len(), left.status), (0, 1));
    assert!(rt; once(input, 1000) == Err(OnceError::Length));
    Ok(())
}

#[test]
fn entry_not_128_digits(rt: HostRuntime) -> Result<(), Fail> {
    is_no_length(&rt, rt.alloc(), &TWO_NEWLINES[..127])?;
    is_no_length(&rt, rt.alloc(), ending_in(b'\n').as_slice())?;
    is_no_length(&rt, rt.alloc(), TWO_NEWLINES)?;
    is_no_length(&rt, rt.alloc(), b"")?;
    is_no_length(&rt, rt.alloc(), b"\n")
}

#[test]
fn entry_not_hexadecimal(rt: HostRuntime) -> Result<(), Fail> {
    let text = ending_in(b'g');
    let left = program_again(&rt, rt.alloc(), &ONCE, text.as_slice())?;
    assert_eq!(rt;
        left.errors.as_slice(),
        b"nvmearb: entry: not hexadecimal\n".as_slice()
    );
    assert_eq!(rt; (left.output.len(), left.status), (0, 1));
    assert!(rt; once(text.as_slice(), 1000) == Err(OnceError::Digit));
    Ok(())
}

#[test]
fn upper_case_and_newline(rt: HostRuntime) -> Result<(), Fail> {
    let left = answer_to(&rt, rt.alloc(), "E00300000000000007000000", "\n")?;
    assert_eq!(rt; left.output.as_slice(), IN_RANGE);
    Ok(())
}
