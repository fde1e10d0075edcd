// Changes each number of three traces: the check refuses the line that has it.
use nvme_trace::{Checked, TraceError, check};
use std::alloc::Global;
use std::io::Write;
use std::test::*;

// How a number is changed: to one more, or to one above each range.
const ONE_MORE: u64 = 1;

const TOO_LARGE: u64 = 4_294_967_296;

// No number of its picks can change: one queue is seen, and all of its commands are taken.
const BOUND: [&str; 3] = [
    "{\"version\":1,\"mechanism\":\"round-robin\",\"cdw11\":7}
{\"pick\":1,\"n\":3,\"fresh\":false,\"seen\":[[1,\"high\",3]]}
{\"pick\":2,\"n\":255,\"fresh\":false,\"seen\":[[2,\"low\",255]]}
{\"pick\":16,\"n\":1,\"fresh\":false,\"seen\":[[16,\"urgent\",1]]}
",
    "{\"version\":1,\"mechanism\":\"weighted\",\"cdw11\":4278190087}
{\"pick\":1,\"n\":3,\"fresh\":false,\"seen\":[[1,\"high\",3]]}
{\"pick\":3,\"n\":9,\"fresh\":false,\"seen\":[[3,\"urgent\",9]]}
{\"pick\":2,\"n\":4,\"fresh\":false,\"seen\":[[2,\"high\",4]]}
{\"pick\":2,\"n\":5,\"fresh\":false,\"seen\":[[2,\"high\",5]]}
",
    "{\"version\":1,\"mechanism\":\"weighted\",\"cdw11\":0}
{\"set\":4294967295}
{\"pick\":5,\"n\":200,\"fresh\":false,\"seen\":[[5,\"medium\",200]]}
{\"pick\":6,\"n\":55,\"fresh\":false,\"seen\":[[6,\"medium\",55]]}
{\"set\":4294967047}
",
];

// A text with one of its numbers changed, and the line that has it.
#[derive(Drop)]
struct Change {
    text: Vec<u8>,
    line: u64,
}

// The text with the number at an index increased, or `None` where it has fewer numbers.
fn changed(alloc: Global, text: &str, at: usize, more: u64) -> Result<Option<Change>, Fail> {
    let mut out = Vec::new(alloc);
    let mut found = None;
    let (mut numbers, mut line) = (0usize, 1u64);
    let (mut before, mut value, mut is_inside, mut is_chosen) = (b' ', 0u64, false, false);
    for byte in text.bytes() {
        let is_digit = byte.is_ascii_digit();
        if is_digit && !is_inside && !before.is_ascii_alphanumeric() {
            is_inside = true;
            is_chosen = numbers == at;
            numbers = numbers.saturating_add(1);
        }
        if !is_digit && is_inside {
            if is_chosen {
                let grown = value.saturating_add(more);
                write!(out, "{grown}")?;
                found = Some(line);
            }
            (is_inside, is_chosen) = (false, false);
        }
        if is_chosen {
            let digit = u64::from(byte).saturating_sub(48);
            value = value.saturating_mul(10).saturating_add(digit);
        } else {
            out.push(byte)?;
        }
        if byte == b'\n' {
            line = line.saturating_add(1);
        }
        before = byte;
    }
    Ok(found.map(|line| Change { text: out, line }))
}

// The line that a check refuses, or 0.
fn refused(alloc: Global, text: &[u8]) -> u64 {
    match check(alloc, text) {
        Ok(Checked::Lawful { .. }) => 0,
        Ok(Checked::Refused(refusal)) => refusal.line,
        Err(TraceError::Line { line, .. }) => line,
        Err(_) => 0,
    }
}

#[test]
fn numbers_too_large(rt: HostRuntime) -> Result<(), Fail> {
    for text in BOUND {
        assert_eq!(rt; refused(rt.alloc(), text.as_bytes()), 0);
        let mut count = 0;
        for at in 0..100 {
            let Some(change) = changed(rt.alloc(), text, at, TOO_LARGE)? else {
                break;
            };
            assert_eq!(rt;
                refused(rt.alloc(), change.text.as_slice()),
                change.line,
                "number {at}"
            );
            count = at;
        }
        assert!(rt; count > 9);
    }
    Ok(())
}

// Whether the line of this number is a change of the settings.
fn is_change(text: &str, number: u64) -> bool {
    let mut at = 0u64;
    for line in text.lines() {
        at = at.saturating_add(1);
        if at == number {
            return line.contains("set");
        }
    }
    false
}

// The line that is refused where a number is one more: mostly the line that has it.
fn refused_one_more(text: &str, at: usize, line: u64) -> u64 {
    match at {
        // Another version.
        0 => 1,
        // Bits 02:00 of the head's Command Dword 11 become 000b, so a pick takes one command at most. Where they were
        // 000b already, a change of the settings comes before each pick.
        1 => { if is_change(text, 2) { 0 } else { 2 } }
        // The settings of line 2 leave the range. Nothing is picked after a later change.
        _ if is_change(text, line) && line > 2 => 0,
        _ => line,
    }
}

#[test]
fn numbers_one_more(rt: HostRuntime) -> Result<(), Fail> {
    for text in BOUND {
        for at in 0..100 {
            let Some(change) = changed(rt.alloc(), text, at, ONE_MORE)? else {
                break;
            };
            assert_eq!(rt;
                refused(rt.alloc(), change.text.as_slice()),
                refused_one_more(text, at, change.line),
                "number {at}"
            );
        }
    }
    Ok(())
}

// The text with the word of a line turned, where it has one.
fn turned(alloc: Global, text: &str, number: u64) -> Result<Vec<u8>, Fail> {
    let mut out = Vec::new(alloc);
    let mut at = 0u64;
    for line in text.lines() {
        at = at.saturating_add(1);
        if at == number {
            let line = line.replace(alloc, "false", "true")?;
            writeln!(out, "{line}")?;
        } else {
            writeln!(out, "{line}")?;
        }
    }
    Ok(out)
}

// The line that is refused where a pick is told to be fresh: not that of the first pick under the weighted mechanism,
// whose round begins by itself.
fn refused_turned(text: &str, number: u64) -> u64 {
    let first = if is_change(text, 2) { 3 } else { 2 };
    if text.contains("weighted") && number == first {
        0
    } else {
        number
    }
}

#[test]
fn flags_turned(rt: HostRuntime) -> Result<(), Fail> {
    for text in BOUND {
        for number in 2..6 {
            let turned = turned(rt.alloc(), text, number)?;
            if turned.as_slice() != text.as_bytes() {
                assert_eq!(rt;
                    refused(rt.alloc(), turned.as_slice()),
                    refused_turned(text, number),
                    "line {number}"
                );
            }
        }
    }
    Ok(())
}
