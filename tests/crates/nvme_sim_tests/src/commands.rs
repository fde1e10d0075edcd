// The program with streams that fail.
use crate::again::{Left, page, told_again, words_again};
use crate::entries::{ONCE, read_of};
use crate::fakes::{Endless, FailsAt, Takes};
use nvme_sim::command;
use std::alloc::{AllocError, Global};
use std::sync::Wait;
use std::test::*;
use std::thread::Threads;

// What the program does with an output that takes a number of bytes and then fails, or answers 0.
fn run_into<R: Threads + Wait + Sync>(
    rt: &R,
    alloc: Global,
    line: &[&str],
    room: usize,
    fails: bool,
) -> Result<Left, AllocError> {
    let text = read_of(alloc, "100000000000000007000000", "")?;
    let mut output = Takes {
        taken: page(alloc)?,
        room,
        fails,
    };
    let (status, errors) = told_again(rt, alloc, line, text.as_bytes(), &mut output)?;
    Ok(Left {
        status,
        output: output.taken,
        errors,
    })
}

#[test]
fn output_that_fails(rt: HostRuntime) -> Result<(), Fail> {
    for (room, fails) in [(10, true), (0, false)] {
        let left = run_into(&rt, rt.alloc(), &ONCE, room, fails)?;
        assert_eq!(rt; left.output.len(), room);
        assert_eq!(rt;
            left.errors.as_slice(),
            b"nvmearb: write failed\n".as_slice()
        );
        assert_eq!(rt; left.status, 3);
    }
    let help = run_into(&rt, rt.alloc(), &["nvmearb", "--help"], 5, true)?;
    assert_eq!(rt;
        help.errors.as_slice(),
        b"nvmearb: write failed\n".as_slice()
    );
    assert_eq!(rt; help.status, 3);
    Ok(())
}

// The status of the program with an empty input, where nothing can be written to standard error.
fn deaf_status<R: Threads + Wait + Sync>(
    rt: &R,
    alloc: Global,
    words: &[String],
    output: &mut Vec<u8>,
) -> u8 {
    let mut deaf = Takes {
        taken: Vec::new(alloc),
        room: 0,
        fails: true,
    };
    command(rt, alloc, words, b"".as_slice(), output, &mut deaf)
}

#[test]
fn input_that_fails(rt: HostRuntime) -> Result<(), Fail> {
    let alloc = rt.alloc();
    let reader = FailsAt {
        text: b"",
        reads: 0,
        fails_at: 0,
    };
    let mut output = page(alloc)?;
    let (status, errors) = told_again(&rt, alloc, &ONCE, reader, &mut output)?;
    assert_eq!(rt; errors.as_slice(), b"nvmearb: read failed\n".as_slice());
    assert_eq!(rt; (output.len(), status), (0, 3));
    let (status, errors) = told_again(&rt, alloc, &ONCE, Endless, &mut output)?;
    assert_eq!(rt; errors.as_slice(), b"nvmearb: input too long\n".as_slice());
    assert_eq!(rt; (output.len(), status), (0, 1));
    let words = words_again(alloc, &ONCE)?;
    let mut status = deaf_status(&rt, alloc, words.as_slice(), &mut output);
    if status == 3 {
        // Memory was refused.
        status = deaf_status(&rt, alloc, words.as_slice(), &mut output);
    }
    assert_eq!(rt; (output.len(), status), (0, 1));
    Ok(())
}
