// The input of the program, taken from readers that end, fail or give too much.
use crate::again::taken;
use crate::fakes::FailsAt;
use nvme_sim::{InputError, MAX_INPUT, take_input};
use std::alloc::Global;
use std::io::Read;
use std::test::*;

// `count` zeros, taken again where memory was refused.
fn zeros(alloc: Global, count: u64) -> Result<Vec<u8>, InputError> {
    let taken = take_input(alloc, std::io::repeat(b'0').take(count));
    if matches!(taken, Err(InputError::NoMemory)) {
        return take_input(alloc, std::io::repeat(b'0').take(count));
    }
    taken
}

#[test]
fn writer_and_reader_fail(rt: HostRuntime) -> Result<(), Fail> {
    let alloc = rt.alloc();
    let abc = taken(alloc, b"abc".as_slice());
    assert!(rt; abc.is_ok_and(|bytes| bytes.as_slice() == b"abc".as_slice()));
    let refused = zeros(alloc, 16_777_217);
    assert!(rt; matches!(refused, Err(InputError::TooLong)));
    for fails_at in 0..10 {
        let reader = FailsAt {
            text: &[b'0'; 100],
            reads: 0,
            fails_at,
        };
        assert!(rt;
            matches!(taken(alloc, reader), Err(InputError::Read)),
            "at {fails_at}"
        );
    }
    Ok(())
}

#[test]
fn largest_input(rt: HostRuntime) -> Result<(), Fail> {
    let taken = zeros(rt.alloc(), 16_777_216);
    assert!(rt; taken.is_ok_and(|bytes| bytes.len() == MAX_INPUT));
    Ok(())
}
