// Calls that are refused memory. Between the lines `refuse` and `allow` on standard error memory may be refused from
// outside, as `tests/memory` does, and a test still prints the same. On its own each of these tests is refused nothing.
use crate::workloads::FIVE_QUEUES;
use nvme_sim::{InputError, take_input};
use nvme_workload::{Workload, WorkloadError, read};
use std::alloc::Global;
use std::test::*;

// Memory may be refused from here on.
fn refuse(rt: &impl Eprint) {
    let _ = eprintln!(rt; "refuse");
}

// Memory isn't refused from here on.
fn allow(rt: &impl Eprint) {
    let _ = eprintln!(rt; "allow");
}

// Reads a workload by a call that may be refused memory, and then again.
fn read_refused(rt: &impl Eprint, alloc: Global) -> Result<Workload, WorkloadError> {
    refuse(rt);
    let workload = read(alloc, FIVE_QUEUES.as_bytes());
    allow(rt);
    if matches!(workload, Err(WorkloadError::NoMemory)) {
        return read(alloc, FIVE_QUEUES.as_bytes());
    }
    workload
}

#[test]
fn workloads_are_read_without_memory(rt: HostRuntime) -> Result<(), Fail> {
    let workload = read_refused(&rt, rt.alloc())?;
    println!(rt; "{workload:?}")?;
    Ok(())
}

// Takes an input by a call that may be refused memory, and then again.
fn take_refused(rt: &impl Eprint, alloc: Global) -> Result<Vec<u8>, InputError> {
    refuse(rt);
    let taken = take_input(alloc, FIVE_QUEUES.as_bytes());
    allow(rt);
    if matches!(taken, Err(InputError::NoMemory)) {
        return take_input(alloc, FIVE_QUEUES.as_bytes());
    }
    taken
}

#[test]
fn inputs_are_taken_without_memory(rt: HostRuntime) -> Result<(), Fail> {
    let taken = take_refused(&rt, rt.alloc())?;
    assert!(rt; taken.as_slice() == FIVE_QUEUES.as_bytes());
    Ok(())
}
