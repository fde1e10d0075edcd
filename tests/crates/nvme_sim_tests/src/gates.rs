// Runs whose workers are held at gates.
use crate::again::{report_again, run_gated};
use crate::workloads::{DELETE_THREE, changed, reads_of_one_queue};
use nvme_pool::Gate;
use nvme_sim::{Mode, RunError};
use std::alloc::{AllocError, Global};
use std::marker::Model;
use std::process::Abort;
use std::sync::Wait;
use std::sync::atomic::{AtomicU64, Ordering};
use std::test::*;
use std::thread;
use std::thread::Threads;

// The turns for which a slow gate holds its first execution.
const SLOW_TURNS: u32 = 50_000_000;
// The turns after which a gate stops waiting for others, and its test fails.
const MOST_TURNS: u32 = 50_000_000;

/// A gate that holds its first execution for a while.
#[derive(Drop)]
struct Slow {
    is_first: bool,
    // What the turns come to, so that no compiler leaves them out.
    mixed: u64,
}

impl Model for Slow {
    ghost Value = { Unit {0} };

    ghost view = { λ s. tt };
}

impl Gate for Slow {
    ghost entered = { λ view ticket. view };

    ghost left = { λ view ticket. view };

    fn enter(&mut self, _ticket: u32) {
        if self.is_first {
            for turn in 0..SLOW_TURNS {
                self.mixed = self.mixed << 5 ^ self.mixed >> 2 ^ u64::from(turn);
            }
        }
        self.is_first = false;
    }

    fn leave(&mut self, _ticket: u32) {}
}

// Two slow gates.
fn slow_gates(alloc: Global) -> Result<Vec<Slow>, AllocError> {
    let mut gates = Vec::with_capacity(alloc, 2)?;
    for _ in 0..2 {
        gates.push(Slow {
            is_first: true,
            mixed: 0,
        })?;
    }
    Ok(gates)
}

// A run of a workload with two slow gates, once.
fn run_slowly<R: Threads + Wait + Sync>(rt: &R, alloc: Global, text: &str) -> Result<(), RunError> {
    run_gated(rt, alloc, text, slow_gates(alloc)?)
}

// The same, made again where memory was refused.
fn run_slowly_again<R: Threads + Wait + Sync>(
    rt: &R,
    alloc: Global,
    text: &str,
) -> Result<(), RunError> {
    let ran = run_slowly(rt, alloc, text);
    if ran == Err(RunError::NoMemory) {
        return run_slowly(rt, alloc, text);
    }
    ran
}

#[test]
fn patience_runs_out(rt: HostRuntime) -> Result<(), Fail> {
    let hasty = [("patience = 100000000", "patience = 1")];
    let text = changed(rt.alloc(), DELETE_THREE, &hasty)?;
    let mut given_up = 0u32;
    for run in 0..20 {
        match run_slowly_again(&rt, rt.alloc(), text.as_str()) {
            Ok(()) => {}
            // The front's thread found nothing to do while the command was held.
            Err(error) => {
                assert_eq!(rt; error, RunError::GaveUp, "in run {run}");
                given_up = given_up.saturating_add(1);
            }
        }
    }
    assert!(rt; given_up > 0);
    report_again(&rt, rt.alloc(), DELETE_THREE, Mode::Loaded, 2)?;
    Ok(())
}

/// A place where executions wait until a number of them have begun.
#[derive(Drop)]
struct Meeting {
    wanted: u64,
    begun: AtomicU64,
    // An execution waited too long.
    late: AtomicU64,
}

impl Meeting {
    // Waits until all that are wanted have begun.
    fn wait(&self) {
        for _ in 0..MOST_TURNS {
            if self.begun.load(Ordering::SeqCst) >= self.wanted {
                return;
            }
            thread::yield_now();
        }
        self.late.store(1, Ordering::SeqCst);
    }
}

/// A gate that holds each execution until all that are wanted have begun.
#[derive(Drop)]
struct Meets<'a> {
    meeting: &'a Meeting,
}

impl<'a> Model for Meets<'a> {
    ghost Value = { Unit {0} };

    ghost view = { λ m. tt };
}

impl<'a> Gate for Meets<'a> {
    ghost entered = { λ view ticket. view };

    ghost left = { λ view ticket. view };

    fn enter(&mut self, _ticket: u32) {
        self.meeting.begun.fetch_add(1, Ordering::SeqCst);
        self.meeting.wait();
    }

    fn leave(&mut self, _ticket: u32) {}
}

// A gate of one meeting for each worker.
fn meeting_gates<'a>(
    alloc: Global,
    meeting: &'a Meeting,
    workers: u8,
) -> Result<Vec<Meets<'a>>, AllocError> {
    let mut gates = Vec::with_capacity(alloc, usize::from(workers))?;
    for _ in 0..workers {
        gates.push(Meets { meeting })?;
    }
    Ok(gates)
}

// A run of a workload with this many workers, all of which execute at the same time. Refused with `GaveUp` where one
// waited too long for the others.
fn run_together<R: Threads + Wait + Sync>(
    rt: &R,
    alloc: Global,
    text: &str,
    workers: u8,
) -> Result<(), RunError> {
    let meeting = Meeting {
        wanted: u64::from(workers),
        begun: AtomicU64::new(0),
        late: AtomicU64::new(0),
    };
    let gates = meeting_gates(alloc, &meeting, workers)?;
    run_gated(rt, alloc, text, gates)?;
    if meeting.late.load(Ordering::SeqCst) > 0 {
        return Err(RunError::GaveUp);
    }
    Ok(())
}

// Such a run, made again where memory was refused, succeeds.
fn all_meet<R: Threads + Wait + Sync + Abort>(rt: &R, alloc: Global, text: &str, workers: u8) {
    let mut ran = run_together(rt, alloc, text, workers);
    if ran == Err(RunError::NoMemory) {
        ran = run_together(rt, alloc, text, workers);
    }
    assert_eq!(rt; ran, Ok(()));
}

#[test]
fn two_workers_at_once(rt: HostRuntime) -> Result<(), Fail> {
    let text = reads_of_one_queue(rt.alloc(), 2)?;
    all_meet(&rt, rt.alloc(), text.as_str(), 2);
    Ok(())
}

#[test]
fn eight_workers_at_once(rt: HostRuntime) -> Result<(), Fail> {
    let eight = reads_of_one_queue(rt.alloc(), 8)?;
    let wider = [
        ("0x00070001", "0x000f0001"),
        (
            "address = 0x2000\nslots = 8",
            "address = 0x2000\nslots = 16",
        ),
    ];
    let text = changed(rt.alloc(), eight.as_str(), &wider)?;
    all_meet(&rt, rt.alloc(), text.as_str(), 8);
    Ok(())
}
