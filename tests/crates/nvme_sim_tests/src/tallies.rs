// Runs whose gates count executions and sum their tickets.
use crate::again::page;
use crate::workloads::{THOUSAND, reads_of_one_queue};
use nvme_pool::Gate;
use nvme_sim::{Mode, RunError, run_with};
use std::alloc::{AllocError, Global};
use std::process::Abort;
use std::sync::Wait;
use std::test::*;
use std::thread::Threads;

/// A gate that counts the executions that it was told of, and sums the tickets of those that ended. Contracts see all
/// of it.
#[derive(Clone, Copy, Debug, PartialEq, Eq)]
struct Tally {
    begun: u64,
    ended: u64,
    sum: u64,
}

const NONE: Tally = Tally {
    begun: 0,
    ended: 0,
    sum: 0,
};

impl Gate for Tally {
    ghost use Rattle.std.specs.Prelude.{◌+◌, ◌%◌, ◌^◌};

    ghost entered = { λ view ticket. record view { begun = (view.begun + 1) % 2 ^ 64 } };

    ghost left = { λ view ticket. record view { ended = (view.ended + 1) % 2 ^ 64; sum = (view.sum + ticket) % 2 ^ 64 } };

    fn enter(&mut self, _ticket: u32) {
        self.begun = self.begun.wrapping_add(1);
    }

    fn leave(&mut self, ticket: u32) {
        self.ended = self.ended.wrapping_add(1);
        self.sum = self.sum.wrapping_add(u64::from(ticket));
    }
}

// A gate for each worker that was told of nothing.
fn untold(alloc: Global, workers: u8) -> Result<Vec<Tally>, AllocError> {
    let mut gates = Vec::with_capacity(alloc, usize::from(workers))?;
    for _ in 0..workers {
        gates.push(NONE)?;
    }
    Ok(gates)
}

// What gates were told together.
fn together(gates: &[Tally]) -> Tally {
    let mut all = NONE;
    for gate in gates {
        all.begun = all.begun.wrapping_add(gate.begun);
        all.ended = all.ended.wrapping_add(gate.ended);
        all.sum = all.sum.wrapping_add(gate.sum);
    }
    all
}

// How many gates come back from a run with that many, and what they were told together, once.
fn told_once<R: Threads + Wait + Sync>(
    rt: &R,
    alloc: Global,
    text: &str,
    mode: Mode,
    workers: u8,
) -> Result<(usize, Tally), RunError> {
    let mut output = page(alloc)?;
    let gates = untold(alloc, workers)?;
    let (_, gates) = run_with(rt, alloc, text.as_bytes(), mode, gates, &mut output)?;
    Ok((gates.len(), together(gates.as_slice())))
}

// The gates of a run of this many reads, with 1 and with 8 workers, come back told once of each ticket from 0 on. A run
// is made again where memory was refused.
fn are_told<R: Threads + Wait + Sync + Abort>(
    rt: &R,
    alloc: Global,
    text: &str,
    mode: Mode,
    reads: u64,
) {
    for workers in [1, 8] {
        let mut told = told_once(rt, alloc, text, mode, workers);
        if told == Err(RunError::NoMemory) {
            told = told_once(rt, alloc, text, mode, workers);
        }
        let want = Tally {
            begun: reads,
            ended: reads,
            sum: (0..reads).fold(0, u64::wrapping_add),
        };
        assert_eq!(rt; told, Ok((usize::from(workers), want)));
    }
}

#[test]
fn gates_are_told_of_each_ticket(rt: HostRuntime) -> Result<(), Fail> {
    let seven = reads_of_one_queue(rt.alloc(), 7)?;
    are_told(&rt, rt.alloc(), seven.as_str(), Mode::Loaded, 7);
    are_told(&rt, rt.alloc(), THOUSAND, Mode::Live, 1000);
    Ok(())
}
