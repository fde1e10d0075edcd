// Where an allocation is refused, these tests make the call again. So they pass even if any one allocation
// fails.

ghost use Rattle.std.specs.Prelude.{ℕ, ◌+◌, ◌%◌, ◌^◌};

use nvme_entry::{Namespaces, Sqe, Status};
use nvme_pool::{FrontSeat, Gate, Job, Lanes, NoGate, PoolError, Worked, Worker, close, pool};
use std::alloc::{AllocError, Global};
use std::marker::Model;
use std::process::Abort;
use std::sync::Wait;
use std::sync::atomic::{AtomicU64, Ordering};
use std::test::*;
use std::thread;
use std::thread::{Scope, Threads};

// A Flush of every namespace.
fn job(ticket: u32, spaces: Namespaces) -> Job {
    let entry = Sqe {
        nsid: 0xffff_ffff,
        ..Sqe::default()
    };
    Job {
        ticket,
        entry,
        spaces,
    }
}

// One namespace of 1,000 blocks.
fn one_space() -> Result<Namespaces, Fail> {
    Namespaces::new(&[1000]).map_err(|_| Fail::from(AllocError))
}

// A pool whose number of workers is allowed.
fn pool_again(alloc: Global, workers: u8) -> Result<(Lanes, FrontSeat, Vec<Worker>), AllocError> {
    if let Ok(made) = pool(alloc, workers) {
        return Ok(made);
    }
    pool(alloc, workers).map_err(|_| AllocError)
}

// Closes a pool. Where that is refused, what came back is closed.
fn close_again<R: Wait>(
    rt: &R,
    alloc: Global,
    lanes: Lanes,
    seat: FrontSeat,
    workers: Vec<Worker>,
) -> Result<(u16, u16), AllocError> {
    match close(rt, alloc, lanes, seat, workers) {
        Ok(left) => Ok(left),
        Err((_, lanes, seat, workers)) => {
            close(rt, alloc, lanes, seat, workers).map_err(|_| AllocError)
        }
    }
}

// Hands over the jobs with the tickets below `end`. The answer is how many were handed over.
fn hand_to<R: Wait>(
    rt: &R,
    lanes: &Lanes,
    seat: &mut FrontSeat,
    end: u32,
    spaces: Namespaces,
) -> u64 {
    let mut handed = 0u64;
    for ticket in 0..end {
        if seat.hand(rt, lanes, job(ticket, spaces)).is_ok() {
            handed = handed.wrapping_add(1);
        }
    }
    handed
}

// Steps a worker `times` times. The answer is how many steps were `Did`.
fn step_times<R: Wait>(rt: &R, lanes: &Lanes, worker: &mut Worker, times: u32) -> u64 {
    let mut did = 0u64;
    for _ in 0..times {
        if worker.step(rt, lanes, &mut NoGate) == Worked::Did {
            did = did.wrapping_add(1);
        }
    }
    did
}

// Whether a pool with this many workers is refused for their number.
fn is_refused(alloc: Global, workers: u8) -> bool {
    matches!(pool(alloc, workers), Err(PoolError::Workers))
}

// The next step of a worker has this result.
fn expect_step<R: Wait + Abort>(rt: &R, lanes: &Lanes, worker: &mut Worker, worked: Worked) {
    assert_eq!(rt; worker.step(rt, lanes, &mut NoGate), worked);
}

#[test]
fn capacities(rt: HostRuntime) -> Result<(), Fail> {
    assert!(rt; is_refused(rt.alloc(), 0));
    assert!(rt; is_refused(rt.alloc(), 9));
    let (lanes, seat, mut workers) = pool_again(rt.alloc(), 2)?;
    expect_step(&rt, &lanes, &mut workers[0], Worked::Nothing);
    let left = close_again(&rt, rt.alloc(), lanes, seat, workers)?;
    assert_eq!(rt; left, (0, 0));
    Ok(())
}

// Hands over 256 jobs, and steps one worker until its ring is full and it keeps one more result.
fn fill<R: Wait + Abort>(
    rt: &R,
    lanes: &Lanes,
    seat: &mut FrontSeat,
    worker: &mut Worker,
    spaces: Namespaces,
) {
    assert_eq!(rt; hand_to(rt, lanes, seat, 256, spaces), 256);
    let refused = seat
        .hand(rt, lanes, job(256, spaces))
        .map_err(|full| full.0.ticket);
    assert_eq!(rt; refused, Err(256));
    assert_eq!(rt; step_times(rt, lanes, worker, 255), 255);
    expect_step(rt, lanes, worker, Worked::Held);
    expect_step(rt, lanes, worker, Worked::Held);
    assert!(rt; worker.keeps());
}

// Gains the oldest result, which lets the worker give the one that it keeps.
fn empty<R: Wait + Abort>(rt: &R, lanes: &Lanes, seat: &mut FrontSeat, worker: &mut Worker) {
    let gained = seat.gain(lanes).map(|done| (done.ticket(), done.status()));
    assert_eq!(rt; gained, Some((0, Status::SUCCESS)));
    expect_step(rt, lanes, worker, Worked::Did);
    assert!(rt; !worker.keeps());
    expect_step(rt, lanes, worker, Worked::Nothing);
}

#[test]
fn result_ring_fills(rt: HostRuntime) -> Result<(), Fail> {
    let spaces = one_space()?;
    let (lanes, mut seat, mut workers) = pool_again(rt.alloc(), 2)?;
    let worker = &mut workers[0];
    fill(&rt, &lanes, &mut seat, worker, spaces);
    empty(&rt, &lanes, &mut seat, worker);
    let left = close_again(&rt, rt.alloc(), lanes, seat, workers)?;
    assert_eq!(rt; left, (0, 255));
    Ok(())
}

// The next gains answer these tickets.
fn gain_in_order<R: Abort>(rt: &R, lanes: &Lanes, seat: &mut FrontSeat, tickets: &[Option<u32>]) {
    for ticket in tickets {
        assert_eq!(rt; seat.gain(lanes).map(|done| done.ticket()), *ticket);
    }
}

#[test]
fn results_in_worker_order(rt: HostRuntime) -> Result<(), Fail> {
    let spaces = one_space()?;
    let (lanes, mut seat, mut workers) = pool_again(rt.alloc(), 2)?;
    let handed = hand_to(&rt, &lanes, &mut seat, 4, spaces);
    let by_second = step_times(&rt, &lanes, &mut workers[1], 2);
    let by_first = step_times(&rt, &lanes, &mut workers[0], 2);
    let tickets = [Some(2), Some(3), Some(0), Some(1), None];
    gain_in_order(&rt, &lanes, &mut seat, &tickets);
    let left = close_again(&rt, rt.alloc(), lanes, seat, workers)?;
    assert_eq!(rt; (handed, by_second, by_first), (4, 2, 2));
    assert_eq!(rt; left, (0, 0));
    Ok(())
}

/// A gate that counts each ticket. Contracts see how often it was entered.
#[derive(Drop)]
struct Tally<'a> {
    counts: &'a [AtomicU64],
    told: u64,
}

impl<'a> Model for Tally<'a> {
    ghost Value = { ℕ };

    ghost view = { λ t. t.told };
}

impl<'a> Gate for Tally<'a> {
    ghost entered = { λ view ticket. (view + 1) % 2 ^ 64 };

    ghost left = { λ view ticket. view };

    fn enter(&mut self, ticket: u32) {
        self.told = self.told.wrapping_add(1);
        if let Some(count) = self.counts.get(ticket as usize) {
            count.fetch_add(1, Ordering::SeqCst);
        }
    }

    fn leave(&mut self, _ticket: u32) {}
}

// Steps until there is nothing to do and the front says that no more jobs will come.
fn work<R: Wait>(
    rt: &R,
    lanes: &Lanes,
    mut worker: Worker,
    counts: &[AtomicU64],
    stop: &AtomicU64,
) {
    let mut gate = Tally { counts, told: 0 };
    for _ in rt.forever() {
        match worker.step(rt, lanes, &mut gate) {
            Worked::Did => {}
            Worked::Held => thread::yield_now(),
            Worked::Nothing => {
                if stop.load(Ordering::SeqCst) > 0 {
                    break;
                }
                thread::yield_now();
            }
        }
    }
}

// Hands over a job, and gains results while the lane is full. The answer is how many were gained.
fn hand_one<R: Wait>(rt: &R, lanes: &Lanes, seat: &mut FrontSeat, job: &Job) -> u64 {
    let mut gained = 0u64;
    for _ in rt.forever() {
        if seat.hand(rt, lanes, *job).is_ok() {
            return gained;
        }
        if seat.gain(lanes).is_some() {
            gained = gained.wrapping_add(1);
        } else {
            thread::yield_now();
        }
    }
    unreachable!()
}

// Gains results until there are `count`.
fn gain_to<R: Wait>(rt: &R, lanes: &Lanes, seat: &mut FrontSeat, from: u64, count: u64) -> u64 {
    let mut gained = from;
    for _ in rt.forever() {
        if gained >= count {
            break;
        }
        if seat.gain(lanes).is_some() {
            gained = gained.wrapping_add(1);
        } else {
            thread::yield_now();
        }
    }
    gained
}

// Hands over the jobs with the tickets below `count`, and gains their results. The answer is how many were gained.
fn lead<R: Wait>(
    rt: &R,
    lanes: &Lanes,
    mut seat: FrontSeat,
    count: u32,
    spaces: Namespaces,
) -> u64 {
    let mut gained = 0u64;
    for ticket in 0..count {
        gained = gained.wrapping_add(hand_one(rt, lanes, &mut seat, &job(ticket, spaces)));
    }
    gain_to(rt, lanes, &mut seat, gained, u64::from(count))
}

// A thread for a worker.
fn start_one<'s, E: 's, R: Wait + Sync + 's>(
    scope: &Scope<'s, E>,
    rt: &'s R,
    lanes: &'s Lanes,
    worker: Worker,
    counts: &'s [AtomicU64],
    stop: &'s AtomicU64,
) -> Result<(), AllocError> {
    if scope
        .spawn(move || work(rt, lanes, worker, counts, stop))
        .is_err()
    {
        return Err(AllocError);
    }
    Ok(())
}

// A thread for each worker. Where one can't be started the others are told to end.
fn start<'s, E: 's, R: Wait + Sync + 's>(
    scope: &Scope<'s, E>,
    rt: &'s R,
    lanes: &'s Lanes,
    workers: Vec<Worker>,
    counts: &'s [AtomicU64],
    stop: &'s AtomicU64,
) -> Result<(), AllocError> {
    for worker in workers {
        if start_one(scope, rt, lanes, worker, counts, stop).is_err() {
            stop.store(1, Ordering::SeqCst);
            return Err(AllocError);
        }
    }
    Ok(())
}

// Eight workers on threads of their own execute `jobs` jobs, each counted in its place. The answer is how
// many results were gained.
fn eight_workers<R: Threads + Wait + Sync>(
    rt: &R,
    alloc: Global,
    counts: &[AtomicU64],
    jobs: u32,
    spaces: Namespaces,
) -> Result<u64, AllocError> {
    let (lanes, seat, workers) = pool_again(alloc, 8)?;
    let lanes = &lanes;
    let stop = AtomicU64::new(0);
    let stop = &stop;
    thread::scope(
        thread::scope_env(),
        rt,
        move |scope| -> Result<u64, AllocError> {
            start(scope, rt, lanes, workers, counts, stop)?;
            let gained = lead(rt, lanes, seat, jobs, spaces);
            stop.store(1, Ordering::SeqCst);
            Ok(gained)
        },
    )
}

// A list of counts at 0.
fn zeros(alloc: Global, number: usize) -> Result<Vec<AtomicU64>, AllocError> {
    let mut counts = Vec::new(alloc);
    if counts.reserve(number).is_err() {
        counts.reserve(number)?;
    }
    for _ in 0..number {
        counts.push(AtomicU64::new(0))?;
    }
    Ok(counts)
}

// Each job is counted once, and its result is gained. Where memory is refused no job was handed over, and the call is
// made again.
fn count_once<R: Threads + Wait + Sync + Abort>(
    rt: &R,
    alloc: Global,
    counts: &[AtomicU64],
    jobs: u32,
) -> Result<(), Fail> {
    let spaces = one_space()?;
    let mut done = eight_workers(rt, alloc, counts, jobs, spaces);
    if done.is_err() {
        done = eight_workers(rt, alloc, counts, jobs, spaces);
    }
    assert_eq!(rt; done?, u64::from(jobs));
    for count in counts {
        assert_eq!(rt; count.load(Ordering::SeqCst), 1);
    }
    Ok(())
}

#[test]
fn eight_workers_execute_each_job_once(rt: HostRuntime) -> Result<(), Fail> {
    let counts = zeros(rt.alloc(), 10_000)?;
    count_once(&rt, rt.alloc(), counts.as_slice(), 10_000)
}
