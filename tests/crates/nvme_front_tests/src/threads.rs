// A front with eight workers on threads of their own: some 20,000 commands, slow drainers, and queues that are deleted
// and created again.

use crate::again::{pool_again, push_again};
use crate::commands::{admin, get_arbitration, read};
use crate::events::{fetched, posted, status_of, was_closed};
use crate::hosted::{Hosted, config};
use crate::rig::settle_hosted;
use nvme_entry::{Sqe, Status};
use nvme_front::{Event, Settled, Step};
use nvme_pool::{FrontSeat, Gate, Lanes, Worked, Worker};
use std::alloc::{AllocError, Global};
use std::marker::Model;
use std::process::Abort;
use std::snapshot::Snapshot;
use std::sync::Wait;
use std::sync::atomic::{AtomicU64, Ordering};
use std::test::*;
use std::thread;
use std::thread::{Promise, PromisedHandle, Scope, Threads};

// The queues have the identifiers 1 to `QUEUES`. Each is deleted and created again on another region.
const QUEUES: u8 = 8;
// The reads of each I/O submission region.
const READS: u16 = 1500;
// The turns after which a test fails.
const MOST_TURNS: u32 = 50_000_000;

/// The flags by which the threads tell one another what to do.
#[derive(Drop)]
struct Flags {
    // 1 once the workers are to end.
    stop: AtomicU64,
    // The execution of this ticket is held until it is released. With `NO_TICKET` none is held.
    held: u32,
    // 1 once it is released.
    released: AtomicU64,
    // 1 once it was begun.
    entered: AtomicU64,
}

const NO_TICKET: u32 = 0xffff_ffff;

/// A gate that holds one execution until it is released.
#[derive(Drop)]
struct Hold<'a> {
    flags: &'a Flags,
}

impl<'a> Model for Hold<'a> {
    ghost Value = { Unit {0} };

    ghost view = { λ h. tt };
}

impl<'a> Gate for Hold<'a> {
    ghost entered = { λ view ticket. view };

    ghost left = { λ view ticket. view };

    fn enter(&mut self, ticket: u32) {
        if ticket != self.flags.held {
            return;
        }
        self.flags.entered.store(1, Ordering::SeqCst);
        for _ in 0..u64::MAX {
            if self.flags.released.load(Ordering::SeqCst) > 0 {
                return;
            }
            thread::yield_now();
        }
    }

    fn leave(&mut self, _ticket: u32) {}
}

/// What a thread promises: its worker comes back as the same worker.
#[derive(Drop)]
struct ComesBack(Snapshot<Worker>);

impl Promise<Worker> for ComesBack {
    ghost kept_by = { λ p w. SameWorker p.0.value w };
}

// Steps a worker until there is nothing to do and the workers are to end.
fn work<R: Wait>(rt: &R, lanes: &Lanes, worker: Worker, flags: &Flags) -> Worker {
    let mut worker = worker;
    let mut gate = Hold { flags };
    for _ in rt.forever() {
        match worker.step(rt, lanes, &mut gate) {
            Worked::Did => {}
            Worked::Held => thread::yield_now(),
            Worked::Nothing => {
                if flags.stop.load(Ordering::SeqCst) > 0 {
                    break;
                }
                thread::yield_now();
            }
        }
    }
    worker
}

type Handle = PromisedHandle<Worker, ComesBack>;

// A thread for a worker.
fn start_one<'s, E: 's, R: Wait + Sync + 's>(
    scope: &Scope<'s, E>,
    rt: &'s R,
    lanes: &'s Lanes,
    worker: Worker,
    flags: &'s Flags,
) -> Result<Handle, AllocError> {
    let promise = ComesBack(Snapshot::of(&worker));
    match scope.spawn_with(promise, move || work(rt, lanes, worker, flags)) {
        Ok(handle) => Ok(handle),
        Err(_) => Err(AllocError),
    }
}

// A thread for each worker. Where one can't be started the others are told to end.
fn start<'s, E: 's, R: Wait + Sync + 's>(
    scope: &Scope<'s, E>,
    rt: &'s R,
    alloc: Global,
    lanes: &'s Lanes,
    workers: Vec<Worker>,
    flags: &'s Flags,
) -> Result<Vec<Handle>, AllocError> {
    let mut handles = Vec::with_capacity(alloc, workers.len())?;
    for worker in workers {
        let Ok(handle) = start_one(scope, rt, lanes, worker, flags) else {
            flags.stop.store(1, Ordering::SeqCst);
            return Err(AllocError);
        };
        handles.push_reserved(handle);
    }
    Ok(handles)
}

// Joins the threads. The workers come back in order.
fn join_all<R: Threads>(rt: &R, handles: Vec<Handle>) -> Result<Vec<Worker>, AllocError> {
    match thread::join_promised(rt, handles) {
        Ok(workers) => Ok(workers),
        Err(refused) => {
            for handle in refused.value {
                let _ = handle.join(rt);
            }
            Err(AllocError)
        }
    }
}

// The admin commands: the queues are created, the settings are asked for, and the queues are deleted and created again.
fn admin_script(alloc: Global) -> Result<Vec<Sqe>, AllocError> {
    let mut all = Vec::new(alloc);
    for q in 1..=QUEUES {
        let (cid, qid) = (u16::from(q), u32::from(q));
        push_again(&mut all, admin(cid, 5, cq_address(q), 0x0007_0000 + qid, 1))?;
    }
    create_queues(&mut all, 0)?;
    for cid in 0..330 {
        push_again(&mut all, get_arbitration(cid))?;
    }
    for q in 1..=QUEUES {
        push_again(&mut all, admin(u16::from(q), 0, 0, u32::from(q), 0))?;
    }
    create_queues(&mut all, QUEUES)?;
    Ok(all)
}

// Creates the submission queues, each on the region of its identifier plus `more`.
fn create_queues(all: &mut Vec<Sqe>, more: u8) -> Result<(), AllocError> {
    for q in 1..=QUEUES {
        let (cid, qid) = (u16::from(q), u32::from(q));
        let cdw11 = 0x1_0000 * qid + 1;
        push_again(
            all,
            admin(cid, 1, sq_address(q + more), 0x001f_0000 + qid, cdw11),
        )?;
    }
    Ok(())
}

fn cq_address(region: u8) -> u64 {
    0x9000 + 0x1000 * u64::from(region)
}

fn sq_address(region: u8) -> u64 {
    0x20_0000 + 0x1000 * u64::from(region)
}

// Adds the I/O regions.
fn add_regions(alloc: Global, hosted: &mut Hosted) -> Result<(), Fail> {
    let reads = [read(3); READS as usize];
    for region in 1..=2 * QUEUES {
        hosted.add_sq(alloc, sq_address(region), 32, &reads)?;
    }
    for region in 1..=QUEUES {
        hosted.add_cq(alloc, cq_address(region), 8)?;
    }
    Ok(())
}

// The front and its hosts, with small completion rings.
fn hosted(alloc: Global, seat: FrontSeat) -> Result<Hosted, Fail> {
    let script = admin_script(alloc)?;
    let config = config(0x0201_0002, 1_000_000)?;
    let mut hosted = Hosted::new(alloc, config, seat, 8, 4, script.as_slice())?;
    match add_regions(alloc, &mut hosted) {
        Ok(()) => Ok(hosted),
        Err(fail) => {
            drop(hosted);
            Err(fail)
        }
    }
}

// Releases the held execution. The deletion of its queue wasn't finished before.
fn release(log: &[Event], flags: &Flags) -> Result<(), Fail> {
    let is_first = flags.released.swap(1, Ordering::SeqCst) == 0;
    if is_first && flags.held != NO_TICKET && was_closed(log, 1) {
        return Err("a deletion was finished while a command ran".into());
    }
    Ok(())
}

// In each turn each host submits a few commands, the front makes a turn, and the next host collects two completions.
// It ends when nothing happens for a hundred turns. The held execution is released after many turns in which the
// deletion of its queue was pending.
fn drive<R: Wait>(rt: &R, lanes: &Lanes, hosted: &mut Hosted, flags: &Flags) -> Result<(), Fail> {
    let mut quiet = 0u32;
    for turn in 0..MOST_TURNS {
        hosted.submit_all(4);
        match hosted.turn(rt, lanes)? {
            Step::Picked | Step::Moved => quiet = 0,
            Step::Idle | Step::Stalled => {
                quiet = quiet.saturating_add(1);
                thread::yield_now();
            }
        }
        let _took = hosted.collect((turn % (u32::from(QUEUES) + 1)) as usize, 2)?;
        if quiet > 1000 && hosted.is_clear() {
            return Ok(());
        }
        if quiet > 20_000 {
            release(hosted.log(), flags)?;
        }
    }
    Err("the drive doesn't end".into())
}

// The workers on threads of a scope, and the front with its hosts on this one. The workers come back.
fn work_beside<'s, E: 's, R: Threads + Wait + Sync + 's>(
    scope: &Scope<'s, E>,
    rt: &'s R,
    alloc: Global,
    lanes: &'s Lanes,
    workers: Vec<Worker>,
    hosted: &mut Hosted,
    flags: &'s Flags,
) -> Result<Vec<Worker>, Fail> {
    let handles = start(scope, rt, alloc, lanes, workers, flags)?;
    let driven = drive(rt, lanes, hosted, flags);
    flags.released.store(1, Ordering::SeqCst);
    flags.stop.store(1, Ordering::SeqCst);
    let workers = join_all(rt, handles);
    driven?;
    Ok(workers?)
}

// The same, and the front comes back too.
fn within<'s, E: 's, R: Threads + Wait + Sync + 's>(
    scope: &Scope<'s, E>,
    rt: &'s R,
    alloc: Global,
    lanes: &'s Lanes,
    workers: Vec<Worker>,
    hosted: Hosted,
    flags: &'s Flags,
) -> Result<(Hosted, Vec<Worker>), Fail> {
    let mut hosted = hosted;
    match work_beside(scope, rt, alloc, lanes, workers, &mut hosted, flags) {
        Ok(workers) => Ok((hosted, workers)),
        Err(fail) => {
            drop(hosted);
            Err(fail)
        }
    }
}

// Eight workers on threads, and the front with its hosts on this one. The workers come back.
fn work_and_drive<R: Threads + Wait + Sync>(
    rt: &R,
    alloc: Global,
    lanes: &Lanes,
    workers: Vec<Worker>,
    hosted: Hosted,
    flags: &Flags,
) -> Result<(Hosted, Vec<Worker>), Fail> {
    thread::scope(
        thread::scope_env(),
        rt,
        move |scope| -> Result<(Hosted, Vec<Worker>), Fail> {
            within(scope, rt, alloc, lanes, workers, hosted, flags)
        },
    )
}

// Runs and settles a front with its hosts, all their regions and eight workers.
fn run_flagged<R: Threads + Wait + Sync>(
    rt: &R,
    alloc: Global,
    flags: &Flags,
) -> Result<Settled, Fail> {
    let (lanes, seat, workers) = pool_again(alloc, 8)?;
    let hosted = hosted(alloc, seat)?;
    let (hosted, workers) = work_and_drive(rt, alloc, &lanes, workers, hosted, flags)?;
    settle_hosted(rt, alloc, hosted, lanes, workers)
}

// A whole run with eight workers.
fn run<R: Threads + Wait + Sync>(rt: &R, alloc: Global, held: u32) -> Result<Settled, Fail> {
    let flags = Flags {
        stop: AtomicU64::new(0),
        held,
        released: AtomicU64::new(0),
        entered: AtomicU64::new(0),
    };
    let settled = run_flagged(rt, alloc, &flags)?;
    if held != NO_TICKET && flags.entered.load(Ordering::SeqCst) == 0 {
        return Err("the held command didn't run".into());
    }
    Ok(settled)
}

// Each queue was deleted and created again, and all that was fetched was collected.
fn check(rt: &impl Abort, settled: &Settled) {
    let log = settled.log.as_slice();
    let mut total = 0usize;
    for region in 0..=2 * QUEUES {
        let is_deleted = 1 <= region && region <= QUEUES;
        assert_eq!(rt; was_closed(log, region), is_deleted, "at region {region}");
        total = total.wrapping_add(fetched(log, region));
    }
    assert_eq!(rt; total, posted(log));
    let mut collected = 0usize;
    for items in settled.collected.iter() {
        collected = collected.wrapping_add(items.len());
    }
    assert_eq!(rt; total, collected);
    assert!(rt; total > 20_000, "{total} commands");
    // A queue that is created again is served to its end.
    assert_eq!(rt; fetched(log, 2 * QUEUES), usize::from(READS));
}

#[test]
fn eight_workers_on_threads(rt: HostRuntime) -> Result<(), Fail> {
    let settled = run(&rt, rt.alloc(), NO_TICKET)?;
    check(&rt, &settled);
    Ok(())
}

#[test]
fn delete_waits_for_a_stopped_worker(rt: HostRuntime) -> Result<(), Fail> {
    let settled = run(&rt, rt.alloc(), 0)?;
    check(&rt, &settled);
    assert_eq!(rt; status_of(settled.log.as_slice(), 1, 0), Status::new(0, 0));
    Ok(())
}
