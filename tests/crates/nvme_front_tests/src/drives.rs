// Drives that fail.

use crate::again::{list_again, pool_again};
use crate::commands::get_arbitration;
use crate::hosted::{Hosted, config};
use nvme_entry::Sqe;
use nvme_front::{FrontError, Parts};
use nvme_lane::{Feeder, Mode};
use nvme_pool::NoGate;
use nvme_threads::{DriveError, drive};
use std::alloc::Global;
use std::sync::Wait;
use std::test::*;
use std::thread::Threads;

// The admin commands, which fit their ring. The events of each are its fetch, its pick and its post.
const COMMANDS: usize = 200;
// The most events of the log, which are too few for the commands.
const EVENTS: u32 = 257;

// Submits the script of a host. It fits the ring.
fn submit(feeder: &mut Feeder<Sqe>) {
    for _ in 0..COMMANDS {
        feeder.step();
    }
}

// Submits the scripts of all hosts.
fn submit_all(feeders: &mut Vec<Feeder<Sqe>>) {
    for feeder in feeders.iter_mut() {
        submit(feeder);
    }
}

// A front with its hosts and two workers. With `Mode::Loaded` the hosts have submitted.
fn parts(alloc: Global, mode: Mode) -> Result<Parts, Fail> {
    let config = config(0, EVENTS)?;
    let (lanes, seat, workers) = pool_again(alloc, 2)?;
    let hosted = Hosted::new(
        alloc,
        config,
        seat,
        256,
        256,
        &[get_arbitration(7); COMMANDS],
    )?;
    let Hosted {
        front,
        mut feeders,
        drainers,
    } = hosted;
    if mode == Mode::Loaded {
        submit_all(&mut feeders);
    }
    Ok(Parts {
        front,
        feeders,
        drainers,
        lanes,
        workers,
    })
}

// Drives the commands once: the error, or `None`.
fn driven_once<R: Threads + Wait + Sync>(
    rt: &R,
    alloc: Global,
    mode: Mode,
) -> Result<Option<DriveError>, Fail> {
    let gates = list_again(alloc, &[NoGate, NoGate])?;
    if gates.len() != 2 {
        return Err("two gates are wanted".into());
    }
    let parts = parts(alloc, mode)?;
    match drive(rt, alloc, parts, gates, mode, 1_000_000) {
        Ok(_) => Ok(None),
        Err(error) => Ok(Some(error)),
    }
}

// The same, made again where memory was refused.
fn driven<R: Threads + Wait + Sync>(
    rt: &R,
    alloc: Global,
    mode: Mode,
) -> Result<Option<DriveError>, Fail> {
    let error = driven_once(rt, alloc, mode)?;
    if error == Some(DriveError::NoMemory) {
        return driven_once(rt, alloc, mode);
    }
    Ok(error)
}

#[test]
fn drive_of_a_full_log_comes_back(rt: HostRuntime) -> Result<(), Fail> {
    for mode in [Mode::Loaded, Mode::Live] {
        let error = driven(&rt, rt.alloc(), mode)?;
        assert_eq!(rt; error, Some(DriveError::Front(FrontError::LogFull)));
    }
    Ok(())
}
