// Calls that are refused memory. Between the lines `refuse` and `allow` on standard error memory may be refused from
// outside, as `tests/memory` does, and a test still prints the same. On its own each of these tests is refused nothing.

use crate::again::{pool_again, ring_again};
use crate::commands::get_arbitration;
use crate::hosted::{ADMIN_CQ, ADMIN_SQ, config};
use crate::rig::{Rig, WORKERS};
use nvme_entry::{Cqe, Sqe};
use nvme_front::{AddError, Front, FrontError, SettleError, Settled, Step};
use nvme_lane::{Drainer, GetEnd, LaneError, PutEnd, lane, ring};
use nvme_pool::{FrontSeat, Lanes, PoolError, Worker, close, pool};
use std::alloc::Global;
use std::process::Abort;
use std::sync::Wait;
use std::test::*;

// Memory may be refused from here on.
fn refuse(rt: &impl Eprint) {
    let _ = eprintln!(rt; "refuse");
}

// Memory isn't refused from here on.
fn allow(rt: &impl Eprint) {
    let _ = eprintln!(rt; "allow");
}

// A turn that may be refused memory, and then another. A rig makes its turn again by itself.
fn turn_refused<R: Wait + Eprint>(rt: &R, rig: &mut Rig) -> Result<Step, FrontError> {
    refuse(rt);
    let step = rig.turn(rt);
    allow(rt);
    match step {
        Err(FrontError::NoMemory) => rig.turn(rt),
        step => step,
    }
}

// Turns that may be refused memory, until nothing is left to do.
fn run_refused<R: Wait + Eprint>(rt: &R, rig: &mut Rig) -> Result<(), Fail> {
    for _ in 0..1000 {
        match turn_refused(rt, rig)? {
            Step::Picked | Step::Moved => {}
            Step::Idle | Step::Stalled => return Ok(()),
        }
    }
    Err("the front goes on and on".into())
}

// Commands are executed through a ring of two slots, whose host collects one completion after another.
fn play_refused<R: Wait + Eprint + Abort>(rt: &R, rig: &mut Rig) -> Result<(), Fail> {
    assert_eq!(rt; rig.submit(0, 4), 4);
    for _ in 0..4 {
        run_refused(rt, rig)?;
        assert_eq!(rt; rig.collect(0, 2)?, 1);
    }
    Ok(())
}

// A front whose completion ring has two slots, with four commands.
fn two_slots(alloc: Global) -> Result<Rig, Fail> {
    let script = [
        get_arbitration(0),
        get_arbitration(1),
        get_arbitration(2),
        get_arbitration(3),
    ];
    Rig::new(alloc, config(0x0301_0001, 1000)?, 8, 2, &script)
}

#[test]
fn turns_go_on_without_memory(rt: HostRuntime) -> Result<(), Fail> {
    let mut rig = two_slots(rt.alloc())?;
    let played = play_refused(&rt, &mut rig);
    let settled = rig.settled(&rt, rt.alloc(), played)?;
    assert_eq!(rt; settled.collected.len(), 1);
    assert_eq!(rt; settled.collected[0].len(), 4);
    println!(rt; "{:?}", settled.log.as_slice())?;
    Ok(())
}

// Settles a rig, and again what comes back where memory is refused.
fn settle_refused<R: Wait + Eprint>(rt: &R, alloc: Global, rig: Rig) -> Result<Settled, Fail> {
    refuse(rt);
    let settled = rig.settle(rt, alloc);
    allow(rt);
    match settled {
        Ok(settled) => Ok(settled),
        Err((SettleError::NoMemory, rig)) => rig.settled(rt, alloc, Ok(())),
        Err((error, rig)) => {
            drop(rig);
            Err(error.into())
        }
    }
}

// Commands are executed, and the last of their completions rests in the ring.
fn play_resting<R: Wait>(rt: &R, rig: &mut Rig) -> Result<(), Fail> {
    rig.submit_all(4);
    for _ in 0..3 {
        rig.run(rt)?;
        rig.collect_all()?;
    }
    rig.run(rt)
}

#[test]
fn settling_goes_on_without_memory(rt: HostRuntime) -> Result<(), Fail> {
    let mut rig = two_slots(rt.alloc())?;
    if let Err(fail) = play_resting(&rt, &mut rig) {
        drop(rig);
        return Err(fail);
    }
    let settled = settle_refused(&rt, rt.alloc(), rig)?;
    assert_eq!(rt; settled.collected.len(), 1);
    assert_eq!(rt; settled.collected[0].len(), 4);
    println!(rt; "{settled:?}")?;
    Ok(())
}

// Adds a submission region, and again where memory is refused.
fn add_sq_refused<R: Eprint + Abort>(
    rt: &R,
    front: &mut Front,
    end: GetEnd<Sqe>,
) -> Result<u8, AddError> {
    refuse(rt);
    let added = front.add_sq_region(end);
    allow(rt);
    match added {
        Err((AddError::NoMemory, back)) => {
            assert_eq!(rt; (back.address(), back.slots()), (ADMIN_SQ, 256));
            front.add_sq_region(back).map_err(|refused| refused.0)
        }
        added => added.map_err(|refused| refused.0),
    }
}

// Adds a completion region, and again where memory is refused.
fn add_cq_refused<R: Eprint + Abort>(
    rt: &R,
    front: &mut Front,
    end: PutEnd<Cqe>,
) -> Result<u8, AddError> {
    refuse(rt);
    let added = front.add_cq_region(end);
    allow(rt);
    match added {
        Err((AddError::NoMemory, back)) => {
            assert_eq!(rt; (back.address(), back.slots()), (ADMIN_CQ, 256));
            front.add_cq_region(back).map_err(|refused| refused.0)
        }
        added => added.map_err(|refused| refused.0),
    }
}

// Adds both admin regions.
fn add_refused<R: Eprint + Abort>(rt: &R, alloc: Global, front: &mut Front) -> Result<(), Fail> {
    let (_, get) = ring_again(alloc, ADMIN_SQ, 256)?;
    assert_eq!(rt; add_sq_refused(rt, front, get)?, 0);
    let (put, _) = ring_again(alloc, ADMIN_CQ, 256)?;
    assert_eq!(rt; add_cq_refused(rt, front, put)?, 0);
    assert!(rt; front.is_serving(0));
    Ok(())
}

#[test]
fn regions_are_added_without_memory(rt: HostRuntime) -> Result<(), Fail> {
    let (_, seat, _) = pool_again(rt.alloc(), WORKERS)?;
    let mut front = Front::new(rt.alloc(), config(0, 1000)?, seat);
    let added = add_refused(&rt, rt.alloc(), &mut front);
    drop(front);
    added
}

// Puts an item, and takes it by calls that may be refused memory.
fn take_refused<R: Eprint + Abort>(
    rt: &R,
    put: &mut PutEnd<u32>,
    drainer: &mut Drainer<u32>,
    item: u32,
) {
    assert_eq!(rt; put.put(item), Ok(()));
    refuse(rt);
    let took = drainer.take();
    allow(rt);
    if took.is_err() {
        assert_eq!(rt; drainer.take(), Ok(true));
    }
    assert_eq!(rt; drainer.items().last(), Some(&item));
}

#[test]
fn items_are_taken_without_memory(rt: HostRuntime) -> Result<(), Fail> {
    let (mut put, get) = ring_again(rt.alloc(), 0, 2)?;
    let mut drainer = Drainer::new(rt.alloc(), get);
    for item in 0..100 {
        take_refused(&rt, &mut put, &mut drainer, item);
    }
    println!(rt; "{:?}", drainer.items())?;
    Ok(())
}

#[test]
fn rings_and_lanes_are_made_without_memory(rt: HostRuntime) -> Result<(), Fail> {
    refuse(&rt);
    let made = ring::<u32>(rt.alloc(), 7, 256);
    allow(&rt);
    if let Err(error) = made {
        assert_eq!(rt; error, LaneError::NoMemory);
        assert!(rt; ring::<u32>(rt.alloc(), 7, 256).is_ok());
    }
    refuse(&rt);
    let made = lane::<u32>(rt.alloc(), 256, 8, 8);
    allow(&rt);
    if let Err(error) = made {
        assert_eq!(rt; error, LaneError::NoMemory);
        assert!(rt; lane::<u32>(rt.alloc(), 256, 8, 8).is_ok());
    }
    Ok(())
}

// A pool, by a call that may be refused memory.
fn pool_refused<R: Eprint>(
    rt: &R,
    alloc: Global,
) -> Result<(Lanes, FrontSeat, Vec<Worker>), PoolError> {
    refuse(rt);
    let made = pool(alloc, 8);
    allow(rt);
    match made {
        Ok(made) => Ok(made),
        Err(_) => pool(alloc, 8),
    }
}

// Closes a pool by a call that may be refused memory, and then what came back.
fn close_refused<R: Wait + Eprint>(
    rt: &R,
    alloc: Global,
    lanes: Lanes,
    seat: FrontSeat,
    workers: Vec<Worker>,
) -> Result<(u16, u16), PoolError> {
    refuse(rt);
    let closed = close(rt, alloc, lanes, seat, workers);
    allow(rt);
    match closed {
        Ok(left) => Ok(left),
        Err((_, lanes, seat, workers)) => {
            close(rt, alloc, lanes, seat, workers).map_err(|refused| refused.0)
        }
    }
}

#[test]
fn pools_are_made_and_closed_without_memory(rt: HostRuntime) -> Result<(), Fail> {
    let (lanes, seat, workers) = pool_refused(&rt, rt.alloc())?;
    assert_eq!(rt;
        close_refused(&rt, rt.alloc(), lanes, seat, workers)?,
        (0, 0)
    );
    Ok(())
}
