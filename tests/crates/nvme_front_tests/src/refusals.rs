// The refusals of a front and of settling.

use crate::again::{add_sq_again, pool_again, ring_again};
use crate::commands::get_arbitration;
use crate::events::posted;
use crate::hosted::config;
use crate::rig::{Rig, WORKERS, settle_exchanged};
use nvme_entry::{Cqe, Sqe};
use nvme_front::{AddError, Event, Front, FrontError, SettleError, Step};
use nvme_lane::{GetEnd, PutEnd};
use std::alloc::Global;
use std::process::Abort;
use std::sync::Wait;
use std::test::*;

// A rig with one admin command, already submitted.
fn one_command(alloc: Global, max_events: u32) -> Result<Rig, Fail> {
    let script = [get_arbitration(0)];
    let mut rig = Rig::new(alloc, config(0, max_events)?, 8, 8, &script)?;
    let _put = rig.submit(0, 1);
    Ok(rig)
}

// A log whose only free events are reserved for the end of a command stays as it is.
fn refuses_events<R: Wait + Abort>(rt: &R, alloc: Global) -> Result<(), Fail> {
    let want = [Event::Fetch {
        region: 0,
        index: 0,
        entry: get_arbitration(0),
    }];
    let mut rig = one_command(alloc, 257)?;
    for turn in 0..2 {
        assert_eq!(rt; rig.turn(rt), Err(FrontError::LogFull), "in turn {turn}");
        assert!(rt; rig.log() == want.as_slice(), "in turn {turn}");
    }
    assert!(rt; !rig.is_clear());
    drop(rig);
    Ok(())
}

// A log with two more events takes the first pick.
fn takes_events<R: Wait + Abort>(rt: &R, alloc: Global) -> Result<(), Fail> {
    let mut rig = one_command(alloc, 259)?;
    assert_eq!(rt; rig.turn(rt), Ok(Step::Picked));
    drop(rig);
    Ok(())
}

#[test]
fn log_full(rt: HostRuntime) -> Result<(), Fail> {
    refuses_events(&rt, rt.alloc())?;
    takes_events(&rt, rt.alloc())
}

// The submission end of a ring with no host.
fn get_end(alloc: Global, address: u64, slots: u16) -> Result<GetEnd<Sqe>, Fail> {
    let (_, get) = ring_again(alloc, address, slots)?;
    Ok(get)
}

// The completion end of a ring with no host.
fn put_end(alloc: Global, address: u64, slots: u16) -> Result<PutEnd<Cqe>, Fail> {
    let (put, _) = ring_again(alloc, address, slots)?;
    Ok(put)
}

// Adds 65 submission regions, then a completion region with the address of one, and then a 66th.
fn add_too_many(rt: &impl Abort, alloc: Global, front: &mut Front) -> Result<(), Fail> {
    for region in 0..65 {
        let end = get_end(alloc, 0x1000 * u64::from(region), 8)?;
        assert_eq!(rt; add_sq_again(front, end)?, region);
    }
    let used = front.add_cq_region(put_end(alloc, 0x5000, 4)?);
    let used = used.map_err(|(error, end)| (error, end.address(), end.slots()));
    assert_eq!(rt; used, Err((AddError::Used, 0x5000, 4)));
    let many = front.add_sq_region(get_end(alloc, 0x8_0000, 16)?);
    let many = many.map_err(|(error, end)| (error, end.address(), end.slots()));
    assert_eq!(rt; many, Err((AddError::TooMany, 0x8_0000, 16)));
    assert!(rt; front.is_serving(0) && !front.is_serving(1));
    Ok(())
}

#[test]
fn region_refusals(rt: HostRuntime) -> Result<(), Fail> {
    let config = config(0, 1000)?;
    let (_, seat, _) = pool_again(rt.alloc(), WORKERS)?;
    let mut front = Front::new(rt.alloc(), config, seat);
    let added = add_too_many(&rt, rt.alloc(), &mut front);
    drop(front);
    added
}

// Adds a second submission region with an empty script, does the one command, and answers the text of the log.
fn play_exchange<R: Wait>(rt: &R, alloc: Global, rig: &mut Rig) -> Result<String, Fail> {
    rig.add_sq(alloc, 0x2000, 8, &[])?;
    rig.run_and_collect(rt)?;
    Ok(format!(in alloc; "{:?}", rig.log())?)
}

// The rig that came back is as it was.
fn check_rig(rt: &impl Abort, alloc: Global, back: &Rig, log: &str) -> Result<(), Fail> {
    assert_eq!(rt; back.hosts(), (2, 1));
    let log_now = format!(in alloc; "{:?}", back.log())?;
    assert_eq!(rt; log_now.as_str(), log);
    assert_eq!(rt; posted(back.log()), 1);
    Ok(())
}

// A front with exchanged feeders is refused, and comes back as it was. With its feeders in their order it is settled.
fn refuse_exchanged<R: Wait + Abort>(
    rt: &R,
    alloc: Global,
    rig: Rig,
    log: &str,
) -> Result<(), Fail> {
    let back = settle_exchanged(rt, alloc, rig)?;
    let checked = check_rig(rt, alloc, &back, log);
    let settled = back.settled(rt, alloc, checked)?;
    assert_eq!(rt; (settled.sent.len(), settled.collected.len()), (2, 1));
    assert_eq!(rt; (settled.sent[0].count, settled.sent[1].count), (1, 0));
    assert_eq!(rt; settled.collected[0].len(), 1);
    Ok(())
}

// Settles a front with exchanged feeders, and then with its own.
fn exchange<R: Wait + Abort>(rt: &R, alloc: Global) -> Result<(), Fail> {
    let mut rig = one_command(alloc, 1000)?;
    match play_exchange(rt, alloc, &mut rig) {
        Ok(log) => refuse_exchanged(rt, alloc, rig, log.as_str()),
        Err(fail) => {
            drop(rig);
            Err(fail)
        }
    }
}

// What a refused settling hands back is as it was, and runs to its end.
fn play_to_the_end<R: Wait + Abort>(rt: &R, rig: &mut Rig) -> Result<(), Fail> {
    assert_eq!(rt; (rig.hosts(), rig.log().len()), ((1, 1), 0));
    rig.run_and_collect(rt)?;
    assert_eq!(rt; posted(rig.log()), 1);
    Ok(())
}

#[test]
fn settle_refusals(rt: HostRuntime) -> Result<(), Fail> {
    exchange(&rt, rt.alloc())?;
    let rig = one_command(rt.alloc(), 1000)?;
    let (error, mut rig) = rig.refused(&rt, rt.alloc())?;
    assert_eq!(rt; error, SettleError::Outstanding);
    let played = play_to_the_end(&rt, &mut rig);
    let settled = rig.settled(&rt, rt.alloc(), played)?;
    assert_eq!(rt; settled.collected.len(), 1);
    assert_eq!(rt; settled.collected[0].len(), 1);
    Ok(())
}
