// A window of the greatest length, in a ring that is longer.

use crate::commands::{admin, read};
use crate::events::picks;
use crate::hosted::config;
use crate::rig::Rig;
use nvme_front::{Event, FrontError, Step};
use std::alloc::Global;
use std::process::Abort;
use std::sync::Wait;
use std::test::*;

// The commands of queue 1, of which 256 wait at a time.
const READS: usize = 300;

// The events before the pick of the Delete: 3 Fetches, twice a pick with a queue that opens and its Post, 256 Fetches,
// a pick, and one more Fetch.
const BEFORE: u32 = 267;

// The pick of the Delete, the beginning of the deletion and an abort for each candidate.
const ITS_OWN: u32 = 258;

// Adds the regions of queue 1, in a ring of 512 slots, and submits its commands.
fn add_queue(alloc: Global, rig: &mut Rig) -> Result<(), Fail> {
    rig.add_sq(alloc, 0x2000, 512, &[read(7); READS])?;
    rig.add_cq(alloc, 0x9000, 2)?;
    rig.submit_all(READS as u16);
    Ok(())
}

// Queue 1 in a ring of 512 slots with its commands, and its Delete.
fn rig_of_512(alloc: Global, max_events: u32) -> Result<Rig, Fail> {
    let script = [
        admin(0, 5, 0x9000, 0x0001_0001, 1),
        admin(1, 1, 0x2000, 0x01ff_0001, 0x0001_0001),
        admin(2, 0, 0, 1, 0),
    ];
    let mut rig = Rig::new(alloc, config(0, max_events)?, 8, 8, &script)?;
    match add_queue(alloc, &mut rig) {
        Ok(()) => Ok(rig),
        Err(fail) => {
            drop(rig);
            Err(fail)
        }
    }
}

// How many commands were aborted.
fn aborts(log: &[Event]) -> usize {
    log.iter()
        .filter(|event| matches!(event, Event::Abort { .. }))
        .count()
}

// Three turns that pick.
fn pick_three<R: Wait + Abort>(rt: &R, rig: &mut Rig) {
    for turn in 0..3 {
        assert_eq!(rt; rig.turn(rt), Ok(Step::Picked), "in turn {turn}");
    }
}

// With exactly as many free events as it may need, the Delete is picked.
fn begins<R: Wait + Abort>(rt: &R, alloc: Global) -> Result<(), Fail> {
    let mut rig = rig_of_512(alloc, BEFORE + ITS_OWN)?;
    pick_three(rt, &mut rig);
    assert_eq!(rt; rig.turn(rt), Ok(Step::Picked));
    let all = picks(alloc, rig.log())?;
    assert_eq!(rt; all.as_slice(), [(0, 1), (0, 1), (1, 1), (0, 1)].as_slice());
    assert_eq!(rt; aborts(rig.log()), 256);
    assert_eq!(rt; rig.log().len(), (BEFORE + ITS_OWN) as usize);
    drop(rig);
    Ok(())
}

// With one free event less nothing is picked.
fn lacks_one<R: Wait + Abort>(rt: &R, alloc: Global) -> Result<(), Fail> {
    let mut rig = rig_of_512(alloc, BEFORE + ITS_OWN - 1)?;
    pick_three(rt, &mut rig);
    assert_eq!(rt; rig.turn(rt), Err(FrontError::LogFull));
    assert_eq!(rt; (aborts(rig.log()), rig.log().len()), (0, BEFORE as usize));
    drop(rig);
    Ok(())
}

#[test]
fn delete_at_the_log_limit(rt: HostRuntime) -> Result<(), Fail> {
    begins(&rt, rt.alloc())?;
    lacks_one(&rt, rt.alloc())
}
