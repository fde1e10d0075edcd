// Hosts that submit arbitrary bytes.

use crate::again::push_again;
use crate::commands::admin;
use crate::hosted::config;
use crate::rig::Rig;
use nvme_entry::Sqe;
use nvme_front::{Event, Step};
use std::alloc::{AllocError, Global};
use std::process::Abort;
use std::sync::Wait;
use std::test::*;

// The completion of an entry whose bits are all set: Invalid Field in Command, by its FUSE.
const ALL_ONES: [u8; 16] = [0, 0, 0, 0, 0, 0, 0, 0, 1, 0, 0, 0, 0xff, 0xff, 0x05, 0];

#[test]
fn all_ones_entry(rt: HostRuntime) -> Result<(), Fail> {
    let script = [Sqe::from_bytes(&[0xff; 64])];
    let mut rig = Rig::new(rt.alloc(), config(0, 1000)?, 8, 8, &script)?;
    rig.submit_all(1);
    let played = rig.run_and_collect(&rt);
    let settled = rig.settled(&rt, rt.alloc(), played)?;
    assert_eq!(rt; settled.collected.len(), 1);
    assert_eq!(rt; settled.collected[0].len(), 1);
    assert_eq!(rt; settled.collected[0][0].to_bytes(), ALL_ONES);
    Ok(())
}

// The arbitrary entries of each ring.
const ENTRIES: usize = 10_000;
// The slots of the completion rings.
const CQ_SLOTS: u16 = 8;

// The next number of a generator: xorshift, of 64 bits.
fn next(seed: &mut u64) -> u64 {
    *seed ^= *seed << 13;
    *seed ^= *seed >> 7;
    *seed ^= *seed << 17;
    *seed
}

// An entry of arbitrary bytes.
fn arbitrary(seed: &mut u64) -> Sqe {
    let mut bytes = [0; 64];
    for byte in bytes.iter_mut() {
        *byte = (next(seed) >> 32 & 0xff) as u8;
    }
    Sqe::from_bytes(&bytes)
}

// Appends `ENTRIES` arbitrary entries, with their opcodes modulo `opcodes`.
fn push_arbitrary(all: &mut Vec<Sqe>, seed: u64, opcodes: u16) -> Result<(), AllocError> {
    let mut seed = seed;
    for _ in 0..ENTRIES {
        let mut entry = arbitrary(&mut seed);
        entry.opcode = (u16::from(entry.opcode) % opcodes) as u8;
        push_again(all, entry)?;
    }
    Ok(())
}

// How many completions rest in each ring after the first `events` events.
#[derive(Drop)]
struct Rests {
    events: usize,
    rests: [u16; 2],
}

// Counts the posts among the new events.
fn look(rests: &mut Rests, log: &[Event]) -> Result<(), Fail> {
    let Some(fresh) = log.get(rests.events..) else {
        return Err("the log lost events".into());
    };
    for event in fresh {
        if let Event::Post { cq_region, .. } = event {
            let region = usize::from(*cq_region != 0);
            rests.rests[region] = rests.rests[region].saturating_add(1);
        }
    }
    rests.events = log.len();
    Ok(())
}

// Each host whose ring is full collects.
fn collect_full(rig: &mut Rig, rests: &mut Rests) -> Result<(), Fail> {
    look(rests, rig.log())?;
    for region in 0..2 {
        if rests.rests[region] == CQ_SLOTS - 1 {
            let took = rig.collect(region, CQ_SLOTS)?;
            rests.rests[region] = rests.rests[region].saturating_sub(took);
        }
    }
    Ok(())
}

// The hosts submit, the front makes turns, a worker executes and full rings are emptied, until nothing happens for a
// hundred turns. No turn is refused.
fn drive<R: Wait>(rt: &R, rig: &mut Rig) -> Result<(), Fail> {
    let mut rests = Rests {
        events: 0,
        rests: [0, 0],
    };
    let mut quiet = 0u32;
    for turn in 0..1_000_000u32 {
        rig.submit_all(3);
        match rig.turn(rt)? {
            Step::Picked | Step::Moved => quiet = 0,
            Step::Idle | Step::Stalled => quiet = quiet.saturating_add(1),
        }
        let _executed = rig.work(rt, (turn % 2) as usize);
        collect_full(rig, &mut rests)?;
        if quiet > 100 {
            return Ok(());
        }
    }
    Err("the drive doesn't end".into())
}

// Adds the regions of an I/O queue, and drives all.
fn play_arbitrary<R: Wait + Abort>(rt: &R, alloc: Global, rig: &mut Rig) -> Result<(), Fail> {
    let mut commands = Vec::new(alloc);
    push_arbitrary(&mut commands, 0x0123_4567_89ab_cdef, 256)?;
    rig.add_sq(alloc, 0x2000, 32, commands.as_slice())?;
    rig.add_cq(alloc, 0x9000, CQ_SLOTS)?;
    drive(rt, rig)?;
    assert!(rt; rig.is_clear() && rig.is_serving(1));
    Ok(())
}

#[test]
fn arbitrary_entries(rt: HostRuntime) -> Result<(), Fail> {
    let mut script = Vec::new(rt.alloc());
    push_again(&mut script, admin(0, 5, 0x9000, 0x0007_0001, 1))?;
    push_again(&mut script, admin(1, 1, 0x2000, 0x001f_0001, 0x0001_0001))?;
    push_arbitrary(&mut script, 0xfedc_ba98_7654_3210, 12)?;
    let config = config(0x0201_0002, 1_000_000)?;
    let mut rig = Rig::new(rt.alloc(), config, 16, CQ_SLOTS, script.as_slice())?;
    let played = play_arbitrary(&rt, rt.alloc(), &mut rig);
    let settled = rig.settled(&rt, rt.alloc(), played)?;
    assert_eq!(rt; settled.sent.len(), 2);
    assert_eq!(rt; settled.sent[0].count, ENTRIES + 2);
    assert_eq!(rt; settled.sent[1].count, ENTRIES);
    assert_eq!(rt; settled.collected.len(), 2);
    assert_eq!(rt; settled.collected[0].len(), ENTRIES + 2);
    assert_eq!(rt; settled.collected[1].len(), ENTRIES);
    Ok(())
}
