// A long drive: 17 regions of each kind, some 20,000 commands, and slow drainers.
use crate::again::push_again;
use crate::commands::{admin, get_arbitration, read};
use crate::events::{fetched, posted, was_closed};
use crate::hosted::config;
use crate::rig::Rig;
use nvme_entry::Sqe;
use nvme_front::{Event, Settled, Step};
use std::alloc::{AllocError, Global};
use std::process::Abort;
use std::rt::Clock;
use std::sync::Wait;
use std::test::*;
use std::time::{Duration, Instant};

// The regions of each kind. The queues of identifier `q` have the regions `q`.
const REGIONS: u8 = 17;
// The reads of each I/O submission queue.
const READS: u16 = 1200;
// The queues that are deleted at the end: 1 to 4.
const DELETED: u8 = 4;

fn cq_address(region: u8) -> u64 {
    0x9000 + 0x1000 * u64::from(region)
}

fn sq_address(region: u8) -> u64 {
    0x20_0000 + 0x1000 * u64::from(region)
}

// The admin commands: the queues are created, the settings are asked for and set, and four queues are deleted.
fn admin_script(alloc: Global) -> Result<Vec<Sqe>, AllocError> {
    let mut all = Vec::new(alloc);
    for q in 1..REGIONS {
        let (cid, qid) = (u16::from(q), u32::from(q));
        push_again(&mut all, admin(cid, 5, cq_address(q), 0x000f_0000 + qid, 1))?;
    }
    for q in 1..REGIONS {
        let (cid, qid) = (u16::from(q), u32::from(q));
        // Its completion queue, its priority, and physically contiguous.
        let cdw11 = 0x1_0000 * qid + 2 * (qid % 4) + 1;
        push_again(
            &mut all,
            admin(cid, 1, sq_address(q), 0x001f_0000 + qid, cdw11),
        )?;
    }
    for cid in 0..760 {
        let command = if cid % 7 == 0 {
            admin(cid, 9, 0, 1, 0x0201_0002)
        } else {
            get_arbitration(cid)
        };
        push_again(&mut all, command)?;
    }
    for q in 1..=DELETED {
        push_again(&mut all, admin(u16::from(q), 0, 0, u32::from(q), 0))?;
    }
    Ok(all)
}

// Reads of the first block, the next, and so on.
fn read_script(alloc: Global) -> Result<Vec<Sqe>, AllocError> {
    let mut all = Vec::new(alloc);
    for cid in 0..READS {
        let mut command = read(cid);
        command.cdw10 = u32::from(cid);
        push_again(&mut all, command)?;
    }
    Ok(all)
}

// Adds the I/O regions.
fn add_regions(alloc: Global, rig: &mut Rig) -> Result<(), Fail> {
    let reads = read_script(alloc)?;
    for region in 1..REGIONS {
        rig.add_sq(alloc, sq_address(region), 32, reads.as_slice())?;
        rig.add_cq(alloc, cq_address(region), 16)?;
    }
    Ok(())
}

// The progress of the drive: how many events were read, how many of them are posts, and the time of each hundredth.
#[derive(Drop)]
struct Marks {
    start: Instant,
    events: usize,
    posts: u32,
    times: Vec<Duration>,
}

// Counts the posts among the new events, and notes the time of each hundredth.
fn mark(clock: &impl Clock, marks: &mut Marks, log: &[Event]) -> Result<(), Fail> {
    let Some(fresh) = log.get(marks.events..) else {
        return Err("the log lost events".into());
    };
    for event in fresh {
        if let Event::Post { .. } = event {
            marks.posts = marks.posts.wrapping_add(1);
            if marks.posts % 100 == 0 {
                push_again(&mut marks.times, marks.start.elapsed(clock)?)?;
            }
        }
    }
    marks.events = log.len();
    Ok(())
}

// In each turn each host submits one command, and the front makes a turn. Every second turn the next host collects four
// completions, and in two of three turns a worker executes what is there. It ends when nothing happens for a hundred
// turns.
fn drive<R: Clock + Wait>(rt: &R, rig: &mut Rig, marks: &mut Marks) -> Result<(), Fail> {
    let mut idle = 0u32;
    for turn in 0..2_000_000u32 {
        rig.submit_all(1);
        match rig.turn(rt)? {
            Step::Picked | Step::Moved => idle = 0,
            Step::Idle => idle = idle.saturating_add(1),
            Step::Stalled => {}
        }
        let _took = rig.collect((turn / 2 % u32::from(REGIONS)) as usize, 4)?;
        let _executed = rig.work(rt, (turn % 3) as usize);
        mark(rt, marks, rig.log())?;
        if idle > 100 {
            return Ok(());
        }
    }
    Err("the drive doesn't end".into())
}

// The last thousand posts took about as long as the first.
fn check_times(rt: &impl Abort, times: &[Duration]) -> Result<(), Fail> {
    let count = times.len();
    if count < 11 {
        return Err("there are too few posts".into());
    }
    let first = times[9];
    let last = times[count - 1].saturating_sub(times[count - 11]);
    let bound = first
        .saturating_mul(10)
        .saturating_add(Duration::from_millis(50));
    assert!(rt; last <= bound, "{first:?} and then {last:?}");
    Ok(())
}

// All that was fetched was collected.
fn check_counts(rt: &impl Abort, settled: &Settled) {
    let log = settled.log.as_slice();
    let mut total = 0usize;
    for (region, items) in settled.collected.iter().enumerate() {
        let count = fetched(log, (region % 256) as u8);
        assert_eq!(rt; items.len(), count, "in region {region}");
        total = total.wrapping_add(count);
    }
    assert_eq!(rt; total, posted(log));
    assert!(rt; total > 19_000, "{total} commands");
}

// All regions are served, except those of the deleted queues.
fn check_regions(rt: &impl Abort, rig: &Rig) {
    for region in 0..REGIONS {
        let is_deleted = 1 <= region && region <= DELETED;
        assert_eq!(rt; rig.is_serving(region), !is_deleted, "at region {region}");
        assert_eq!(rt;
            was_closed(rig.log(), region),
            is_deleted,
            "at region {region}"
        );
    }
}

// The whole drive.
fn play<R: Clock + Wait + Abort>(rt: &R, alloc: Global, rig: &mut Rig) -> Result<(), Fail> {
    add_regions(alloc, rig)?;
    let mut marks = Marks {
        start: Instant::now(rt)?,
        events: 0,
        posts: 0,
        times: Vec::new(alloc),
    };
    drive(rt, rig, &mut marks)?;
    check_times(rt, marks.times.as_slice())?;
    assert!(rt; rig.is_clear());
    assert_eq!(rt; rig.hosts(), (17, 17));
    check_regions(rt, rig);
    Ok(())
}

#[test]
fn twenty_thousand_commands(rt: HostRuntime) -> Result<(), Fail> {
    let script = admin_script(rt.alloc())?;
    let config = config(0x0201_0002, 1_000_000)?;
    let mut rig = Rig::new(rt.alloc(), config, 8, 4, script.as_slice())?;
    let played = play(&rt, rt.alloc(), &mut rig);
    let settled = rig.settled(&rt, rt.alloc(), played)?;
    assert_eq!(rt; settled.collected.len(), 17);
    check_counts(&rt, &settled);
    Ok(())
}
