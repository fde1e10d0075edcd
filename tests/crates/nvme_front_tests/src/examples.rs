// Worked examples: a ring of two slots, and queues that are deleted.
use crate::commands::{admin, get_arbitration, read};
use crate::events::{fetched, picks, posted, status_of, was_closed, was_opened};
use crate::hosted::config;
use crate::rig::Rig;
use nvme_entry::{Sqe, Status};
use nvme_front::Settled;
use std::alloc::Global;
use std::process::Abort;
use std::sync::Wait;
use std::test::*;

// The bytes that the host of the two slots collects.
const TWO_SLOTS: [[u8; 16]; 4] = [
    [1, 0, 1, 3, 0, 0, 0, 0, 4, 0, 0, 0, 0, 0, 1, 0],
    [1, 0, 1, 3, 0, 0, 0, 0, 4, 0, 0, 0, 1, 0, 1, 0],
    [1, 0, 1, 3, 0, 0, 0, 0, 4, 0, 0, 0, 2, 0, 0, 0],
    [1, 0, 1, 3, 0, 0, 0, 0, 4, 0, 0, 0, 3, 0, 0, 0],
];

// Each host submitted and collected these numbers of entries.
fn check_counts(
    rt: &impl Abort,
    alloc: Global,
    settled: &Settled,
    sent: &[usize],
    collected: &[usize],
) -> Result<(), Fail> {
    let sent_of: Vec<usize> = settled.sent.iter().map(|sent| sent.count).collect(alloc)?;
    assert_eq!(rt; sent_of.as_slice(), sent);
    let collected_of: Vec<usize> = settled
        .collected
        .iter()
        .map(|items| items.len())
        .collect(alloc)?;
    assert_eq!(rt; collected_of.as_slice(), collected);
    Ok(())
}

// The front made these picks.
fn check_picks(rt: &impl Abort, alloc: Global, rig: &Rig, want: &[(u16, u16)]) -> Result<(), Fail> {
    let all = picks(alloc, rig.log())?;
    assert_eq!(rt; all.as_slice(), want);
    Ok(())
}

// Collects one more completion, after `taken`. The ring holds one, so it was full.
fn collect_one<R: Wait + Abort>(rt: &R, rig: &mut Rig, taken: u16) -> Result<(), Fail> {
    rig.run(rt)?;
    let is_clear = rig.is_clear();
    let more = rig.collect(0, 2)?;
    assert_eq!(rt; (is_clear, more), (taken == 3, 1), "with {taken} taken");
    Ok(())
}

// Commands are executed through a ring of two slots, whose host collects one completion after another.
fn play_two_slots<R: Wait + Abort>(rt: &R, rig: &mut Rig) -> Result<(), Fail> {
    assert!(rt; rig.is_clear());
    assert_eq!(rt; rig.submit(0, 4), 4);
    for taken in 0..4 {
        collect_one(rt, rig, taken)?;
    }
    Ok(())
}

#[test]
fn phase_wraps_in_two_slots(rt: HostRuntime) -> Result<(), Fail> {
    let script = [
        get_arbitration(0),
        get_arbitration(1),
        get_arbitration(2),
        get_arbitration(3),
    ];
    let mut rig = Rig::new(rt.alloc(), config(0x0301_0001, 1000)?, 8, 2, &script)?;
    let played = play_two_slots(&rt, &mut rig);
    let settled = rig.settled(&rt, rt.alloc(), played)?;
    assert_eq!(rt; settled.collected.len(), 1);
    assert_eq!(rt; settled.collected[0].len(), 4);
    for (done, want) in settled.collected[0].iter().zip(TWO_SLOTS.iter()) {
        assert_eq!(rt; done.to_bytes(), *want);
    }
    Ok(())
}

// Adds the regions of the examples of a deletion: region 1 with reads, and an I/O completion region. Three of the reads
// are submitted.
fn add_regions(alloc: Global, rig: &mut Rig, reads: &[Sqe]) -> Result<(), Fail> {
    rig.add_sq(alloc, 0x2000, 8, reads)?;
    rig.add_cq(alloc, 0x9000, 64)?;
    let _put = rig.submit(1, 3);
    Ok(())
}

// Makes a turn, then executes each command and collects each completion.
fn turn_and_collect<R: Wait>(rt: &R, rig: &mut Rig) -> Result<(), Fail> {
    let _step = rig.turn(rt)?;
    let _executed = rig.work_all(rt);
    rig.collect_all()?;
    Ok(())
}

// Turns and collects, and checks that region 1 is served from the creation of its queue to the end of its deletion.
fn run_watched<R: Wait + Abort>(rt: &R, rig: &mut Rig) -> Result<(), Fail> {
    for _ in 0..20 {
        turn_and_collect(rt, rig)?;
        let is_open = was_opened(rig.log(), 1) && !was_closed(rig.log(), 1);
        assert_eq!(rt; rig.is_serving(1), is_open);
    }
    assert!(rt; was_opened(rig.log(), 1) && was_closed(rig.log(), 1));
    assert!(rt; rig.is_serving(0) && !rig.is_serving(1) && !rig.is_serving(9));
    Ok(())
}

// Two of the reads of region 1 were aborted, and the other commands at these places succeeded.
fn check_statuses(rt: &impl Abort, rig: &Rig, places: &[(u8, u32)]) {
    for (region, index) in places {
        let want = if *region == 1 && *index > 0 {
            Status::new(0, 0x08)
        } else {
            Status::new(0, 0)
        };
        assert_eq!(rt;
            status_of(rig.log(), *region, *index),
            want,
            "{region}.{index}"
        );
    }
    assert_eq!(rt; posted(rig.log()), places.len());
}

// A queue with three commands is deleted.
fn play_deletion<R: Wait + Abort>(rt: &R, alloc: Global, rig: &mut Rig) -> Result<(), Fail> {
    add_regions(alloc, rig, &[read(0), read(1), read(2)])?;
    assert_eq!(rt; rig.submit(0, 3), 3);
    run_watched(rt, rig)?;
    assert!(rt; rig.is_clear());
    check_picks(rt, alloc, rig, &[(0, 1), (0, 1), (1, 1), (0, 1)])?;
    check_statuses(rt, rig, &[(0, 0), (0, 1), (0, 2), (1, 0), (1, 1), (1, 2)]);
    Ok(())
}

#[test]
fn delete_with_three_waiting(rt: HostRuntime) -> Result<(), Fail> {
    let script = [
        admin(0, 5, 0x9000, 0x003f_0001, 1),
        admin(1, 1, 0x2000, 0x0007_0001, 0x0001_0001),
        admin(2, 0, 0, 1, 0),
    ];
    // Bursts of one.
    let mut rig = Rig::new(rt.alloc(), config(0, 1000)?, 8, 8, &script)?;
    let played = play_deletion(&rt, rt.alloc(), &mut rig);
    let settled = rig.settled(&rt, rt.alloc(), played)?;
    check_counts(&rt, rt.alloc(), &settled, &[3, 3], &[3, 3])
}

// Adds the regions of a queue that is created again on region 2. A fifth admin command and a fourth read of region 1
// aren't submitted yet.
fn add_anew(alloc: Global, rig: &mut Rig) -> Result<(), Fail> {
    add_regions(alloc, rig, &[read(0), read(1), read(2), read(3)])?;
    rig.add_sq(alloc, 0x3000, 8, &[read(0), read(1)])?;
    let _put = rig.submit(0, 4);
    let _put = rig.submit(2, 2);
    Ok(())
}

// A queue is deleted and created again.
fn play_anew<R: Wait + Abort>(rt: &R, alloc: Global, rig: &mut Rig) -> Result<(), Fail> {
    add_anew(alloc, rig)?;
    run_watched(rt, rig)?;
    let want = [(0, 1), (0, 1), (1, 1), (0, 1), (0, 1), (1, 1), (1, 1)];
    check_picks(rt, alloc, rig, &want)?;
    // The queue of region 1 is closed now, and no other queue can have the region.
    assert_eq!(rt; rig.submit(1, 1), 1);
    assert_eq!(rt; rig.submit(0, 1), 1);
    run_watched(rt, rig)?;
    assert!(rt; rig.is_serving(2));
    assert_eq!(rt; status_of(rig.log(), 0, 4), Status::new(0, 0x02));
    Ok(())
}

#[test]
fn queue_created_anew(rt: HostRuntime) -> Result<(), Fail> {
    let script = [
        admin(0, 5, 0x9000, 0x003f_0001, 1),
        admin(1, 1, 0x2000, 0x0007_0001, 0x0001_0001),
        admin(2, 0, 0, 1, 0),
        admin(3, 1, 0x3000, 0x0007_0001, 0x0001_0001),
        admin(4, 1, 0x2000, 0x0007_0002, 0x0001_0001),
    ];
    // Bursts of one.
    let mut rig = Rig::new(rt.alloc(), config(0, 1000)?, 8, 8, &script)?;
    let played = play_anew(&rt, rt.alloc(), &mut rig);
    let settled = rig.settled(&rt, rt.alloc(), played)?;
    assert_eq!(rt; fetched(settled.log.as_slice(), 1), 3);
    check_counts(&rt, rt.alloc(), &settled, &[5, 4, 2], &[5, 5])
}
