// A front whose workers are slow, and results that belong to no job.

use crate::again::{add_cq_again, add_sq_again, pool_again, ring_again};
use crate::commands::{admin, get_arbitration, read};
use crate::events::{completion_of, picks, posted, status_of, was_closed};
use crate::hosted::{ADMIN_CQ, ADMIN_SQ, config};
use crate::rig::{Rig, WORKERS};
use nvme_entry::{Namespaces, Status};
use nvme_front::{Front, FrontError, Step};
use nvme_pool::{Job, Lanes, NoGate, Worked};
use std::alloc::Global;
use std::process::Abort;
use std::sync::Wait;
use std::test::*;

// The completions of the region whose queue is deleted, in the order in which they are collected.
const DELETED: [[u8; 16]; 3] = [
    [0, 0, 0, 0, 0, 0, 0, 0, 3, 0, 1, 0, 1, 0, 0x11, 0],
    [0, 0, 0, 0, 0, 0, 0, 0, 3, 0, 1, 0, 2, 0, 0x11, 0],
    [0, 0, 0, 0, 0, 0, 0, 0, 3, 0, 1, 0, 0, 0, 0, 0],
];

// A front with its admin regions gains a result that belongs to none of its jobs.
fn gain_stray<R: Wait + Abort>(
    rt: &R,
    alloc: Global,
    front: &mut Front,
    lanes: &Lanes,
) -> Result<(), Fail> {
    let (_, sq) = ring_again(alloc, ADMIN_SQ, 8)?;
    assert_eq!(rt; add_sq_again(front, sq)?, 0);
    let (cq, _) = ring_again(alloc, ADMIN_CQ, 8)?;
    assert_eq!(rt; add_cq_again(front, cq)?, 0);
    assert_eq!(rt; front.turn(rt, lanes), Err(FrontError::Stray(77)));
    assert_eq!(rt; front.turn(rt, lanes), Ok(Step::Idle));
    assert!(rt; front.log().is_empty());
    Ok(())
}

#[test]
fn stray_result(rt: HostRuntime) -> Result<(), Fail> {
    let config = config(0, 1000)?;
    let job = Job {
        ticket: 77,
        entry: read(0),
        spaces: Namespaces::new(&[1000])?,
    };
    let (lanes, mut seat, mut workers) = pool_again(rt.alloc(), WORKERS)?;
    assert!(rt; seat.hand(&rt, &lanes, job).is_ok());
    assert_eq!(rt; workers[0].step(&rt, &lanes, &mut NoGate), Worked::Did);
    let mut front = Front::new(rt.alloc(), config, seat);
    let gained = gain_stray(&rt, rt.alloc(), &mut front, &lanes);
    drop(front);
    gained
}

// The step of the next turn.
fn turn<R: Wait + Abort>(rt: &R, rig: &mut Rig, want: Step) -> Result<(), Fail> {
    let step = rig.turn(rt)?;
    assert_eq!(rt; step, want);
    Ok(())
}

// The steps of the next turns.
fn turns<R: Wait + Abort>(rt: &R, rig: &mut Rig, want: &[Step]) -> Result<(), Fail> {
    for step in want {
        turn(rt, rig, *step)?;
    }
    Ok(())
}

// Adds the regions of a queue whose completion ring has two slots, and submits its commands.
fn add_narrow(alloc: Global, rig: &mut Rig) -> Result<(), Fail> {
    rig.add_sq(alloc, 0x2000, 8, &[read(0), read(1), read(2)])?;
    rig.add_cq(alloc, 0x9000, 2)?;
    rig.submit_all(3);
    Ok(())
}

// The queue's Delete is picked while one of its commands runs. The first of the two that wait is answered.
fn begin_deletion<R: Wait + Abort>(rt: &R, rig: &mut Rig) -> Result<(), Fail> {
    turns(rt, rig, &[Step::Picked; 4])?;
    turns(rt, rig, &[Step::Moved, Step::Idle])?;
    assert_eq!(rt; status_of(rig.log(), 1, 1), Status::new(0, 0x08));
    assert_eq!(rt; rig.work(rt, 0), 1);
    turn(rt, rig, Step::Moved)
}

// A completion is collected, and its ring takes the next.
fn collect_one<R: Wait + Abort>(rt: &R, rig: &mut Rig) -> Result<(), Fail> {
    assert_eq!(rt; rig.collect(1, 1)?, 1);
    turn(rt, rig, Step::Moved)
}

// The command that ran was answered last, and the Delete after it.
fn end_deletion<R: Wait + Abort>(rt: &R, rig: &mut Rig) -> Result<(), Fail> {
    assert_eq!(rt; status_of(rig.log(), 1, 0), Status::new(0, 0));
    assert_eq!(rt;
        (was_closed(rig.log(), 1), status_of(rig.log(), 0, 2)),
        (true, None)
    );
    turns(rt, rig, &[Step::Moved, Step::Idle])?;
    assert_eq!(rt; status_of(rig.log(), 0, 2), Status::new(0, 0));
    Ok(())
}

// The deletion of a queue with three commands, of which one runs. Its completion ring holds one at a time.
fn play_narrow<R: Wait + Abort>(rt: &R, rig: &mut Rig) -> Result<(), Fail> {
    begin_deletion(rt, rig)?;
    collect_one(rt, rig)?;
    assert_eq!(rt; status_of(rig.log(), 1, 2), Status::new(0, 0x08));
    assert_eq!(rt;
        (was_closed(rig.log(), 1), status_of(rig.log(), 1, 0)),
        (false, None)
    );
    collect_one(rt, rig)?;
    end_deletion(rt, rig)
}

// The same with its regions added first.
fn add_and_play_narrow<R: Wait + Abort>(rt: &R, alloc: Global, rig: &mut Rig) -> Result<(), Fail> {
    add_narrow(alloc, rig)?;
    play_narrow(rt, rig)?;
    let all = picks(alloc, rig.log())?;
    assert_eq!(rt; all.as_slice(), [(0, 1), (0, 1), (1, 1), (0, 1)].as_slice());
    Ok(())
}

#[test]
fn deletion_step_by_step(rt: HostRuntime) -> Result<(), Fail> {
    let script = [
        admin(0, 5, 0x9000, 0x0001_0001, 1),
        admin(1, 1, 0x2000, 0x0007_0001, 0x0001_0001),
        admin(2, 0, 0, 1, 0),
    ];
    let mut rig = Rig::new(rt.alloc(), config(0, 1000)?, 16, 16, &script)?;
    let played = add_and_play_narrow(&rt, rt.alloc(), &mut rig);
    let settled = rig.settled(&rt, rt.alloc(), played)?;
    assert_eq!(rt; settled.collected.len(), 2);
    assert_eq!(rt; settled.collected[1].len(), 3);
    for (done, want) in settled.collected[1].iter().zip(DELETED.iter()) {
        assert_eq!(rt; done.to_bytes(), *want);
    }
    Ok(())
}

// Adds the regions of the queues that fill all places, and submits their commands.
fn add_wide(alloc: Global, rig: &mut Rig) -> Result<(), Fail> {
    let reads = [read(7); 255];
    rig.add_sq(alloc, 0x2000, 256, &reads)?;
    rig.add_sq(alloc, 0x3000, 256, &reads)?;
    rig.add_cq(alloc, 0x9000, 256)?;
    rig.submit_all(255);
    Ok(())
}

// All places are filled.
fn fill_all<R: Wait + Abort>(rt: &R, alloc: Global, rig: &mut Rig) -> Result<(), Fail> {
    add_wide(alloc, rig)?;
    assert_eq!(rt; (rig.work(rt, 0), rig.work(rt, 1)), (0, 0));
    rig.run_until_stalled(rt)?;
    let all = picks(alloc, rig.log())?;
    assert_eq!(rt;
        all.as_slice(),
        [(0, 1), (0, 1), (1, 255), (0, 1)].as_slice()
    );
    Ok(())
}

// All places are filled and freed.
fn play_wide<R: Wait + Abort>(rt: &R, alloc: Global, rig: &mut Rig) -> Result<(), Fail> {
    fill_all(rt, alloc, rig)?;
    // One worker executes what its ring holds and keeps nothing, and the other finds nothing.
    assert_eq!(rt; (rig.work(rt, 1), rig.work(rt, 0)), (255, 0));
    turns(rt, rig, &[Step::Picked, Step::Idle])?;
    assert_eq!(rt; posted(rig.log()), 258);
    assert!(rt; !rig.is_clear());
    rig.run_and_collect(rt)?;
    assert!(rt; rig.is_clear());
    assert_eq!(rt; posted(rig.log()), 513);
    Ok(())
}

#[test]
fn capacities(rt: HostRuntime) -> Result<(), Fail> {
    let script = [
        admin(0, 5, 0x9000, 0x00ff_0001, 1),
        admin(1, 1, 0x2000, 0x00ff_0001, 0x0001_0001),
        admin(2, 1, 0x3000, 0x00ff_0002, 0x0001_0001),
    ];
    // No limit on bursts.
    let mut rig = Rig::new(rt.alloc(), config(7, 2000)?, 16, 16, &script)?;
    let played = play_wide(&rt, rt.alloc(), &mut rig);
    let _settled = rig.settled(&rt, rt.alloc(), played)?;
    Ok(())
}

// Fills all places but one, so that an Abort waits until one more is free. All commands are picked, so the Abort finds
// none.
fn play_two_places<R: Wait + Abort>(rt: &R, alloc: Global, rig: &mut Rig) -> Result<(), Fail> {
    rig.add_sq(alloc, 0x2000, 256, &[read(7); 255])?;
    rig.add_cq(alloc, 0x9000, 2)?;
    rig.submit_all(255);
    rig.run_until_stalled(rt)?;
    let all = picks(alloc, rig.log())?;
    assert_eq!(rt; all.as_slice(), [(0, 1), (0, 1), (1, 255)].as_slice());
    turn(rt, rig, Step::Stalled)?;
    assert_eq!(rt; (rig.work(rt, 1), rig.work(rt, 0)), (255, 0));
    // The completion ring takes one, whose place is then free.
    turns(rt, rig, &[Step::Picked, Step::Moved])?;
    assert_eq!(rt; posted(rig.log()), 4);
    let answer = completion_of(rig.log(), 0, 2);
    assert_eq!(rt;
        answer.map(|cqe| (cqe.status, cqe.dw0)),
        Some((Status::SUCCESS, 1))
    );
    for _ in 0..300 {
        rig.run(rt)?;
        rig.collect_all()?;
    }
    assert!(rt; rig.is_clear());
    Ok(())
}

#[test]
fn abort_needs_two_places(rt: HostRuntime) -> Result<(), Fail> {
    let script = [
        admin(0, 5, 0x9000, 0x0001_0001, 1),
        admin(1, 1, 0x2000, 0x00ff_0001, 0x0001_0001),
        admin(2, 8, 0, 0x0007_0001, 0),
    ];
    // No limit on bursts.
    let mut rig = Rig::new(rt.alloc(), config(7, 2000)?, 16, 16, &script)?;
    let played = play_two_places(&rt, rt.alloc(), &mut rig);
    let _settled = rig.settled(&rt, rt.alloc(), played)?;
    Ok(())
}
