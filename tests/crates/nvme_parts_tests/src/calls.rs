// The calls of a controller with an admin queue pair of 8 slots, and an I/O queue pair of 4 slots that the host creates.

use nvme_admin::{AdminError, Limits, Region};
use nvme_arbiter::{Class, Mechanism, Pick, Seen, Settings};
use nvme_ctrl::{Answer, Controller, Post, Slot, StatusFlags, Step, Waiting};
use nvme_ctrl_uses::ROOM;
use nvme_entry::{Sqe, Status};
use nvme_placing::{PRP_OFFSET_INVALID, Placement};
use std::alloc::AllocError;
use std::process::Abort;
use std::test::*;

// The regions of the admin rings, and the addresses of those of the I/O queue pair and of a second submission queue.
const ASQ: Region = Region {
    address: 0x1000,
    slots: 8,
};

const ACQ: Region = Region {
    address: 0x2000,
    slots: 8,
};

const SQ: u64 = 0x3000;

const CQ: u64 = 0x4000;

const SECOND: u64 = 0x5000;

// The depth of each queue: that of all slots.
const DEPTH: u16 = 16;

// What the device answers to a command that succeeds.
const DONE: Answer = Answer {
    status: Status::SUCCESS,
    dw0: 0,
    flags: StatusFlags::NONE,
};

// Do Not Retry alone, and both flags.
const DNR: StatusFlags = StatusFlags {
    more: false,
    do_not_retry: true,
};

const BOTH: StatusFlags = StatusFlags {
    more: true,
    do_not_retry: true,
};

// An entry of an opcode, with its command identifier, PRP1 and Command Dwords 10 and 11.
fn entry(opcode: u8, cid: u16, prp1: u64, cdw10: u32, cdw11: u32) -> Sqe {
    Sqe {
        opcode,
        flags: 0,
        cid,
        nsid: 1,
        cdw2: 0,
        cdw3: 0,
        mptr: 0,
        prp1,
        prp2: 0,
        cdw10,
        cdw11,
        cdw12: 0,
        cdw13: 0,
        cdw14: 0,
        cdw15: 0,
    }
}

// Creates of completion queue 1 and of submission queue 1, of 4 slots each. (Base Specification, Create I/O Completion
// Queue, Create I/O Submission Queue)
fn create_cq(cid: u16) -> Sqe {
    entry(0x05, cid, CQ, 0x0003_0001, 1)
}

fn create_sq(cid: u16) -> Sqe {
    entry(0x01, cid, SQ, 0x0003_0001, 0x0001_0001)
}

// A read of one block, at block 0. (NVM Command Set Specification, Read)
fn read(cid: u16) -> Sqe {
    entry(0x02, cid, 0, 0, 0)
}

// The calls that write slots. Each leaves a controller a controller.
fn pick(ctrl: &mut Controller, slots: &mut [Slot], room: u16) -> Step {
    ctrl.pick(slots, room)
}

fn take(ctrl: &mut Controller, slots: &mut [Slot]) -> Option<u16> {
    ctrl.take(slots)
}

fn complete(ctrl: &mut Controller, slots: &mut [Slot], tag: u16, answer: Answer) -> bool {
    ctrl.complete(slots, tag, answer)
}

fn post_next(ctrl: &mut Controller, slots: &mut [Slot], cqid: u16) -> Option<Post> {
    ctrl.post(slots, cqid)
}

fn finish(ctrl: &mut Controller, slots: &mut [Slot]) -> Option<u16> {
    ctrl.finish(slots)
}

// The next entry of a queue is read, from the slot that the controller tells. What is kept with it is its command
// identifier.
fn fetch(
    rt: &impl Abort,
    ctrl: &mut Controller,
    slots: &mut [Slot],
    qid: u16,
    slot: u16,
    entry: &Sqe,
) {
    assert_eq!(rt; ctrl.fetch(qid), Some(slot));
    assert!(rt; ctrl.fetched(slots, qid, entry, u32::from(entry.cid)));
}

// The host writes a tail doorbell, and a head doorbell.
fn tail(rt: &impl Abort, ctrl: &mut Controller, slots: &[Slot], qid: u16, slot: u16, rung: bool) {
    assert_eq!(rt; ctrl.sq_tail(qid, slot), rung);
}

fn head(rt: &impl Abort, ctrl: &mut Controller, slots: &[Slot], cqid: u16, slot: u16, rung: bool) {
    assert_eq!(rt; ctrl.cq_head(cqid, slot), rung);
}

// A completion is posted: the slot, SQHD, the command identifier, the phase tag, the status and the flags.
fn posted(
    rt: &impl Abort,
    post: Option<Post>,
    want: (u16, u16, u16, bool),
    status: Status,
    flags: StatusFlags,
) {
    let Some(post) = post else {
        assert!(rt; false, "none is posted");
        return;
    };
    let cqe = post.cqe;
    assert_eq!(rt; (post.slot, cqe.sqhd, cqe.cid, cqe.phase), want);
    assert_eq!(rt; (cqe.status, post.flags), (status, flags));
    assert_eq!(rt; post.cookie, u32::from(cqe.cid));
}

// Adds the regions of the I/O queue pair.
fn add_regions(ctrl: &mut Controller, slots: &[Slot]) -> Result<(), AdminError> {
    ctrl.add_sq_region(SQ, 4)?;
    ctrl.add_cq_region(CQ, 4)?;
    Ok(())
}

// Adds the submission region of a second queue.
fn add_second(ctrl: &mut Controller, slots: &[Slot]) -> Result<(), AdminError> {
    ctrl.add_sq_region(SECOND, 4)?;
    Ok(())
}

// Announces Abort, so that Aborts of what the device has are the device's.
fn own_aborts(ctrl: &mut Controller, slots: &[Slot]) {
    ctrl.own_opcode(0x08);
}

// A controller with the I/O regions, whose host created both queues.
fn prepared(
    rt: &impl Abort,
    mechanism: Mechanism,
    slots: &mut [Slot],
) -> Result<Controller, AdminError> {
    let limits = Limits { nsq: 4, ncq: 4 };
    // (no limit on the burst)
    let settings = Settings::from_cdw11(7);
    let mut ctrl = Controller::new(mechanism, settings, limits, DEPTH, ASQ, ACQ, slots)?;
    add_regions(&mut ctrl, slots)?;
    tail(rt, &mut ctrl, slots, 0, 2, true);
    fetch(rt, &mut ctrl, slots, 0, 0, &create_cq(10));
    fetch(rt, &mut ctrl, slots, 0, 1, &create_sq(11));
    assert_eq!(rt; ctrl.fetch(0), None);
    step(rt, &mut ctrl, slots, true);
    step(rt, &mut ctrl, slots, true);
    post(rt, &mut ctrl, slots, 0, (0, 2, 10, true), Status::SUCCESS);
    post(rt, &mut ctrl, slots, 0, (1, 2, 11, true), Status::SUCCESS);
    assert_eq!(rt; post_next(&mut ctrl, slots, 0), None);
    head(rt, &mut ctrl, slots, 0, 3, false);
    head(rt, &mut ctrl, slots, 0, 2, true);
    Ok(ctrl)
}

// The device takes the next command, and answers that it succeeded.
fn serve_one(rt: &impl Abort, ctrl: &mut Controller, slots: &mut [Slot]) {
    let Some(tag) = take(ctrl, slots) else {
        assert!(rt; false, "nothing is picked");
        return;
    };
    assert!(rt; complete(ctrl, slots, tag, DONE));
}

// A step of arbitration.
fn step(rt: &impl Abort, ctrl: &mut Controller, slots: &mut [Slot], carries_out: bool) {
    let step = pick(ctrl, slots, ROOM);
    assert_eq!(rt; matches!(step, Step::Done(..)), carries_out);
    assert!(rt; carries_out || matches!(step, Step::Picked(_)));
}

// A completion is posted to a completion queue, as `posted` says.
fn post_flagged(
    rt: &impl Abort,
    ctrl: &mut Controller,
    slots: &mut [Slot],
    cqid: u16,
    want: (u16, u16, u16, bool),
    status: Status,
    flags: StatusFlags,
) {
    posted(rt, post_next(ctrl, slots, cqid), want, status, flags);
}

// So is one with neither mark.
fn post(
    rt: &impl Abort,
    ctrl: &mut Controller,
    slots: &mut [Slot],
    cqid: u16,
    want: (u16, u16, u16, bool),
    status: Status,
) {
    post_flagged(rt, ctrl, slots, cqid, want, status, StatusFlags::NONE);
}

// Two commands go through the rings from a slot on, with a phase tag.
fn turn(
    rt: &impl Abort,
    ctrl: &mut Controller,
    slots: &mut [Slot],
    at: u16,
    next: u16,
    phase: bool,
) {
    tail(rt, ctrl, slots, 1, next, true);
    fetch(rt, ctrl, slots, 1, at, &read(30));
    fetch(rt, ctrl, slots, 1, at + 1, &read(31));
    step(rt, ctrl, slots, false);
    serve_one(rt, ctrl, slots);
    serve_one(rt, ctrl, slots);
    post(rt, ctrl, slots, 1, (at, next, 30, phase), Status::SUCCESS);
    post(
        rt,
        ctrl,
        slots,
        1,
        (at + 1, next, 31, phase),
        Status::SUCCESS,
    );
    head(rt, ctrl, slots, 1, next, true);
}

// The host submits three reads, of command identifiers that follow one another, and they are fetched. They fill the ring
// of four slots.
fn fill(rt: &impl Abort, ctrl: &mut Controller, slots: &mut [Slot], cid: u16) {
    tail(rt, ctrl, slots, 1, 4, false);
    tail(rt, ctrl, slots, 1, 3, true);
    tail(rt, ctrl, slots, 1, 0, false);
    // (queue 1 has the next turn, whichever had the last one)
    assert_eq!(rt;
        (ctrl.next_fetch(0), ctrl.next_fetch(1)),
        (Some((1, 0)), Some((1, 0)))
    );
    fetch(rt, ctrl, slots, 1, 0, &read(cid));
    fetch(rt, ctrl, slots, 1, 1, &read(cid + 1));
    fetch(rt, ctrl, slots, 1, 2, &read(cid + 2));
}

// They are picked, and the device takes them.
fn take_three(rt: &impl Abort, ctrl: &mut Controller, slots: &mut [Slot]) -> Option<[u16; 3]> {
    assert_eq!(rt; pick(ctrl, slots, 0), Step::NoRoom);
    let step = pick(ctrl, slots, ROOM);
    assert!(rt; matches!(step, Step::Picked(Pick { qid: 1, n: 3, .. })));
    assert_eq!(rt; pick(ctrl, slots, ROOM), Step::Busy);
    let first = take(ctrl, slots)?;
    let second = take(ctrl, slots)?;
    let third = take(ctrl, slots)?;
    assert_eq!(rt; take(ctrl, slots), None);
    Some([first, second, third])
}

#[test]
fn device_answers_in_any_order(rt: HostRuntime) -> Result<(), Fail> {
    let mut slots = [Slot::free(); 16];
    let mut ctrl = prepared(&rt, Mechanism::RoundRobin, &mut slots)?;
    fill(&rt, &mut ctrl, &mut slots, 20);
    let Some(tags) = take_three(&rt, &mut ctrl, &mut slots) else {
        return Err(Fail::from(AllocError));
    };
    let [first, second, third] = tags;
    assert_eq!(rt; ctrl.next_to_post(&slots, 64), None);
    assert!(rt; complete(&mut ctrl, &mut slots, third, DONE));
    assert_eq!(rt; ctrl.next_to_post(&slots, 1), Some(1));
    // (and once)
    assert!(rt; !complete(&mut ctrl, &mut slots, third, DONE));
    assert!(rt; complete(&mut ctrl, &mut slots, first, DONE));
    let after = (0, 3, 22, true);
    post(&rt, &mut ctrl, &mut slots, 1, after, Status::SUCCESS);
    let after = (1, 3, 20, true);
    post(&rt, &mut ctrl, &mut slots, 1, after, Status::SUCCESS);
    assert_eq!(rt; post_next(&mut ctrl, &mut slots, 1), None);
    let status = Status::LBA_OUT_OF_RANGE;
    let answer = Answer {
        status,
        dw0: 9,
        flags: BOTH,
    };
    assert!(rt; complete(&mut ctrl, &mut slots, second, answer));
    let last = (2, 3, 21, true);
    post_flagged(&rt, &mut ctrl, &mut slots, 1, last, status, BOTH);
    Ok(())
}

#[test]
fn rings_go_round(rt: HostRuntime) -> Result<(), Fail> {
    let mut slots = [Slot::free(); 16];
    let mut ctrl = prepared(&rt, Mechanism::RoundRobin, &mut slots)?;
    turn(&rt, &mut ctrl, &mut slots, 0, 2, true);
    turn(&rt, &mut ctrl, &mut slots, 2, 0, true);
    turn(&rt, &mut ctrl, &mut slots, 0, 2, false);
    Ok(())
}

// Abort of command 41 of queue 1. The admin queue goes first. (Base Specification, Abort)
fn abort_one(rt: &impl Abort, ctrl: &mut Controller, slots: &mut [Slot]) {
    let abort = entry(0x08, 12, 0, 41 << 16 | 1, 0);
    tail(rt, ctrl, slots, 0, 3, true);
    fetch(rt, ctrl, slots, 0, 2, &abort);
    step(rt, ctrl, slots, true);
    post(
        rt,
        ctrl,
        slots,
        1,
        (0, 3, 41, true),
        Status::ABORT_REQUESTED,
    );
    post(rt, ctrl, slots, 0, (2, 3, 12, true), Status::SUCCESS);
}

// An Abort of command 20 of queue 1 is passed on to the device, which has that command: it ends it, and answers the Abort.
// (Base Specification, Abort)
fn abort_taken(rt: &impl Abort, ctrl: &mut Controller, slots: &mut [Slot]) {
    let abort = entry(0x08, 12, 0, 20 << 16 | 1, 0);
    tail(rt, ctrl, slots, 0, 3, true);
    fetch(rt, ctrl, slots, 0, 2, &abort);
    assert!(rt; matches!(pick(ctrl, slots, ROOM), Step::Passed(_)));
    // (of the admin queue it has no command 20)
    assert_eq!(rt; ctrl.named(slots, 0, 20), None);
    let Some(tag) = ctrl.named(slots, 1, 20) else {
        assert!(rt; false, "the device has no command 20");
        return;
    };
    let answer = Answer {
        status: Status::ABORT_REQUESTED,
        dw0: 0,
        flags: StatusFlags::NONE,
    };
    assert!(rt; complete(ctrl, slots, tag, answer));
    assert_eq!(rt; ctrl.named(slots, 1, 20), None);
    serve_one(rt, ctrl, slots);
}

#[test]
fn device_aborts_what_it_has(rt: HostRuntime) -> Result<(), Fail> {
    let mut slots = [Slot::free(); 16];
    let mut ctrl = prepared(&rt, Mechanism::RoundRobin, &mut slots)?;
    own_aborts(&mut ctrl, &slots);
    fill(&rt, &mut ctrl, &mut slots, 20);
    let tags = take_three(&rt, &mut ctrl, &mut slots);
    assert!(rt; tags.is_some());
    abort_taken(&rt, &mut ctrl, &mut slots);
    let ended = Status::ABORT_REQUESTED;
    post(&rt, &mut ctrl, &mut slots, 1, (0, 3, 20, true), ended);
    let last = (2, 3, 12, true);
    post(&rt, &mut ctrl, &mut slots, 0, last, Status::SUCCESS);
    Ok(())
}

// Delete of submission queue 1: nothing of it is fetched or picked any more. (Base Specification, Delete I/O Submission
// Queue)
fn begin_delete(rt: &impl Abort, ctrl: &mut Controller, slots: &mut [Slot]) {
    let delete = entry(0x00, 13, 0, 1, 0);
    tail(rt, ctrl, slots, 0, 4, true);
    fetch(rt, ctrl, slots, 0, 3, &delete);
    step(rt, ctrl, slots, true);
    assert_eq!(rt; pick(ctrl, slots, ROOM), Step::Idle);
    tail(rt, ctrl, slots, 1, 0, false);
    assert_eq!(rt; (ctrl.fetch(0), ctrl.fetch(1)), (None, None));
    assert_eq!(rt; finish(ctrl, slots), None);
}

#[test]
fn abort_and_deletion_end_what_waits(rt: HostRuntime) -> Result<(), Fail> {
    let mut slots = [Slot::free(); 16];
    let mut ctrl = prepared(&rt, Mechanism::Weighted, &mut slots)?;
    fill(&rt, &mut ctrl, &mut slots, 40);
    abort_one(&rt, &mut ctrl, &mut slots);
    begin_delete(&rt, &mut ctrl, &mut slots);
    let ended = Status::ABORTED_BY_DELETION;
    post(&rt, &mut ctrl, &mut slots, 1, (1, 3, 40, true), ended);
    assert_eq!(rt; finish(&mut ctrl, &mut slots), None);
    post(&rt, &mut ctrl, &mut slots, 1, (2, 3, 42, true), ended);
    assert_eq!(rt; post_next(&mut ctrl, &mut slots, 0), None);
    assert_eq!(rt; finish(&mut ctrl, &mut slots), Some(1));
    let last = (3, 4, 13, true);
    post(&rt, &mut ctrl, &mut slots, 0, last, Status::SUCCESS);
    assert_eq!(rt; pick(&mut ctrl, &mut slots, ROOM), Step::Idle);
    Ok(())
}

// The host creates submission queue 2 on its region, and deletes it and queue 1. Then it asks for the Arbitration feature,
// while both are being deleted. (Base Specification, Get Features)
fn delete_both(rt: &impl Abort, ctrl: &mut Controller, slots: &mut [Slot]) {
    tail(rt, ctrl, slots, 0, 6, true);
    fetch(
        rt,
        ctrl,
        slots,
        0,
        2,
        &entry(0x01, 12, SECOND, 0x0003_0002, 0x0001_0001),
    );
    step(rt, ctrl, slots, true);
    fetch(rt, ctrl, slots, 0, 3, &entry(0x00, 13, 0, 1, 0));
    step(rt, ctrl, slots, true);
    fetch(rt, ctrl, slots, 0, 4, &entry(0x00, 14, 0, 2, 0));
    step(rt, ctrl, slots, true);
    fetch(rt, ctrl, slots, 0, 5, &entry(0x0a, 15, 0, 1, 0));
    step(rt, ctrl, slots, true);
    post(rt, ctrl, slots, 0, (2, 6, 12, true), Status::SUCCESS);
    post(rt, ctrl, slots, 0, (3, 6, 15, true), Status::SUCCESS);
    assert_eq!(rt; post_next(ctrl, slots, 0), None);
}

// The device has a command of queue 1, so the deletion of queue 2 ends first.
#[test]
fn deletions_are_apart(rt: HostRuntime) -> Result<(), Fail> {
    let mut slots = [Slot::free(); 16];
    let mut ctrl = prepared(&rt, Mechanism::RoundRobin, &mut slots)?;
    add_second(&mut ctrl, &slots)?;
    tail(&rt, &mut ctrl, &slots, 1, 1, true);
    fetch(&rt, &mut ctrl, &mut slots, 1, 0, &read(40));
    step(&rt, &mut ctrl, &mut slots, false);
    let Some(tag) = take(&mut ctrl, &mut slots) else {
        return Err(Fail::from(AllocError));
    };
    delete_both(&rt, &mut ctrl, &mut slots);
    assert_eq!(rt; finish(&mut ctrl, &mut slots), Some(2));
    assert_eq!(rt; finish(&mut ctrl, &mut slots), None);
    let last = (4, 6, 14, true);
    post(&rt, &mut ctrl, &mut slots, 0, last, Status::SUCCESS);
    assert!(rt; complete(&mut ctrl, &mut slots, tag, DONE));
    assert_eq!(rt; finish(&mut ctrl, &mut slots), None);
    let last = (0, 1, 40, true);
    post(&rt, &mut ctrl, &mut slots, 1, last, Status::SUCCESS);
    assert_eq!(rt; finish(&mut ctrl, &mut slots), Some(1));
    let last = (5, 6, 13, true);
    post(&rt, &mut ctrl, &mut slots, 0, last, Status::SUCCESS);
    assert_eq!(rt; pick(&mut ctrl, &mut slots, ROOM), Step::Idle);
    Ok(())
}

// Queue 1, of the urgent class, has three commands that wait, of the identifiers 40 to 42.
fn three_wait(rt: &impl Abort, ctrl: &Controller, slots: &[Slot]) {
    let seen = Seen {
        qid: 1,
        class: Class::Urgent,
        count: 3,
    };
    let last = Waiting {
        entry: read(42),
        cookie: 42,
    };
    assert_eq!(rt; (ctrl.waiting(1), ctrl.seen(1)), (3, Some(seen)));
    assert_eq!(rt;
        (ctrl.waits(slots, 1, 2), ctrl.waits(slots, 1, 3)),
        (Some(last), None)
    );
    assert_eq!(rt; (ctrl.seen(2), ctrl.waits(slots, 2, 0)), (None, None));
}

#[test]
fn reset_leaves_nothing(rt: HostRuntime) -> Result<(), Fail> {
    let mut slots = [Slot::free(); 16];
    let mut ctrl = prepared(&rt, Mechanism::Weighted, &mut slots)?;
    fill(&rt, &mut ctrl, &mut slots, 40);
    three_wait(&rt, &ctrl, &slots);
    let limits = Limits { nsq: 4, ncq: 4 };
    let mechanism = Mechanism::RoundRobin;
    ctrl.reset(
        mechanism,
        Settings::from_cdw11(0),
        limits,
        DEPTH,
        ASQ,
        ACQ,
        &mut slots,
    )?;
    assert_eq!(rt; (ctrl.waiting(1), ctrl.sq_region(1)), (0, None));
    tail(&rt, &mut ctrl, &slots, 1, 1, false);
    assert_eq!(rt; pick(&mut ctrl, &mut slots, ROOM), Step::Idle);
    // (the admin queue begins at its first slot again, and the phase tag at 1)
    tail(&rt, &mut ctrl, &slots, 0, 1, true);
    fetch(&rt, &mut ctrl, &mut slots, 0, 0, &create_cq(50));
    step(&rt, &mut ctrl, &mut slots, true);
    // (no region has the address)
    let status = Status::INVALID_FIELD;
    post_flagged(&rt, &mut ctrl, &mut slots, 0, (0, 1, 50, true), status, DNR);
    Ok(())
}

// A controller whose queues may lie anywhere, for pages of 4,096 bytes, rings of at most 8 slots, and 2 vectors.
fn anywhere(slots: &mut [Slot]) -> Result<Controller, AdminError> {
    let placement = Placement {
        page: 4096,
        mqes: 7,
        vectors: 2,
    };
    Controller::anywhere(
        Mechanism::RoundRobin,
        Settings::from_cdw11(7),
        Limits { nsq: 4, ncq: 4 },
        placement,
        DEPTH,
        ASQ,
        ACQ,
        slots,
    )
}

// The host creates a queue pair, and deletes the submission queue. It creates it again in the same memory, with 2 slots,
// and then another one at no multiple of the page.
fn create_again(rt: &impl Abort, ctrl: &mut Controller, slots: &mut [Slot]) {
    tail(rt, ctrl, slots, 0, 5, true);
    fetch(rt, ctrl, slots, 0, 0, &create_cq(10));
    step(rt, ctrl, slots, true);
    fetch(rt, ctrl, slots, 0, 1, &create_sq(11));
    step(rt, ctrl, slots, true);
    fetch(rt, ctrl, slots, 0, 2, &entry(0x00, 12, 0, 1, 0));
    step(rt, ctrl, slots, true);
    assert_eq!(rt; finish(ctrl, slots), Some(1));
    let again = entry(0x01, 13, SQ, 0x0001_0001, 0x0001_0001);
    fetch(rt, ctrl, slots, 0, 3, &again);
    step(rt, ctrl, slots, true);
    let within = entry(0x01, 14, SQ + 8, 0x0001_0002, 0x0001_0001);
    fetch(rt, ctrl, slots, 0, 4, &within);
    step(rt, ctrl, slots, true);
}

#[test]
fn memory_is_used_again(rt: HostRuntime) -> Result<(), Fail> {
    let mut slots = [Slot::free(); 16];
    let mut ctrl = anywhere(&mut slots)?;
    create_again(&rt, &mut ctrl, &mut slots);
    let done = Status::SUCCESS;
    post(&rt, &mut ctrl, &mut slots, 0, (0, 5, 10, true), done);
    post(&rt, &mut ctrl, &mut slots, 0, (1, 5, 11, true), done);
    post(&rt, &mut ctrl, &mut slots, 0, (2, 5, 12, true), done);
    post(&rt, &mut ctrl, &mut slots, 0, (3, 5, 13, true), done);
    let last = (4, 5, 14, true);
    post_flagged(&rt, &mut ctrl, &mut slots, 0, last, PRP_OFFSET_INVALID, DNR);
    // (the ring of 2 slots has one entry at most, and the region is told as the identifier)
    tail(&rt, &mut ctrl, &slots, 1, 2, false);
    tail(&rt, &mut ctrl, &slots, 1, 1, true);
    fetch(&rt, &mut ctrl, &mut slots, 1, 0, &read(40));
    assert_eq!(rt; (ctrl.sq_region(1), ctrl.cq_region(1)), (Some(1), Some(1)));
    assert_eq!(rt; ctrl.sq_region(2), None);
    assert_eq!(rt; ctrl.add_sq_region(SECOND, 4), Err(AdminError::TooMany));
    Ok(())
}
