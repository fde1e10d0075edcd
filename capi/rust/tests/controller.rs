// SPDX-License-Identifier: MIT
//! A controller: each call, and each refusal. Values are the specification's.
use nvmearb::admin_opcode::{ABORT, CREATE_CQ, CREATE_SQ, DELETE_SQ, GET_FEATURES, SET_FEATURES};
use nvmearb::{boxed_slots, Slot, Step, Tag, Verdict, MAX_DEPTH, MAX_REGIONS, MAX_SLOTS, NO_LIMIT};
use nvmearb::{
    feature, io_opcode, Config, Cqe, DoorbellError, Error, Mechanism, Pick, Priority, Region, Seen, Sqe, Status, StatusFlags,
};

type Controller = nvmearb::Controller<Box<[Slot]>>;

const ASQ: u64 = 0x1000;
const ACQ: u64 = 0x2000;
const SQ: u64 = 0x3000;
const CQ: u64 = 0x4000;
const SLOTS: usize = 16;
/// The opcode of Identify, and the feature identifier of Asynchronous Event Configuration.
const IDENTIFY: u8 = 0x06;
const EVENTS: u8 = 0x0b;

/// Admin queues of 8 slots, at most 4 I/O queues of a kind, no limit on the burst, depths of all slots.
fn config(mechanism: Mechanism) -> Config {
    let (asq, acq) = (Region { address: ASQ, slots: 8 }, Region { address: ACQ, slots: 8 });
    Config { asq, acq, mechanism, cdw11: 7, nsq: 4, ncq: 4, depth: 16, admin_depth: 16 }
}

/// The entry of an opcode and a command identifier is read from a slot of a queue. Its cookie is 1000 and the
/// identifier.
fn fetched(ctrl: &mut Controller, qid: u16, slot: u16, entry: Sqe) {
    assert_eq!(ctrl.fetch(qid), Some(slot));
    assert_eq!(ctrl.fetched(qid, &entry.to_bytes(), 1000 + u32::from(entry.cid)), Ok(()));
}

fn admin(opcode: u8, cid: u16, prp1: u64, cdw10: u32, cdw11: u32) -> Sqe {
    Sqe { opcode, cid, prp1, cdw10, cdw11, ..Sqe::default() }
}

fn read(cid: u16) -> Sqe {
    Sqe { opcode: io_opcode::READ, cid, nsid: 1, ..Sqe::default() }
}

/// A command of the admin queue is carried out.
fn carried_out(ctrl: &mut Controller) -> Verdict {
    match ctrl.pick(NO_LIMIT) {
        Ok(Step::CarriedOut(answer, _)) => answer.verdict,
        other => panic!("{other:?}"),
    }
}

/// So many commands of queue 1 are picked.
fn picked(ctrl: &mut Controller, n: u16) {
    let pick = Pick { qid: 1, n, fresh: false };
    assert_eq!(ctrl.peek(), Some(pick));
    assert_eq!(ctrl.pick(NO_LIMIT), Ok(Step::Picked(pick)));
}

/// The device takes a command. The answer is its tag.
fn taken_entry(ctrl: &mut Controller, entry: Sqe) -> Tag {
    let command = ctrl.take().expect("a command was picked");
    assert_eq!((command.entry, command.cookie), (entry, 1000 + u32::from(entry.cid)));
    assert_eq!(ctrl.command(command.tag), Some(command));
    command.tag
}

/// The device takes the Read of a command identifier.
fn taken(ctrl: &mut Controller, cid: u16) -> Tag {
    taken_entry(ctrl, read(cid))
}

/// A command of the admin queue is passed on to the device, which takes it.
fn passed_on(ctrl: &mut Controller, entry: Sqe) -> Tag {
    assert_eq!(ctrl.pick(NO_LIMIT), Ok(Step::Passed(Pick { qid: 0, n: 1, fresh: false })));
    assert_eq!(ctrl.pick(NO_LIMIT), Ok(Step::Busy));
    taken_entry(ctrl, entry)
}

/// A completion is posted to a completion queue: its slot, SQHD, command identifier, phase tag, status and Dword 0. It has
/// neither flag.
fn posted(ctrl: &mut Controller, cqid: u16, want: (u16, u16, u16, bool, Status, u32)) {
    posted_with(ctrl, cqid, want, StatusFlags::default());
}

/// So with its flags, which are bits 31 and 30 of Dword 3.
fn posted_with(ctrl: &mut Controller, cqid: u16, want: (u16, u16, u16, bool, Status, u32), flags: StatusFlags) {
    let post = ctrl.post(cqid).expect("a completion is ready");
    let top = post.bytes[15];
    assert_eq!((top >> 7 & 1 == 1, top >> 6 & 1 == 1), (flags.do_not_retry, flags.more));
    assert_eq!(post.flags(), flags);
    let (cqe, decoded) = Cqe::from_flagged(&post.bytes).unwrap();
    assert_eq!(decoded, flags);
    assert_eq!((post.slot, cqe.sqhd, cqe.cid, cqe.phase, cqe.status, cqe.dw0), want);
    assert_eq!((cqe.sqid, post.cookie), (cqid, 1000 + u32::from(cqe.cid)));
}

/// A controller whose host created both queues 1, of 4 slots.
fn prepared(mechanism: Mechanism) -> Controller {
    let mut ctrl = Controller::new(&config(mechanism), boxed_slots(SLOTS)).unwrap();
    create_queues(&mut ctrl);
    ctrl
}

/// The host of a new controller creates both.
fn create_queues(ctrl: &mut Controller) {
    assert_eq!((ctrl.add_sq_region(SQ, 4), ctrl.add_cq_region(CQ, 4)), (Ok(1), Ok(1)));
    assert_eq!(ctrl.sq_tail(0, 2), Ok(()));
    fetched(ctrl, 0, 0, admin(CREATE_CQ, 10, CQ, 0x0003_0001, 0x0000_0001));
    fetched(ctrl, 0, 1, admin(CREATE_SQ, 11, SQ, 0x0003_0001, 0x0001_0001));
    assert_eq!(ctrl.fetch(0), None);
    assert_eq!(carried_out(ctrl), Verdict::OpenCq { qid: 1, region: 1 });
    assert!(matches!(carried_out(ctrl), Verdict::OpenSq { qid: 1, region: 1, cqid: 1, .. }));
    assert_eq!((ctrl.pick(NO_LIMIT), ctrl.peek()), (Ok(Step::Idle), None));
    posted(ctrl, 0, (0, 2, 10, true, Status::SUCCESS, 0));
    posted(ctrl, 0, (1, 2, 11, true, Status::SUCCESS, 0));
    assert_eq!(ctrl.post(0), None);
    assert_eq!((ctrl.cq_head(0, 3), ctrl.cq_head(0, 2)), (Err(DoorbellError::Value), Ok(())));
}

#[test]
fn configurations_are_refused() {
    let with = |change: fn(&mut Config), slots| {
        let mut it = config(Mechanism::RoundRobin);
        change(&mut it);
        Controller::new(&it, boxed_slots(slots)).map(|_| ())
    };
    assert_eq!((with(|_| (), 0), with(|_| (), MAX_SLOTS + 1)), (Err(Error::Argument), Err(Error::Argument)));
    let bad: [fn(&mut Config); 8] = [
        |it| (it.nsq, it.asq.slots) = (0, 1),
        |it| it.nsq = 65,
        |it| it.ncq = 0,
        |it| it.ncq = 65,
        |it| it.depth = 0,
        |it| it.depth = 4096,
        |it| it.admin_depth = 0,
        |it| it.admin_depth = 4096,
    ];
    for change in bad {
        assert_eq!(with(change, SLOTS), Err(Error::Argument));
    }
    assert_eq!(with(|it| (it.asq.slots, it.acq.address) = (1, ASQ), SLOTS), Err(Error::Size));
    assert_eq!(with(|it| (it.acq.slots, it.acq.address) = (1, ASQ), SLOTS), Err(Error::Used));
    assert_eq!(with(|it| it.acq.slots = 4097, SLOTS), Err(Error::Size));
    assert_eq!(with(|it| (it.asq.slots, it.acq.slots) = (4096, 2), 1), Ok(()));
    assert_eq!(with(|it| (it.depth, it.admin_depth) = (MAX_DEPTH, MAX_DEPTH), SLOTS), Ok(()));
    assert_eq!(with(|it| (it.nsq, it.ncq) = (64, 64), MAX_SLOTS), Ok(()));
}

#[test]
fn regions_are_refused() {
    let mut ctrl = Controller::new(&config(Mechanism::Weighted), boxed_slots(SLOTS)).unwrap();
    assert_eq!((ctrl.add_sq_region(ACQ, 4), ctrl.add_cq_region(ASQ, 1)), (Err(Error::Used), Err(Error::Used)));
    assert_eq!((ctrl.add_sq_region(SQ, 1), ctrl.add_cq_region(CQ, 4097)), (Err(Error::Size), Err(Error::Size)));
    for k in 1..MAX_REGIONS as u16 {
        assert_eq!(ctrl.add_sq_region(0x1_0000 * u64::from(k), 4096), Ok(k));
    }
    assert_eq!(ctrl.add_sq_region(SQ, 4), Err(Error::TooMany));
    assert_eq!((ctrl.add_cq_region(0x1_0000, 4), ctrl.add_cq_region(CQ, 2)), (Err(Error::Used), Ok(1)));
}

#[test]
fn commands_go_through_and_rings_go_round() {
    let mut ctrl = prepared(Mechanism::RoundRobin);
    assert_eq!((ctrl.sq(1), ctrl.cq(1), ctrl.sq(2), ctrl.cq(2)), (Some(1), Some(1), None, None));
    // three commands fill a ring of four slots
    assert_eq!((ctrl.sq_tail(2, 1), ctrl.sq_tail(1, 4)), (Err(DoorbellError::Register), Err(DoorbellError::Value)));
    assert_eq!((ctrl.sq_tail(1, 3), ctrl.sq_tail(1, 0)), (Ok(()), Err(DoorbellError::Value)));
    assert_eq!((ctrl.cq_head(2, 0), ctrl.cq_head(1, 1)), (Err(DoorbellError::Register), Err(DoorbellError::Value)));
    for (slot, cid) in [(0, 20), (1, 21), (2, 22)] {
        assert_eq!((ctrl.waiting(1), ctrl.waiting(2)), (Some(slot), None));
        fetched(&mut ctrl, 1, slot, read(cid));
    }
    assert_eq!((ctrl.fetch(1), ctrl.fetched(1, &[0; 64], 0)), (None, Err(Error::Missing)));
    assert_eq!(ctrl.take(), None);
    picked(&mut ctrl, 3);
    assert_eq!(ctrl.pick(NO_LIMIT), Ok(Step::Busy));
    let tags = [20, 21, 22].map(|cid| taken(&mut ctrl, cid));
    assert_eq!((ctrl.take(), ctrl.pick(NO_LIMIT)), (None, Ok(Step::Idle)));
    // the device answers in another order
    assert_eq!(ctrl.complete(tags[2], Status::SUCCESS, 0), Ok(()));
    assert_eq!(ctrl.complete(tags[2], Status::SUCCESS, 0), Err(Error::Missing));
    assert_eq!(ctrl.complete(Tag::from(SLOTS as u32), Status::SUCCESS, 0), Err(Error::Missing));
    assert_eq!(ctrl.command(tags[2]), None);
    assert_eq!(ctrl.complete(tags[0], Status::SUCCESS, 5), Ok(()));
    let flags = StatusFlags { more: true, do_not_retry: true };
    assert_eq!(ctrl.complete_with(tags[1], Status::LBA_OUT_OF_RANGE, 9, flags), Ok(()));
    assert_eq!(ctrl.complete_with(tags[1], Status::LBA_OUT_OF_RANGE, 9, flags), Err(Error::Missing));
    posted(&mut ctrl, 1, (0, 3, 22, true, Status::SUCCESS, 0));
    posted(&mut ctrl, 1, (1, 3, 20, true, Status::SUCCESS, 5));
    posted_with(&mut ctrl, 1, (2, 3, 21, true, Status::LBA_OUT_OF_RANGE, 9), flags);
    assert_eq!((ctrl.post(1), ctrl.post(64), ctrl.post(65)), (None, None, None));
    // slots 3, 0, 1, 2 of both rings: the phase tag is inverted, and three completions fill the queue
    assert_eq!(ctrl.cq_head(1, 3), Ok(()));
    for (slot, next, phase) in [(3, 0, true), (0, 1, false), (1, 2, false), (2, 3, false)] {
        assert_eq!(ctrl.sq_tail(1, next), Ok(()));
        fetched(&mut ctrl, 1, slot, read(next));
        picked(&mut ctrl, 1);
        let tag = taken(&mut ctrl, next);
        assert_eq!(ctrl.complete(tag, Status::SUCCESS, 0), Ok(()));
        if slot == 2 {
            assert_eq!((ctrl.post(1), ctrl.cq_head(1, 0)), (None, Ok(())));
        }
        posted(&mut ctrl, 1, (slot, next, next, phase, Status::SUCCESS, 0));
    }
}

#[test]
fn abort_takes_a_waiting_command() {
    let mut ctrl = prepared(Mechanism::Weighted);
    assert_eq!(ctrl.sq_tail(1, 3), Ok(()));
    fetched(&mut ctrl, 1, 0, read(40));
    picked(&mut ctrl, 1);
    taken(&mut ctrl, 40);
    fetched(&mut ctrl, 1, 1, read(41));
    fetched(&mut ctrl, 1, 2, read(42));
    assert_eq!(ctrl.sq_tail(0, 3), Ok(()));
    fetched(&mut ctrl, 0, 2, admin(ABORT, 12, 0, 42 << 16 | 1, 0));
    assert_eq!(carried_out(&mut ctrl), Verdict::Abort { sqid: 1, cid: 42 });
    posted(&mut ctrl, 1, (0, 3, 42, true, Status::ABORT_REQUESTED, 0));
    posted(&mut ctrl, 0, (2, 3, 12, true, Status::SUCCESS, 0));
}

#[test]
fn abort_of_what_is_out_is_the_devices() {
    let mut ctrl = prepared(Mechanism::Weighted);
    ctrl.own_opcode(ABORT);
    assert_eq!(ctrl.sq_tail(1, 2), Ok(()));
    fetched(&mut ctrl, 1, 0, read(40));
    assert_eq!(ctrl.named(1, 40), None);
    picked(&mut ctrl, 1);
    let tag = taken(&mut ctrl, 40);
    fetched(&mut ctrl, 1, 1, read(41));
    assert_eq!((ctrl.named(1, 40), ctrl.named(1, 41), ctrl.named(2, 40)), (Some(tag), None, None));
    assert_eq!(ctrl.sq_tail(0, 4), Ok(()));
    fetched(&mut ctrl, 0, 2, admin(ABORT, 12, 0, 41 << 16 | 1, 0));
    fetched(&mut ctrl, 0, 3, admin(ABORT, 13, 0, 40 << 16 | 1, 0));
    assert_eq!(carried_out(&mut ctrl), Verdict::Abort { sqid: 1, cid: 41 });
    let abort = passed_on(&mut ctrl, admin(ABORT, 13, 0, 40 << 16 | 1, 0));
    assert_eq!((ctrl.named(0, 13), ctrl.complete(tag, Status::ABORT_REQUESTED, 0)), (Some(abort), Ok(())));
    assert_eq!((ctrl.named(1, 40), ctrl.complete(abort, Status::SUCCESS, 0)), (None, Ok(())));
    posted(&mut ctrl, 1, (0, 2, 41, true, Status::ABORT_REQUESTED, 0));
    posted(&mut ctrl, 1, (1, 2, 40, true, Status::ABORT_REQUESTED, 0));
    posted(&mut ctrl, 0, (2, 4, 12, true, Status::SUCCESS, 0));
    posted(&mut ctrl, 0, (3, 4, 13, true, Status::SUCCESS, 0));
}

#[test]
fn held_queue_waits_and_classes_are_set() {
    let mut ctrl = prepared(Mechanism::Weighted);
    assert_eq!((ctrl.hold(2, true), ctrl.set_class(0, Priority::Low)), (Err(Error::Missing), Err(Error::Missing)));
    assert_eq!(ctrl.set_class(1, Priority::Admin), Err(Error::Argument));
    assert_eq!(ctrl.sq_tail(1, 1), Ok(()));
    fetched(&mut ctrl, 1, 0, read(40));
    assert_eq!(ctrl.seen(1), Some(Seen { qid: 1, priority: Priority::Urgent, count: 1 }));
    assert_eq!((ctrl.hold(1, true), ctrl.pick(NO_LIMIT), ctrl.waiting(1)), (Ok(()), Ok(Step::Idle), Some(1)));
    assert_eq!((ctrl.waits(1, 0), ctrl.waits(1, 1), ctrl.waits(2, 0)), (Some((read(40), 1040)), None, None));
    assert_eq!((ctrl.hold(1, false), ctrl.set_class(1, Priority::Low)), (Ok(()), Ok(())));
    assert_eq!(ctrl.seen(1), Some(Seen { qid: 1, priority: Priority::Low, count: 1 }));
    assert_eq!((ctrl.seen(0).map(|it| it.priority), ctrl.seen(2)), (Some(Priority::Admin), None));
    assert_eq!(ctrl.peek().map(|pick| (pick.qid, pick.n)), Some((1, 1)));
    assert_eq!(ctrl.verify(), Ok(()));
}

#[test]
fn deletion_waits_for_its_commands() {
    let mut ctrl = prepared(Mechanism::Weighted);
    assert_eq!(ctrl.sq_tail(1, 2), Ok(()));
    fetched(&mut ctrl, 1, 0, read(40));
    picked(&mut ctrl, 1);
    let tag = taken(&mut ctrl, 40);
    fetched(&mut ctrl, 1, 1, read(41));
    assert_eq!(ctrl.sq_tail(0, 3), Ok(()));
    fetched(&mut ctrl, 0, 2, admin(DELETE_SQ, 13, 0, 1, 0));
    assert_eq!(ctrl.finish(), None);
    assert_eq!(carried_out(&mut ctrl), Verdict::BeginDelete { qid: 1 });
    assert_eq!((ctrl.pick(NO_LIMIT), ctrl.sq_tail(1, 0)), (Ok(Step::Idle), Err(DoorbellError::Register)));
    assert_eq!((ctrl.fetch(0), ctrl.fetch(1), ctrl.sq(1), ctrl.waiting(1)), (None, None, None, None));
    posted(&mut ctrl, 1, (0, 2, 41, true, Status::ABORTED_BY_DELETION, 0));
    assert_eq!((ctrl.finish(), ctrl.complete(tag, Status::SUCCESS, 0), ctrl.finish()), (None, Ok(()), None));
    posted(&mut ctrl, 1, (1, 2, 40, true, Status::SUCCESS, 0));
    assert_eq!((ctrl.post(0), ctrl.finish()), (None, Some(1)));
    posted(&mut ctrl, 0, (2, 3, 13, true, Status::SUCCESS, 0));
    assert_eq!(ctrl.finish(), None);
}

/// A controller with three submission queues. Queues 1 and 3 post to completion queue 1, and 2 to 2.
fn with_three_queues() -> Controller {
    let mut ctrl = prepared(Mechanism::Weighted);
    assert_eq!((ctrl.add_sq_region(0x5000, 4), ctrl.add_sq_region(0x6000, 4)), (Ok(2), Ok(3)));
    assert_eq!((ctrl.add_cq_region(0x7000, 4), ctrl.sq_tail(0, 5)), (Ok(2), Ok(())));
    fetched(&mut ctrl, 0, 2, admin(CREATE_CQ, 12, 0x7000, 0x0003_0002, 0x0000_0001));
    fetched(&mut ctrl, 0, 3, admin(CREATE_SQ, 13, 0x5000, 0x0003_0002, 0x0002_0001));
    fetched(&mut ctrl, 0, 4, admin(CREATE_SQ, 14, 0x6000, 0x0003_0003, 0x0001_0001));
    for cid in 12..15 {
        assert_ne!(carried_out(&mut ctrl), Verdict::Done);
        posted(&mut ctrl, 0, (cid - 10, 5, cid, true, Status::SUCCESS, 0));
    }
    assert_eq!(ctrl.cq_head(0, 5), Ok(()));
    ctrl
}

/// So with two Reads of queue 1, two of queue 2 and one of queue 3, which are fetched in turn. The device ended them.
fn with_five_served() -> Controller {
    let mut ctrl = with_three_queues();
    for (qid, tail) in [(1, 2), (2, 2), (3, 1)] {
        assert_eq!(ctrl.sq_tail(qid, tail), Ok(()));
    }
    assert_eq!(ctrl.to_fetch().collect::<Vec<_>>(), [(1, 0), (2, 0), (3, 0)]);
    let mut last = 64;
    for (cid, (qid, slot)) in (20..).zip([(1, 0), (2, 0), (3, 0), (1, 1), (2, 1)]) {
        assert_eq!(ctrl.next_fetch(last), Some((qid, slot)));
        fetched(&mut ctrl, qid, slot, read(cid));
        last = qid;
    }
    assert_eq!((ctrl.next_fetch(last), ctrl.to_fetch().next()), (None, None));
    while ctrl.pick(NO_LIMIT).unwrap().made().is_some() {
        while let Some(command) = ctrl.take() {
            assert_eq!(ctrl.complete(command.tag, Status::SUCCESS, 0), Ok(()));
        }
    }
    ctrl
}

#[test]
fn queues_take_turns() {
    let mut ctrl = with_five_served();
    let mut last = 64;
    for (cqid, slot) in [(1, 0), (2, 0), (1, 1), (2, 1), (1, 2)] {
        assert_eq!(ctrl.next_to_post(last), Some(cqid));
        assert_eq!(ctrl.post(cqid).map(|post| post.slot), Some(slot));
        last = cqid;
    }
    for last in [0, 1, 2, 64, 65, u16::MAX] {
        assert_eq!((ctrl.next_fetch(last), ctrl.next_to_post(last)), (None, None));
    }
}

#[test]
fn completions_of_one_queue_come_together() {
    let mut ctrl = with_five_served();
    let posts: Vec<_> = ctrl.posts().map(|(cqid, post)| (cqid, post.slot)).collect();
    assert_eq!(posts, [(1, 0), (1, 1), (1, 2), (2, 0), (2, 1)]);
    assert_eq!(ctrl.next_to_post(64), None);
}

#[test]
fn deleted_queue_has_no_turn() {
    let mut ctrl = with_three_queues();
    assert_eq!((ctrl.sq_tail(2, 2), ctrl.sq_tail(3, 1), ctrl.sq_tail(0, 6)), (Ok(()), Ok(()), Ok(())));
    fetched(&mut ctrl, 2, 0, read(30));
    assert_eq!((ctrl.next_fetch(1), ctrl.next_fetch(2)), (Some((2, 1)), Some((3, 0))));
    fetched(&mut ctrl, 0, 5, admin(DELETE_SQ, 15, 0, 2, 0));
    assert_eq!(carried_out(&mut ctrl), Verdict::BeginDelete { qid: 2 });
    assert_eq!((ctrl.next_fetch(1), ctrl.next_fetch(3)), (Some((3, 0)), Some((3, 0))));
    assert_eq!(ctrl.posts().map(|(cqid, _)| cqid).collect::<Vec<_>>(), [2]);
    assert_eq!((ctrl.next_to_post(2), ctrl.finish(), ctrl.next_to_post(2)), (None, Some(2), Some(0)));
}

#[test]
fn reset_leaves_nothing_of_before() {
    let mut ctrl = prepared(Mechanism::Weighted);
    let mut refused = config(Mechanism::Weighted);
    refused.depth = 0;
    assert_eq!((ctrl.reset(&refused), ctrl.sq(1)), (Err(Error::Argument), Some(1)));
    assert_eq!(ctrl.reset(&config(Mechanism::RoundRobin)), Ok(()));
    assert_eq!((ctrl.sq(1), ctrl.cq(1), ctrl.fetch(0), ctrl.post(0)), (None, None, None, None));
    assert_eq!(ctrl.sq_tail(0, 1), Ok(()));
    fetched(&mut ctrl, 0, 0, admin(GET_FEATURES, 1, 0, feature::ARBITRATION.into(), 0));
    assert_eq!(carried_out(&mut ctrl), Verdict::Done);
    posted(&mut ctrl, 0, (0, 1, 1, true, Status::SUCCESS, 7));
}

/// The nth Read of queue 1 is taken.
fn taken_as(ctrl: &mut Controller, n: u16) -> Tag {
    assert_eq!(ctrl.sq_tail(1, (n + 1) % 4), Ok(()));
    fetched(ctrl, 1, n % 4, read(n));
    picked(ctrl, 1);
    taken(ctrl, n)
}

/// Reads of queue 1 go through, until one is taken into this slot.
fn taken_into(ctrl: &mut Controller, slot: u16) -> Tag {
    for n in 0..=SLOTS as u16 {
        let tag = taken_as(ctrl, n);
        if tag.slot() == slot {
            return tag;
        }
        assert_eq!(ctrl.complete(tag, Status::SUCCESS, 0), Ok(()));
        assert_eq!(ctrl.post(1).map(|post| (post.slot, post.tag)), Some((n % 4, tag)));
        assert_eq!(ctrl.cq_head(1, (n + 1) % 4), Ok(()));
    }
    panic!("slot {slot} isn't used again");
}

#[test]
fn tags_are_used_up() {
    let mut ctrl = prepared(Mechanism::RoundRobin);
    let first = taken_into(&mut ctrl, 7);
    assert_eq!((first.number(), first, ctrl.named(1, 5)), (0x1_0007, Tag::from(0x1_0007), Some(first)));
    // a reset: its command is gone, and the next one in its slot has another tag
    assert_eq!(ctrl.reset(&config(Mechanism::RoundRobin)), Ok(()));
    assert_eq!((ctrl.command(first), ctrl.complete(first, Status::SUCCESS, 0)), (None, Err(Error::Missing)));
    create_queues(&mut ctrl);
    let second = taken_into(&mut ctrl, 7);
    assert_eq!((second.number(), ctrl.command(first)), (0x2_0007, None));
    assert_eq!(ctrl.complete(first, Status::SUCCESS, 0), Err(Error::Missing));
    assert_eq!(ctrl.complete_with(first, Status::SUCCESS, 0, StatusFlags::DO_NOT_RETRY), Err(Error::Missing));
    assert_eq!((ctrl.complete(second, Status::SUCCESS, 0), ctrl.post(1).map(|it| it.tag)), (Ok(()), Some(second)));
}

#[test]
fn announced_opcodes_are_the_devices() {
    let mut ctrl = prepared(Mechanism::RoundRobin);
    let identify = |cid| admin(IDENTIFY, cid, 0x5000, 1, 0);
    assert_eq!(ctrl.sq_tail(0, 3), Ok(()));
    fetched(&mut ctrl, 0, 2, identify(12));
    assert_eq!(carried_out(&mut ctrl), Verdict::Done); // it isn't announced yet
    posted_with(&mut ctrl, 0, (2, 3, 12, true, Status::INVALID_OPCODE, 0), StatusFlags::DO_NOT_RETRY);
    [IDENTIFY, CREATE_CQ].into_iter().for_each(|opcode| ctrl.own_opcode(opcode));
    assert_eq!((ctrl.add_cq_region(0x6000, 4), ctrl.sq_tail(0, 7)), (Ok(2), Ok(())));
    fetched(&mut ctrl, 0, 3, identify(13));
    fetched(&mut ctrl, 0, 4, identify(14));
    fetched(&mut ctrl, 0, 5, Sqe { flags: 1, ..identify(15) }); // fused
    fetched(&mut ctrl, 0, 6, admin(CREATE_CQ, 16, 0x6000, 0x0003_0002, 0x0000_0001));
    let first = passed_on(&mut ctrl, identify(13));
    let second = passed_on(&mut ctrl, identify(14));
    assert_eq!(carried_out(&mut ctrl), Verdict::Done);
    assert_eq!(carried_out(&mut ctrl), Verdict::OpenCq { qid: 2, region: 2 });
    // the device answers in another order
    assert_eq!(ctrl.complete(second, Status::SUCCESS, 9), Ok(()));
    assert_eq!(ctrl.complete_with(first, Status::INVALID_NAMESPACE, 5, StatusFlags::DO_NOT_RETRY), Ok(()));
    assert_eq!(ctrl.complete(first, Status::SUCCESS, 0), Err(Error::Missing));
    posted_with(&mut ctrl, 0, (3, 7, 15, true, Status::INVALID_FIELD, 0), StatusFlags::DO_NOT_RETRY);
    posted(&mut ctrl, 0, (4, 7, 16, true, Status::SUCCESS, 0));
    posted(&mut ctrl, 0, (5, 7, 14, true, Status::SUCCESS, 9));
    posted_with(&mut ctrl, 0, (6, 7, 13, true, Status::INVALID_NAMESPACE, 5), StatusFlags::DO_NOT_RETRY);
}

#[test]
fn announced_features_are_the_devices_and_a_reset_forgets_them() {
    let mut ctrl = prepared(Mechanism::RoundRobin);
    let default_arbitration = admin(GET_FEATURES, 13, 0, 0x100 + u32::from(feature::ARBITRATION), 0);
    for fid in [feature::ARBITRATION, feature::NUMBER_OF_QUEUES, EVENTS] {
        ctrl.own_feature(fid);
    }
    assert_eq!(ctrl.sq_tail(0, 6), Ok(()));
    fetched(&mut ctrl, 0, 2, admin(GET_FEATURES, 12, 0, feature::ARBITRATION.into(), 0));
    fetched(&mut ctrl, 0, 3, default_arbitration);
    fetched(&mut ctrl, 0, 4, admin(SET_FEATURES, 14, 0, feature::NUMBER_OF_QUEUES.into(), 0x0001_0001));
    fetched(&mut ctrl, 0, 5, admin(SET_FEATURES, 15, 0, EVENTS.into(), 0x100));
    assert_eq!(carried_out(&mut ctrl), Verdict::Done);
    let first = passed_on(&mut ctrl, default_arbitration);
    assert_eq!(carried_out(&mut ctrl), Verdict::Done);
    let second = passed_on(&mut ctrl, admin(SET_FEATURES, 15, 0, EVENTS.into(), 0x100));
    assert_eq!((ctrl.complete(first, Status::SUCCESS, 3), ctrl.complete(second, Status::SUCCESS, 0)), (Ok(()), Ok(())));
    posted(&mut ctrl, 0, (2, 6, 12, true, Status::SUCCESS, 7));
    posted_with(&mut ctrl, 0, (3, 6, 14, true, Status::SEQUENCE_ERROR, 0), StatusFlags::DO_NOT_RETRY);
    posted(&mut ctrl, 0, (4, 6, 13, true, Status::SUCCESS, 3));
    posted(&mut ctrl, 0, (5, 6, 15, true, Status::SUCCESS, 0));
    ctrl.own_opcode(IDENTIFY);
    assert_eq!((ctrl.reset(&config(Mechanism::RoundRobin)), ctrl.sq_tail(0, 2)), (Ok(()), Ok(())));
    fetched(&mut ctrl, 0, 0, admin(IDENTIFY, 1, 0, 1, 0));
    fetched(&mut ctrl, 0, 1, admin(GET_FEATURES, 2, 0, EVENTS.into(), 0));
    assert_eq!((carried_out(&mut ctrl), carried_out(&mut ctrl)), (Verdict::Done, Verdict::Done));
    posted_with(&mut ctrl, 0, (0, 2, 1, true, Status::INVALID_OPCODE, 0), StatusFlags::DO_NOT_RETRY);
    posted_with(&mut ctrl, 0, (1, 2, 2, true, Status::INVALID_FIELD, 0), StatusFlags::DO_NOT_RETRY);
}

#[test]
fn depth_and_slots_are_limits() {
    let two = Config { admin_depth: 2, ..config(Mechanism::RoundRobin) };
    let mut ctrl = Controller::new(&two, boxed_slots(3)).unwrap();
    let get = admin(GET_FEATURES, 1, 0, feature::ARBITRATION.into(), 0).to_bytes();
    assert_eq!(ctrl.sq_tail(0, 7), Ok(()));
    assert_eq!((ctrl.fetched(0, &get, 0), ctrl.fetched(0, &get, 0)), (Ok(()), Ok(())));
    assert_eq!((ctrl.fetch(0), ctrl.waiting(0)), (None, Some(2))); // as many as the depth
    carried_out(&mut ctrl);
    assert_eq!((ctrl.fetch(0), ctrl.waiting(0)), (None, Some(1))); // until a completion is posted
    assert!(ctrl.post(0).is_some());
    assert_eq!((ctrl.fetch(0), ctrl.set_depth(0, 4)), (Some(2), Ok(())));
    assert_eq!((ctrl.fetched(0, &get, 0), ctrl.fetched(0, &get, 0)), (Ok(()), Ok(())));
    assert_eq!((ctrl.fetch(0), ctrl.waiting(0)), (None, Some(3))); // all slots hold one
    carried_out(&mut ctrl);
    assert!(ctrl.post(0).is_some());
    assert_eq!(ctrl.fetch(0), Some(4));
    for (qid, depth) in [(0, 0), (0, MAX_DEPTH + 1), (65, 1)] {
        assert_eq!(ctrl.set_depth(qid, depth), Err(Error::Argument));
    }
}

/// The host of a new controller creates queues of 512 slots.
fn with_long_rings() -> Controller {
    let wide = Config { depth: 512, ..config(Mechanism::RoundRobin) };
    let mut ctrl = Controller::new(&wide, boxed_slots(1024)).unwrap();
    assert_eq!((ctrl.add_sq_region(SQ, 512), ctrl.add_cq_region(CQ, 512)), (Ok(1), Ok(1)));
    assert_eq!(ctrl.sq_tail(0, 2), Ok(()));
    fetched(&mut ctrl, 0, 0, admin(CREATE_CQ, 1, CQ, 511 << 16 | 1, 1));
    fetched(&mut ctrl, 0, 1, admin(CREATE_SQ, 2, SQ, 511 << 16 | 1, 0x0001_0001));
    carried_out(&mut ctrl);
    carried_out(&mut ctrl);
    while ctrl.post(0).is_some() {}
    ctrl
}

#[test]
fn more_than_256_commands_have_no_completion_posted() {
    let mut ctrl = with_long_rings();
    assert_eq!(ctrl.sq_tail(1, 257), Ok(()));
    (0..256).for_each(|slot| fetched(&mut ctrl, 1, slot, read(slot)));
    picked(&mut ctrl, 256);
    let tags: Vec<Tag> = (0..256).map(|cid| taken(&mut ctrl, cid)).collect();
    fetched(&mut ctrl, 1, 256, read(256));
    picked(&mut ctrl, 1);
    assert_eq!(ctrl.complete(tags[7], Status::SUCCESS, 0), Ok(()));
    posted(&mut ctrl, 1, (0, 257, 7, true, Status::SUCCESS, 0));
}

#[test]
fn an_entry_of_another_slot_is_not_taken() {
    let mut ctrl = with_long_rings();
    assert_eq!((ctrl.sq_tail(1, 2), ctrl.fetch(1)), (Ok(()), Some(0)));
    let (first, second) = (read(0).to_bytes(), read(1).to_bytes());
    assert_eq!(ctrl.fetched_at(1, 1, &second, 1), Err(Error::Slot)); // the read of slot 1 ended first
    assert_eq!((ctrl.waiting(1), ctrl.fetch(1)), (Some(0), Some(0)));
    assert_eq!((ctrl.fetched_at(1, 0, &first, 0), ctrl.fetched_at(1, 0, &first, 0)), (Ok(()), Err(Error::Slot)));
    assert_eq!((ctrl.fetched_at(1, 1, &second, 1), ctrl.fetched_at(1, 2, &first, 2)), (Ok(()), Err(Error::Missing)));
    assert_eq!(ctrl.waits(1, 1).map(|(entry, cookie)| (entry.cid, cookie)), Some((1, 1)));
}

#[test]
fn arrays_have_what_single_calls_give() {
    let mut ctrl = with_long_rings();
    let entries: Vec<_> = (0..101).map(|cid| read(cid).to_bytes()).collect();
    let cookies: Vec<_> = (1000..1101).collect();
    let (mut commands, mut posts) = ([None; 200], [None; 200]);
    assert_eq!((ctrl.sq_tail(1, 100), ctrl.take_n(&mut commands), ctrl.post_n(1, &mut posts)), (Ok(()), 0, 0));
    assert_eq!(ctrl.fetched_n(1, &entries, &cookies[1..]), Err(Error::Argument));
    assert_eq!((ctrl.fetched_n(1, &[], &[]), ctrl.fetched_n(2, &entries, &cookies)), (Ok(0), Ok(0)));
    assert_eq!(ctrl.fetched_n_at(1, 1, &entries, &cookies), Err(Error::Slot));
    assert_eq!(ctrl.fetched_n_at(1, 1, &entries, &cookies[1..]), Err(Error::Argument));
    assert_eq!((ctrl.fetched_n_at(1, 0, &entries, &cookies), ctrl.waiting(1), ctrl.fetch(1)), (Ok(100), Some(100), None));
    assert_eq!(ctrl.fetched_n_at(1, 100, &entries, &cookies), Ok(0));
    picked(&mut ctrl, 100);
    assert_eq!((ctrl.take_n(&mut []), ctrl.take_n(&mut commands[..35]), ctrl.take_n(&mut commands[35..])), (0, 35, 65));
    for (k, command) in commands.iter().flatten().enumerate() {
        assert_eq!((command.entry.to_bytes(), command.cookie), (entries[k], cookies[k]));
        assert_eq!(ctrl.complete(command.tag, Status::SUCCESS, 0), Ok(()));
    }
    assert_eq!((ctrl.post_n(2, &mut posts), ctrl.post_n(1, &mut posts[..48])), (0, 48));
    assert_eq!((ctrl.post_n(1, &mut posts[48..]), ctrl.post(1)), (52, None));
    let told: Vec<_> = posts.iter().flatten().map(|it| (u32::from(it.slot), it.cookie)).collect();
    assert_eq!(told, (0..100).map(|k| (k, 1000 + k)).collect::<Vec<_>>());
    assert!(commands[100..].iter().all(Option::is_none) && posts[100..].iter().all(Option::is_none));
}

#[test]
fn picks_take_what_there_is_room_for() {
    let mut ctrl = prepared(Mechanism::RoundRobin);
    assert_eq!((ctrl.pick(0), ctrl.sq_tail(1, 3)), (Ok(Step::Idle), Ok(())));
    (0..3).for_each(|slot| fetched(&mut ctrl, 1, slot, read(slot)));
    assert_eq!(ctrl.pick(0), Ok(Step::NoRoom));
    assert_eq!(ctrl.pick(1), Ok(Step::Picked(Pick { qid: 1, n: 1, fresh: false })));
    assert_eq!((ctrl.pick(0), ctrl.waiting(1)), (Ok(Step::Busy), Some(2)));
    taken(&mut ctrl, 0);
    assert_eq!(ctrl.pick(3), Ok(Step::Picked(Pick { qid: 1, n: 2, fresh: false })));
}

// A state can be sent to another thread. It isn't Sync: else which of the two `nothing` is meant couldn't be inferred.
macro_rules! is_sent_and_not_shared {
    ($($state:ty),*) => {$({
        trait Shared<A> {
            fn nothing() {}
        }
        impl<T> Shared<()> for T {}
        impl<T: Sync> Shared<u8> for T {}
        fn sent<T: Send>() {}
        <$state as Shared<_>>::nothing();
        sent::<$state>();
    })*};
}

#[test]
fn states_are_sent_and_not_shared() {
    is_sent_and_not_shared!(Controller, nvmearb::Table, nvmearb::Board, nvmearb::Arbiter);
}

#[test]
fn controllers_move() {
    let mut ctrl = std::thread::spawn(|| prepared(Mechanism::RoundRobin)).join().unwrap();
    let mut other = prepared(Mechanism::Weighted);
    std::mem::swap(&mut ctrl, &mut other);
    for mut it in [ctrl, other] {
        assert_eq!(it.sq_tail(1, 1), Ok(()));
        fetched(&mut it, 1, 0, read(3));
        picked(&mut it, 1);
        let tag = taken(&mut it, 3);
        assert_eq!(it.complete(tag, Status::SUCCESS, 0), Ok(()));
        posted(&mut it, 1, (0, 1, 3, true, Status::SUCCESS, 0));
    }
}
