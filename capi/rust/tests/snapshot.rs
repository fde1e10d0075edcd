// SPDX-License-Identifier: MIT
//! Snapshots of a controller, and the iterators over its queues.
use nvmearb::admin_opcode::{CREATE_CQ, CREATE_SQ};
use nvmearb::{boxed_slots, io_opcode, sys, Config, Cqe, Error, Mechanism, Placement, Priority, Region, Seen};
use nvmearb::{Slot, SnapshotError, Sqe, Status, Step, Tag, NO_LIMIT};

type Controller = nvmearb::Controller<Box<[Slot]>>;

const SLOTS: usize = 24;
const PLACEMENT: Placement = Placement { page: 0x1000, mqes: 7, vectors: 1 };
/// Where the head of a snapshot has its numbers and its sum, and where the state and the slots begin.
const VERSION: usize = 8;
const STATE_BYTES: usize = 12;
const SUM: usize = 24;
const STATE: usize = 32;
const FIRST_SLOT: usize = STATE + 6016;

fn config() -> Config {
    let admin = |address| Region { address, slots: 8 };
    let (asq, acq) = (admin(0x1000), admin(0x2000));
    Config { asq, acq, mechanism: Mechanism::Weighted, cdw11: 0, nsq: 4, ncq: 4, depth: 16, admin_depth: 16 }
}

/// Queues 1 are there. Read 20 is out, under the tag that is answered, 21 has a completion that is ready, and 22 waits.
fn busy() -> (Controller, Tag) {
    let mut ctrl = Controller::anywhere(&config(), &PLACEMENT, boxed_slots(SLOTS)).unwrap();
    let create = |opcode, prp1, cdw11| Sqe { opcode, prp1, cdw10: 0x0007_0001, cdw11, ..Sqe::default() };
    ctrl.sq_tail(0, 2).unwrap();
    ctrl.fetched(0, &create(CREATE_CQ, 0x3000, 1).to_bytes(), 0).unwrap();
    ctrl.fetched(0, &create(CREATE_SQ, 0x4000, 0x0001_0001).to_bytes(), 0).unwrap();
    while ctrl.pick(NO_LIMIT).unwrap().made().is_some() {}
    assert_eq!(ctrl.posts().map(|(cqid, post)| (cqid, post.slot)).collect::<Vec<_>>(), [(0, 0), (0, 1)]);
    ctrl.sq_tail(1, 4).unwrap();
    assert_eq!(ctrl.to_fetch().collect::<Vec<_>>(), [(1, 0)]);
    for cid in 20..23 {
        let read = Sqe { opcode: io_opcode::READ, cid, nsid: 1, ..Sqe::default() };
        ctrl.fetched(1, &read.to_bytes(), u32::from(cid)).unwrap();
    }
    let mut take = || match ctrl.pick(NO_LIMIT).unwrap() {
        Step::Picked(_) => ctrl.take().unwrap().tag,
        other => panic!("{other:?}"),
    };
    let (first, second) = (take(), take());
    ctrl.complete(second, Status::SUCCESS, 5).unwrap();
    (ctrl, first)
}

/// What is left of `busy` comes to its end.
fn ends(ctrl: &mut Controller, first: Tag) {
    let seen = [(0, Priority::Admin, 0), (1, Priority::Urgent, 1)];
    assert!(ctrl.queues().eq(seen.map(|(qid, priority, count)| Seen { qid, priority, count })));
    assert_eq!(ctrl.to_fetch().collect::<Vec<_>>(), [(1, 3)]);
    assert_eq!(ctrl.command(first).map(|it| it.cookie), Some(20));
    ctrl.complete(first, Status::LBA_OUT_OF_RANGE, 6).unwrap();
    let posts: Vec<_> = ctrl.posts().map(|(cqid, post)| (cqid, Cqe::from_bytes(&post.bytes).unwrap())).collect();
    assert_eq!(posts.iter().map(|(cqid, cqe)| (*cqid, cqe.cid, cqe.dw0)).collect::<Vec<_>>(), [(1, 21, 5), (1, 20, 6)]);
    assert!(matches!(ctrl.pick(NO_LIMIT), Ok(Step::Picked(_))));
    assert_eq!(ctrl.take().unwrap().entry.cid, 22);
    assert_eq!(ctrl.verify(), Ok(()));
}

/// What becomes of bytes.
fn taken(bytes: &[u8], slots: usize) -> Result<Controller, SnapshotError> {
    Controller::from_bytes(bytes, boxed_slots(slots))
}

fn refused(bytes: &[u8], slots: usize) -> SnapshotError {
    taken(bytes, slots).map(|_| ()).unwrap_err()
}

/// The sum over a snapshot is made right again.
fn summed(mut bytes: Vec<u8>) -> Vec<u8> {
    let mut sum: u64 = 0xcbf2_9ce4_8422_2325;
    for byte in bytes[..SUM].iter().chain(&bytes[STATE..]) {
        sum = (sum ^ u64::from(*byte)).wrapping_mul(0x0000_0100_0000_01b3);
    }
    bytes[SUM..STATE].copy_from_slice(&sum.to_le_bytes());
    bytes
}

#[test]
fn a_controller_goes_on_after_its_snapshot() {
    let (mut ctrl, first) = busy();
    let bytes = ctrl.to_vec();
    assert_eq!((bytes.len(), ctrl.snapshot_len()), (FIRST_SLOT + 88 * SLOTS, bytes.len()));
    let mut other = taken(&bytes, SLOTS).unwrap();
    assert_eq!(other.to_vec(), bytes);
    ends(&mut other, first);
    ends(&mut ctrl, first);
    assert_eq!(other.to_vec(), ctrl.to_vec());
}

#[test]
fn snapshots_of_something_else_are_refused_with_their_names() {
    let bytes = busy().0.to_vec();
    let with = |at: usize, byte: u8| {
        let mut other = bytes.clone();
        other[at] = byte;
        other
    };
    assert_eq!((refused(&[], SLOTS), refused(&bytes[..31], SLOTS)), (SnapshotError::Letters, SnapshotError::Letters));
    assert_eq!(refused(&with(0, b'N'), SLOTS), SnapshotError::Letters);
    assert_eq!(refused(&with(VERSION + 1, 1), SLOTS), SnapshotError::Version(0x100));
    assert_eq!(SnapshotError::Version(0x100).to_string(), "a snapshot of version 0.1.0, and not 0.2.0");
    assert_eq!(refused(&with(STATE_BYTES, bytes[STATE_BYTES] ^ 16), SLOTS), SnapshotError::Size);
    assert_eq!(refused(&bytes, SLOTS + 1), SnapshotError::Slots(SLOTS));
    assert_eq!(refused(&bytes[..bytes.len() - 1], SLOTS), SnapshotError::Length(bytes.len()));
}

#[test]
fn changed_snapshots_are_refused() {
    let bytes = busy().0.to_vec();
    for at in (SUM..bytes.len()).step_by(7) {
        let mut other = bytes.clone();
        other[at] ^= 0x10;
        assert_eq!(refused(&other, SLOTS), SnapshotError::Changed, "{at}");
    }
}

/// Calls over a controller that was made up: none panics.
fn calls_return(mut ctrl: Controller) {
    for qid in 0..66 {
        _ = (ctrl.sq_tail(qid, 1), ctrl.fetch(qid), ctrl.fetched(qid, &[0x5a; 64], 0));
        _ = (ctrl.next_fetch(qid), ctrl.next_to_post(qid));
        _ = (ctrl.seen(qid), ctrl.waiting(qid), ctrl.waits(qid, 0), ctrl.sq(qid), ctrl.cq(qid), ctrl.named(qid, 20));
    }
    for _ in 0..8 {
        _ = (ctrl.peek(), ctrl.pick(NO_LIMIT), ctrl.finish());
        if let Some(command) = ctrl.take() {
            _ = (ctrl.command(command.tag), ctrl.complete(command.tag, Status::SUCCESS, 0));
        }
        (0..66).for_each(|cqid| _ = (ctrl.post(cqid), ctrl.cq_head(cqid, 1)));
    }
}

#[test]
fn numbers_out_of_range_are_refused_behind_a_right_sum() {
    let bytes = busy().0.to_vec();
    assert_eq!(summed(bytes.clone()), bytes);
    let mut states = 0;
    for at in (STATE..bytes.len()).step_by(8) {
        let mut other = bytes.clone();
        other[at..at + 8].fill(0xff);
        match taken(&summed(other), SLOTS) {
            Ok(ctrl) => {
                assert_eq!(ctrl.verify(), Ok(()));
                calls_return(ctrl);
            }
            Err(why) => {
                assert_eq!(why, SnapshotError::State);
                states += 1;
            }
        }
    }
    let mut other_mark = bytes;
    other_mark[STATE + 1] -= 1; // that of another minor version
    assert_eq!(refused(&summed(other_mark), SLOTS), SnapshotError::State);
    assert!(states > 100, "{states}");
}

#[test]
fn slots_may_be_borrowed() {
    let mut slots = [Slot::EMPTY; SLOTS];
    let mut ctrl = nvmearb::Controller::anywhere(&config(), &PLACEMENT, &mut slots[..]).unwrap();
    assert_eq!(ctrl.sq_tail(0, 3), Ok(()));
    while let Some((qid, slot)) = ctrl.to_fetch().next() {
        let entry = Sqe { opcode: io_opcode::READ, cid: slot, ..Sqe::default() };
        assert_eq!((qid, ctrl.fetched(qid, &entry.to_bytes(), 0)), (0, Ok(())));
    }
    assert_eq!(ctrl.waiting(0), Some(3));
    assert_eq!(
        nvmearb::Controller::anywhere(&config(), &PLACEMENT, [Slot::EMPTY; 0]).map(|_| ()),
        Err(Error::Argument)
    );
    assert_eq!(std::mem::size_of::<sys::nvmearb_slot>(), std::mem::size_of::<Slot>());
}
