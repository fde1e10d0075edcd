// SPDX-License-Identifier: MIT
//! A controller whose queues lie anywhere in memory. Values are the specification's.
use nvmearb::admin_opcode::{CREATE_CQ, CREATE_SQ, DELETE_CQ, DELETE_SQ};
use nvmearb::{
    boxed_slots, io_opcode, Answer, Asked, Config, Cqe, Error, Mechanism, Placement, Region, Slot, Sqe, Status, StatusFlags,
    Step, Verdict, NO_LIMIT,
};

type Controller = nvmearb::Controller<Box<[Slot]>>;

const SLOTS: usize = 16;
const ADMIN_SLOTS: u16 = 8;
const AT_SQ: u64 = 0x2_0000;
const AT_CQ: u64 = 0x3_0000;
const PLACEMENT: Placement = Placement { page: 0x1000, mqes: 7, vectors: 2 };

fn config() -> Config {
    let admin = |address| Region { address, slots: ADMIN_SLOTS };
    let (asq, acq) = (admin(0x1000), admin(0x2000));
    Config { asq, acq, mechanism: Mechanism::RoundRobin, cdw11: 7, nsq: 4, ncq: 4, depth: 16, admin_depth: 16 }
}

/// A controller, and the slot of the admin queues that comes next.
struct Host {
    ctrl: Controller,
    next: u16,
}

impl Host {
    fn new() -> Host {
        Host { ctrl: Controller::anywhere(&config(), &PLACEMENT, boxed_slots(SLOTS)).unwrap(), next: 0 }
    }

    /// An admin command goes through: what it came to and asked for, its status, and whether a retry is of use.
    fn goes_through(&mut self, opcode: u8, prp1: u64, cdw10: u32, cdw11: u32) -> (Answer, Asked, Status, StatusFlags) {
        let slot = self.next;
        self.next = (slot + 1) % ADMIN_SLOTS;
        let entry = Sqe { opcode, cid: slot, prp1, cdw10, cdw11, ..Sqe::default() };
        assert_eq!((self.ctrl.sq_tail(0, self.next), self.ctrl.fetch(0)), (Ok(()), Some(slot)));
        assert_eq!(self.ctrl.fetched(0, &entry.to_bytes(), 0), Ok(()));
        let Ok(Step::CarriedOut(answer, asked)) = self.ctrl.pick(NO_LIMIT) else { panic!("it is the controller's") };
        if opcode == DELETE_SQ {
            self.ctrl.finish().expect("none of its commands is held");
        }
        let post = self.ctrl.post(0).expect("its completion is ready");
        let (entry, flags) = Cqe::from_flagged(&post.bytes).unwrap();
        assert_eq!((post.slot, self.ctrl.cq_head(0, self.next)), (slot, Ok(())));
        (answer, asked, entry.status, flags)
    }

    fn succeeds(&mut self, opcode: u8, prp1: u64, cdw10: u32, cdw11: u32) -> (Answer, Asked) {
        let (answer, asked, status, _) = self.goes_through(opcode, prp1, cdw10, cdw11);
        assert_eq!(status, Status::SUCCESS);
        (answer, asked)
    }

    fn is_refused(&mut self, opcode: u8, prp1: u64, cdw10: u32, cdw11: u32, want: Status) {
        let (answer, asked, status, flags) = self.goes_through(opcode, prp1, cdw10, cdw11);
        assert_eq!((answer.verdict, status, flags), (Verdict::Done, want, StatusFlags::DO_NOT_RETRY));
        assert_eq!(asked, Asked::default());
    }

    /// A Read goes through queue 1.
    fn serves(&mut self, cid: u16) {
        let entry = Sqe { opcode: io_opcode::READ, cid, nsid: 1, ..Sqe::default() };
        assert_eq!((self.ctrl.sq_tail(1, 1), self.ctrl.fetch(1)), (Ok(()), Some(0)));
        assert_eq!(self.ctrl.fetched(1, &entry.to_bytes(), 0), Ok(()));
        assert!(matches!(self.ctrl.pick(NO_LIMIT), Ok(Step::Picked(_))));
        let tag = self.ctrl.take().expect("it was picked").tag;
        assert_eq!(self.ctrl.complete(tag, Status::SUCCESS, 0), Ok(()));
        let post = self.ctrl.post(1).expect("it was answered");
        let cqe = Cqe::from_bytes(&post.bytes).unwrap();
        assert_eq!((post.slot, cqe.cid, cqe.phase, self.ctrl.cq_head(1, 1)), (0, cid, true, Ok(())));
    }
}

#[test]
fn placements_are_refused() {
    let made = |config: &Config, placement| Controller::anywhere(config, &placement, boxed_slots(SLOTS)).map(|_| ());
    assert_eq!(made(&config(), PLACEMENT), Ok(()));
    for wrong in [
        Placement { page: 0, ..PLACEMENT },
        Placement { page: 0x1800, ..PLACEMENT },
        Placement { mqes: 0, ..PLACEMENT },
        Placement { mqes: 4096, ..PLACEMENT },
        Placement { vectors: 0, ..PLACEMENT },
    ] {
        assert_eq!(made(&config(), wrong), Err(Error::Argument));
    }
    assert_eq!(made(&Config { nsq: 0, ..config() }, PLACEMENT), Err(Error::Argument));
    assert_eq!(made(&Config { acq: Region { address: 0, slots: 1 }, ..config() }, PLACEMENT), Err(Error::Size));
    let mut ctrl = Host::new().ctrl;
    assert_eq!(
        (ctrl.add_sq_region(AT_SQ, 4), ctrl.add_cq_region(AT_CQ, 4)),
        (Err(Error::TooMany), Err(Error::TooMany))
    );
    assert_eq!(ctrl.reset_anywhere(&config(), &Placement { page: 0, ..PLACEMENT }), Err(Error::Argument));
}

#[test]
fn creates_are_refused_and_told() {
    let mut host = Host::new();
    host.is_refused(CREATE_CQ, AT_CQ, 8 << 16 | 1, 1, Status::INVALID_QUEUE_SIZE);
    host.is_refused(CREATE_CQ, AT_CQ + 8, 7 << 16 | 1, 1, Status::PRP_OFFSET_INVALID);
    host.is_refused(CREATE_CQ, AT_CQ, 7 << 16 | 1, 2 << 16 | 3, Status::INVALID_INTERRUPT_VECTOR);
    let (answer, asked) = host.succeeds(CREATE_CQ, AT_CQ, 7 << 16 | 1, 1 << 16 | 3);
    assert_eq!(answer.verdict, Verdict::OpenCq { qid: 1, region: 1 });
    assert_eq!(asked, Asked { address: AT_CQ, qsize: 7, vector: 1, interrupts: true });
    host.is_refused(CREATE_SQ, AT_SQ + 0x800, 7 << 16 | 1, 1 << 16 | 1, Status::PRP_OFFSET_INVALID);
    let (answer, asked) = host.succeeds(CREATE_SQ, AT_SQ, 3 << 16 | 1, 1 << 16 | 1);
    assert!(matches!(answer.verdict, Verdict::OpenSq { qid: 1, region: 1, cqid: 1, .. }));
    assert_eq!(asked, Asked { address: AT_SQ, qsize: 3, vector: 0, interrupts: false });
    assert_eq!((host.ctrl.sq(1), host.ctrl.cq(1), host.ctrl.sq(2)), (Some(1), Some(1), None));
    assert_eq!(host.ctrl.reset_anywhere(&config(), &PLACEMENT), Ok(()));
    assert_eq!((host.ctrl.sq(1), host.ctrl.cq(1)), (None, None));
}

#[test]
fn memory_is_used_again_without_end() {
    let mut host = Host::new();
    for round in 0..200 {
        let qsize = 1 + u32::from(round % 7);
        host.succeeds(CREATE_CQ, AT_CQ, qsize << 16 | 1, 1);
        host.succeeds(CREATE_SQ, AT_SQ, qsize << 16 | 1, 1 << 16 | 1);
        host.serves(round);
        host.succeeds(DELETE_SQ, 0, 1, 0);
        host.succeeds(DELETE_CQ, 0, 1, 0);
    }
    assert_eq!(host.ctrl.verify(), Ok(()));
}
