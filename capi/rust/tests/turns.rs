// SPDX-License-Identifier: MIT
//! Queues that share what there is: slots, and posts. And slots that are given back.
use nvmearb::admin_opcode::{CREATE_CQ, CREATE_SQ};
use nvmearb::{
    boxed_slots, io_opcode, Config, Error, Mechanism, Placement, Region, Slot, Sqe, Status, Step, Tag, NO_LIMIT,
};
use std::collections::VecDeque;

type Controller = nvmearb::Controller<Box<[Slot]>>;

const QUEUES: u16 = 4;
const RING: u16 = 64;
const PLACEMENT: Placement = Placement { page: 4096, mqes: RING - 1, vectors: 1 };

/// Depths of 8, and at most 4 commands of one pick.
fn config() -> Config {
    let (asq, acq) = (Region { address: 0x1000, slots: 16 }, Region { address: 0x2000, slots: 16 });
    let (nsq, ncq) = (QUEUES, QUEUES);
    Config { asq, acq, mechanism: Mechanism::RoundRobin, cdw11: 2, nsq, ncq, depth: 8, admin_depth: 8 }
}

/// A controller with so many slots, whose host created pairs 1 to 4.
fn with_queues(slots: usize) -> Controller {
    let mut ctrl = Controller::anywhere(&config(), &PLACEMENT, boxed_slots(slots)).unwrap();
    let creates = (1..=QUEUES).flat_map(|qid| [(CREATE_CQ, qid, 1), (CREATE_SQ, qid, u32::from(qid) << 16 | 1)]);
    for (tail, (opcode, qid, cdw11)) in (1..).zip(creates) {
        let (prp1, cdw10) = (u64::from(qid) << 16, u32::from(RING - 1) << 16 | u32::from(qid));
        ctrl.sq_tail(0, tail).unwrap();
        assert_eq!(ctrl.to_fetch().next(), Some((0, tail - 1)));
        ctrl.fetched(0, &Sqe { opcode, prp1, cdw10, cdw11, ..Sqe::default() }.to_bytes(), 0).unwrap();
        assert!(matches!(ctrl.pick(NO_LIMIT), Ok(Step::CarriedOut(..))));
        assert!(ctrl.post(0).is_some());
        ctrl.cq_head(0, tail).unwrap();
    }
    ctrl
}

fn read() -> [u8; 64] {
    Sqe { opcode: io_opcode::READ, nsid: 1, ..Sqe::default() }.to_bytes()
}

/// A host that keeps its rings full.
#[derive(Default)]
struct Host {
    tails: [u16; QUEUES as usize],
    heads: [u16; QUEUES as usize],
    out: [u16; QUEUES as usize],
    done: [u32; QUEUES as usize],
}

impl Host {
    fn submit(&mut self, ctrl: &mut Controller) {
        for k in 0..QUEUES {
            let (tail, out) = (&mut self.tails[usize::from(k)], &mut self.out[usize::from(k)]);
            *tail = (*tail + RING - 1 - *out) % RING;
            *out = RING - 1;
            ctrl.sq_tail(k + 1, *tail).unwrap();
        }
    }

    fn collect(&mut self, ctrl: &mut Controller, cqid: u16) {
        let k = usize::from(cqid - 1);
        (self.heads[k], self.out[k], self.done[k]) = ((self.heads[k] + 1) % RING, self.out[k] - 1, self.done[k] + 1);
        ctrl.cq_head(cqid, self.heads[k]).unwrap();
    }

    /// The most and the fewest commands of a queue that came back.
    fn extremes(&self) -> (u32, u32) {
        (*self.done.iter().max().unwrap(), *self.done.iter().min().unwrap())
    }
}

/// So many passes of a device that has at most 4 commands, and ends one of them in each pass.
fn shared(slots: usize, passes: u32) -> (u32, u32) {
    let (mut ctrl, mut host, mut flight) = (with_queues(slots), Host::default(), VecDeque::new());
    for _ in 0..passes {
        host.submit(&mut ctrl);
        while let Some((qid, _)) = ctrl.to_fetch().next() {
            ctrl.fetched(qid, &read(), u32::from(qid)).unwrap();
        }
        while ctrl.pick(4 - flight.len() as u16).unwrap().made().is_some() {
            flight.extend(std::iter::from_fn(|| ctrl.take()).map(|command| command.tag));
        }
        ctrl.complete(flight.pop_front().unwrap(), Status::SUCCESS, 0).unwrap();
        while let Some((cqid, _)) = ctrl.posts().next() {
            host.collect(&mut ctrl, cqid);
        }
    }
    host.extremes()
}

#[test]
fn queues_share_slots_that_are_fewer_than_the_depths() {
    for slots in [5, 8, 16, 31, 40] {
        let (most, fewest) = shared(slots, 2000);
        assert!(most - fewest <= 8, "with {slots} slots {most} and {fewest}");
        assert!(fewest >= 490, "with {slots} slots {most} and {fewest}");
    }
}

#[test]
fn turns_go_on_where_an_iterator_was_left() {
    let (mut ctrl, mut host) = (with_queues(40), Host::default());
    host.submit(&mut ctrl);
    assert_eq!(ctrl.to_fetch().take(2).collect::<Vec<_>>(), [(1, 0), (2, 0)]);
    assert_eq!(ctrl.to_fetch().collect::<Vec<_>>(), [(3, 0), (4, 0), (1, 0), (2, 0)]);
    assert_eq!((ctrl.to_fetch().next(), ctrl.fetched(3, &read(), 0)), (Some((3, 0)), Ok(())));
    let mut all = ctrl.to_fetch();
    assert_eq!(all.by_ref().collect::<Vec<_>>(), [(4, 0), (1, 0), (2, 0), (3, 1)]);
    assert_eq!(all.next(), None);
    ctrl.reset_anywhere(&config(), &PLACEMENT).unwrap();
    ctrl.sq_tail(0, 1).unwrap();
    assert_eq!(ctrl.to_fetch().collect::<Vec<_>>(), [(0, 0)]);
}

/// A device that posts one completion a pass, where each queue always has one.
#[test]
fn queues_share_posts() {
    let (mut ctrl, mut host) = (with_queues(40), Host::default());
    for _ in 0..400 {
        host.submit(&mut ctrl);
        while let Some((qid, _)) = ctrl.to_fetch().next() {
            ctrl.fetched(qid, &read(), 0).unwrap();
        }
        while ctrl.pick(NO_LIMIT).unwrap().made().is_some() {
            while let Some(command) = ctrl.take() {
                ctrl.complete(command.tag, Status::SUCCESS, 0).unwrap();
            }
        }
        let (cqid, _) = ctrl.posts().next().unwrap();
        host.collect(&mut ctrl, cqid);
    }
    assert_eq!(host.done, [100; QUEUES as usize]);
    assert_eq!(ctrl.posts().take(9).map(|(cqid, _)| cqid).collect::<Vec<_>>(), [1, 1, 1, 1, 1, 1, 1, 1, 2]);
    assert_eq!(ctrl.posts().next().map(|(cqid, _)| cqid), Some(3));
}

/// A command of the admin queue is the device's, under this tag.
fn taken(ctrl: &mut Controller) -> Tag {
    ctrl.own_opcode(6);
    ctrl.sq_tail(0, 1).unwrap();
    ctrl.fetched(0, &Sqe { opcode: 6, ..Sqe::default() }.to_bytes(), 0).unwrap();
    assert!(matches!(ctrl.pick(1), Ok(Step::Passed(_))));
    ctrl.take().unwrap().tag
}

#[test]
fn stale_tags_are_refused_over_the_same_slots() {
    let made = |slots| Controller::anywhere(&config(), &PLACEMENT, slots).unwrap();
    let mut ctrl = made(boxed_slots(16));
    let first = taken(&mut ctrl);
    ctrl.reset_anywhere(&config(), &PLACEMENT).unwrap();
    let second = taken(&mut ctrl);
    assert_eq!(ctrl.complete(first, Status::SUCCESS, 0), Err(Error::Missing));
    let mut ctrl = made(ctrl.into_slots());
    let third = taken(&mut ctrl);
    for late in [first, second] {
        assert_eq!(ctrl.complete(late, Status::SUCCESS, 0), Err(Error::Missing));
    }
    assert_eq!(ctrl.complete(third, Status::SUCCESS, 0), Ok(()));
    // Over other slots a tag of before names another command, as the documentation says.
    let mut other = made(boxed_slots(16));
    assert_eq!(taken(&mut other), first);
    assert_eq!(other.complete(first, Status::SUCCESS, 0), Ok(()));
}
