// SPDX-License-Identifier: MIT
//! Random calls, with random arguments: none panics, and each command gets one completion, its own.
use nvmearb::{boxed_slots, Pick, Slot, Tag, Verdict, NO_LIMIT};
use nvmearb::{Admin, Board, Config, Cqe, Mechanism, Priority, Region, Sqe, Status, StatusFlags, Step, Table};
use std::collections::HashMap;

type Controller = nvmearb::Controller<Box<[Slot]>>;

/// A fixed sequence of numbers (splitmix64).
struct Drawn(u64);

impl Drawn {
    fn word(&mut self) -> u64 {
        self.0 = self.0.wrapping_add(0x9e37_79b9_7f4a_7c15);
        let z = (self.0 ^ self.0 >> 30).wrapping_mul(0xbf58_476d_1ce4_e5b9);
        let z = (z ^ z >> 27).wrapping_mul(0x94d0_49bb_1331_11eb);
        z ^ z >> 31
    }

    /// A number below a bound, and now and then any.
    fn below(&mut self, bound: u16) -> u16 {
        let word = self.word();
        if word >> 58 == 0 {
            word as u16
        } else {
            word as u16 % bound
        }
    }

    fn bytes<const N: usize>(&mut self) -> [u8; N] {
        std::array::from_fn(|_| self.word() as u8)
    }

    /// An admin command that is accepted now and then.
    fn admin(&mut self) -> Sqe {
        let qid = u32::from(self.below(4));
        Sqe {
            opcode: self.below(12) as u8,
            flags: u8::from(self.below(16) == 0),
            cid: self.below(64),
            prp1: 0x1000 * u64::from(self.below(8)),
            cdw10: u32::from(self.below(8)) << 16 | qid,
            cdw11: u32::from(self.below(4)) << 16 | u32::from(self.below(8)),
            ..Sqe::default()
        }
    }
}

/// A controller, with the entries that were fetched and have no completion posted, by their cookies, and the last tag of
/// each slot; and how many completions of admin and of I/O commands were posted, and how many admin commands were passed
/// on.
struct Driven {
    ctrl: Controller,
    open: HashMap<u32, Sqe>,
    tags: [Tag; SLOTS],
    cookie: u32,
    posts: [u32; 2],
    passed: u32,
}

const SLOTS: usize = 24;

impl Driven {
    fn new(mechanism: Mechanism) -> Driven {
        let (asq, acq) = (Region { address: 0x1000, slots: 8 }, Region { address: 0x2000, slots: 8 });
        let config = Config { asq, acq, mechanism, cdw11: 2, nsq: 4, ncq: 4, depth: 16, admin_depth: 16 };
        let mut ctrl = Controller::new(&config, boxed_slots(SLOTS)).unwrap();
        for address in [0x3000, 0x4000, 0x5000] {
            ctrl.add_sq_region(address, 8).unwrap();
            ctrl.add_cq_region(address + 0x800, 8).unwrap();
        }
        let create = |opcode, prp1, cdw11| Sqe { opcode, prp1, cdw10: 0x0007_0001, cdw11, ..Sqe::default() };
        ctrl.sq_tail(0, 2).unwrap();
        ctrl.fetched(0, &create(5, 0x3800, 1).to_bytes(), 0).unwrap();
        ctrl.fetched(0, &create(1, 0x3000, 0x0001_0001).to_bytes(), 0).unwrap();
        while ctrl.pick(NO_LIMIT).unwrap().made().is_some() {}
        while ctrl.post(0).is_some() {}
        assert_eq!((ctrl.sq(1), ctrl.cq(1)), (Some(1), Some(1)));
        let tags = std::array::from_fn(|slot| Tag::from(slot as u32));
        Driven { ctrl, open: HashMap::new(), tags, cookie: 0, posts: [0; 2], passed: 0 }
    }

    /// The last tag of a slot, or now and then one of another generation.
    fn tag(&self, drawn: &mut Drawn) -> Tag {
        let last = self.tags[usize::from(drawn.below(SLOTS as u16)) % SLOTS];
        match drawn.below(8) {
            0 => last.number().wrapping_sub(0x1_0000).into(),
            1 => (drawn.word() as u32).into(),
            _ => last,
        }
    }

    fn complete(&mut self, drawn: &mut Drawn, flags: Option<StatusFlags>) {
        let (tag, status) = (self.tag(drawn), Status::new(drawn.below(8) as u8 % 8, drawn.below(4) as u8).unwrap());
        let is_out = self.ctrl.command(tag).is_some();
        let told = match flags {
            Some(flags) => self.ctrl.complete_with(tag, status, 0, flags),
            None => self.ctrl.complete(tag, status, 0),
        };
        assert_eq!(told.is_ok(), is_out);
        assert!(!is_out || self.tags[usize::from(tag.slot())] == tag);
    }

    fn fetched(&mut self, qid: u16, drawn: &mut Drawn) {
        let entry = if qid == 0 { drawn.admin() } else { Sqe::from_bytes(&drawn.bytes()) };
        // A Create of a completion queue names its region by this address.
        let prp1 = if qid == 0 && entry.opcode == 5 { entry.prp1 + 0x800 } else { entry.prp1 };
        let entry = Sqe { prp1, ..entry };
        let told = self.ctrl.fetch(qid).is_some();
        self.cookie += 1;
        assert_eq!(self.ctrl.fetched(qid, &entry.to_bytes(), self.cookie).is_ok(), told);
        if told {
            self.open.insert(self.cookie, entry);
        }
    }

    fn post(&mut self, cqid: u16) {
        // behind the queue before it, it has the first turn
        let is_due = self.ctrl.next_to_post(cqid.wrapping_sub(1)) == Some(cqid);
        let post = self.ctrl.post(cqid);
        assert_eq!(post.is_some(), is_due);
        if let Some(post) = post {
            let entry = self.open.remove(&post.cookie).expect("its command has no other completion");
            let (cqe, _) = Cqe::from_flagged(&post.bytes).unwrap();
            assert_eq!(cqe.cid, entry.cid);
            self.posts[usize::from(cqe.sqid > 0)] += 1;
        }
    }

    fn step(&mut self, drawn: &mut Drawn) {
        let (a, b) = (drawn.below(5), drawn.below(8));
        match drawn.below(12) {
            0 | 1 => _ = self.ctrl.sq_tail(a, b),
            2 => _ = self.ctrl.cq_head(a, b),
            3 | 4 => self.fetched(a, drawn),
            5 => {
                let peeked = self.ctrl.peek().is_some();
                assert!(peeked || self.ctrl.pick(NO_LIMIT).unwrap().made().is_none());
                self.passed += u32::from(matches!(self.ctrl.pick(b), Ok(Step::Passed(_))));
            }
            6 => {
                if let Some(command) = self.ctrl.take() {
                    assert_eq!(self.open.get(&command.cookie), Some(&command.entry));
                    let last = &mut self.tags[usize::from(command.tag.slot())];
                    assert_eq!(command.tag.number(), last.number() + 0x1_0000);
                    *last = command.tag;
                }
            }
            7 => self.complete(drawn, None),
            8 => self.complete(drawn, Some(StatusFlags { more: a % 2 == 1, do_not_retry: b % 2 == 1 })),
            9 | 10 => self.post(a),
            11 if a == 0 => {
                self.ctrl.own_opcode(b as u8);
                self.ctrl.own_feature(b as u8);
            }
            11 if a == 1 => {
                let priority = [Priority::Urgent, Priority::High, Priority::Medium, Priority::Low][usize::from(b) % 4];
                assert_eq!(self.ctrl.hold(b % 3, b % 5 == 0).is_ok(), self.ctrl.sq(b % 3).is_some());
                assert_eq!(self.ctrl.set_class(b % 3, priority).is_ok(), b % 3 != 0 && self.ctrl.sq(b % 3).is_some());
                assert!(self.ctrl.named(b % 3, b).map_or(true, |tag| self.ctrl.command(tag).is_some()));
            }
            _ => {
                let mut turns = (1..=65).map(|turn| (a.min(64) + turn) % 65);
                assert_eq!(self.ctrl.next_fetch(a), turns.find_map(|qid| Some((qid, self.ctrl.fetch(qid)?))));
                self.ctrl.finish();
                let tag = self.tag(drawn);
                let (command, queue) = (self.ctrl.command(tag), (self.ctrl.sq(a), self.ctrl.cq(a)));
                assert_eq!(
                    (command.map_or(tag, |it| it.tag), queue.0.unwrap_or(0) / 4, queue.1.unwrap_or(0) / 4),
                    (tag, 0, 0)
                );
                assert_eq!(self.ctrl.waiting(a).is_some(), queue.0.is_some());
            }
        }
    }
}

#[test]
fn controllers_answer_each_command_once() {
    let mut drawn = Drawn(1);
    let (mut posts, mut passed) = ([0; 2], 0);
    for round in 0..1000 {
        let mut it = Driven::new(if round % 2 == 0 { Mechanism::RoundRobin } else { Mechanism::Weighted });
        (0..500).for_each(|_| it.step(&mut drawn));
        assert_eq!(it.ctrl.verify(), Ok(()));
        posts = [posts[0] + it.posts[0], posts[1] + it.posts[1]];
        passed += it.passed;
    }
    assert!(posts.iter().all(|n| *n > 1000) && passed > 1000, "{posts:?}, {passed}");
}

#[test]
fn tables_and_boards_take_any_arguments() {
    let mut drawn = Drawn(2);
    let mut accepted = 0;
    for _ in 0..300 {
        let mut table = Table::new(1 + drawn.below(8) % 64, 1 + drawn.below(8) % 64, drawn.word() as u32).unwrap();
        let mut board = Board::new(Mechanism::Weighted, drawn.word() as u32);
        for _ in 0..300 {
            let (qid, n) = (drawn.below(5), drawn.below(300));
            _ = table.add_sq_region(0x1000 * u64::from(n), qid);
            _ = table.add_cq_region(0x800 + 0x1000 * u64::from(n), qid);
            accepted += u32::from(table.apply(&drawn.admin().to_bytes()).verdict != Verdict::Done);
            table.apply(&drawn.bytes());
            _ = (table.finish_delete(qid), table.sq(qid), table.cq(qid), table.allotted(), table.settings());
            let priority = [Priority::Admin, Priority::Urgent, Priority::High, Priority::Low][usize::from(n) % 4];
            _ = (board.open(qid, priority), board.came_n(qid, n), board.came(qid), board.went(qid));
            if n % 2 == 0 {
                assert_eq!(board.peek(), board.pick());
            } else {
                let cut = board.peek().map(|pick| Pick { n: pick.n.min(n), ..pick });
                assert_eq!(board.pick_up_to(n), Ok(cut));
            }
            if n == 7 {
                board.set(drawn.word() as u32);
                _ = board.close(qid);
            }
        }
    }
    assert!(accepted > 1000, "{accepted}");
}

#[test]
fn entries_come_back() {
    let mut drawn = Drawn(3);
    for _ in 0..100_000 {
        let bytes = drawn.bytes();
        let entry = Sqe::from_bytes(&bytes);
        assert_eq!(entry.to_bytes(), bytes);
        assert_eq!(entry.admin() == Admin::Other, !matches!(entry.opcode, 0 | 1 | 4 | 5 | 8 | 9 | 10));
        let mut done: [u8; 16] = drawn.bytes();
        done[4..8].fill(0);
        done[15] &= 0xcf;
        let (cqe, flags) = Cqe::from_flagged(&done).unwrap();
        assert_eq!((flags.do_not_retry, flags.more), (done[15] & 0x80 != 0, done[15] & 0x40 != 0));
        done[15] &= 0x0f;
        assert_eq!((Cqe::from_bytes(&done), cqe.to_bytes()), (Ok(cqe), done));
    }
}
