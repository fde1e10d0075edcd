// SPDX-License-Identifier: MIT
//! A device over a controller, to be copied: an array stands for guest memory, and another one for the blocks of its
//! namespace. It serves the admin queues and one I/O queue pair. The host is at the bottom.
use nvmearb::{admin_opcode, io_opcode};
use nvmearb::{Answer, Asked, Config, Controller, Cqe, DoorbellError, Error, Mechanism, Placement, Region, Slot};
use nvmearb::{Sqe, Status, StatusFlags, Step, Verdict, CQE_BYTES, NO_LIMIT, SQE_BYTES};

/// The slots of each ring.
const RING: u16 = 8;
/// The slots of the controller: enough that commands of one of the two queues never keep those of the other from being
/// fetched.
const COMMANDS: usize = 2 * RING as usize;
/// Where the host puts its rings, by the identifiers of their queues.
const SQS: [u64; 2] = [0x1000, 0x3000];
const CQS: [u64; 2] = [0x2000, 0x4000];
const BLOCKS: usize = 16;
const BLOCK: usize = 512;
const PAGE: u64 = 4096;

struct Device {
    /// None until the host enables it for the first time. At a reset it is made anew over its slots.
    ctrl: Option<Controller<[Slot; COMMANDS]>>,
    /// Where the rings lie, by the identifiers of their queues.
    sqs: [u64; 2],
    cqs: [u64; 2],
    /// CSTS.CFS: a ring isn't in memory, and the device waits for a reset.
    has_failed: bool,
    blocks: Vec<u8>,
    memory: Vec<u8>,
}

/// Where a slot of a ring lies. The last addresses have none.
fn place(ring: u64, slot: u16, bytes: usize) -> Option<std::ops::Range<usize>> {
    let start = usize::try_from(ring).ok()?.checked_add(usize::from(slot) * bytes)?;
    Some(start..start.checked_add(bytes)?)
}

impl Device {
    fn new() -> Device {
        let (blocks, memory) = (vec![0; BLOCKS * BLOCK], vec![0; 0x8000]);
        Device { ctrl: None, sqs: [0; 2], cqs: [0; 2], has_failed: false, blocks, memory }
    }

    /// CC.EN becomes 1: the host has written ASQ and ACQ. Nothing is left of before but the generations of the slots: what
    /// the device completes late, under a tag of before, is refused.
    fn enable(&mut self, asq: u64, acq: u64) -> Result<(), Error> {
        let config = Config {
            asq: Region { address: asq, slots: RING },
            acq: Region { address: acq, slots: RING },
            mechanism: Mechanism::Weighted,
            cdw11: 0x0100_0001,
            nsq: 1,
            ncq: 1,
            depth: RING,
            admin_depth: RING,
        };
        let placement = Placement { page: PAGE as u32, mqes: RING - 1, vectors: 1 };
        match &mut self.ctrl {
            Some(ctrl) => ctrl.reset_anywhere(&config, &placement)?,
            None => self.ctrl = Some(Controller::anywhere(&config, &placement, [Slot::EMPTY; COMMANDS])?),
        }
        (self.sqs, self.cqs, self.has_failed) = ([asq, 0], [acq, 0], false);
        Ok(())
    }

    fn ctrl(&mut self) -> &mut Controller<[Slot; COMMANDS]> {
        self.ctrl.as_mut().expect("the host enabled it")
    }

    /// Keeps where the queue lies that a Create made. With interrupts, the vector and the enable bit are kept too.
    fn keep(&mut self, answer: Answer, asked: Asked) {
        match answer.verdict {
            Verdict::OpenSq { qid, .. } => self.sqs[usize::from(qid)] = asked.address,
            Verdict::OpenCq { qid, .. } => self.cqs[usize::from(qid)] = asked.address,
            _ => (),
        }
    }

    /// Fetches what the host submitted.
    fn fetch(&mut self) {
        while let Some((qid, slot)) = self.ctrl().to_fetch().next() {
            let mut bytes = [0; SQE_BYTES]; // a copy: the host may write there
            let at = place(self.sqs[usize::from(qid)], slot, SQE_BYTES);
            match at.and_then(|at| self.memory.get(at)) {
                Some(entry) => bytes.copy_from_slice(entry),
                None => {
                    self.has_failed = true;
                    return;
                }
            }
            self.ctrl().fetched(qid, &bytes, qid.into()).expect("the slot was told");
        }
    }

    /// Executes a command: Reads and Writes of blocks in one page that PRP1 names. It reads no PRP2, and refuses what
    /// goes over the end of the page with 0/02, Invalid Field in Command.
    fn execute(&mut self, entry: &Sqe) -> Status {
        let status = entry.check(&[BLOCKS as u64]);
        if !status.is_success() || entry.opcode == io_opcode::FLUSH {
            return status;
        }
        let first = entry.cdw10 as usize * BLOCK;
        let length = ((entry.cdw12 & 0xffff) as usize + 1) * BLOCK;
        if entry.prp1 % 4 != 0 {
            return Status::PRP_OFFSET_INVALID;
        }
        if length as u64 > PAGE - entry.prp1 % PAGE {
            return Status::INVALID_FIELD;
        }
        let blocks = &mut self.blocks[first..first + length];
        let start = entry.prp1 as usize;
        let data = match start.checked_add(length).and_then(|end| self.memory.get_mut(start..end)) {
            Some(data) => data,
            None => return Status::DATA_TRANSFER_ERROR,
        };
        match entry.opcode {
            io_opcode::READ => data.copy_from_slice(blocks),
            _ => blocks.copy_from_slice(data),
        }
        status
    }

    /// Executes what arbitration picks. Each command ends before the next pick, so there is always room. A device may
    /// just as well complete a command later, and then passes how many more it can take. This and `post` answer whether
    /// they did anything.
    fn work(&mut self) -> bool {
        let mut did = false;
        while let Some(step) = self.ctrl().pick(NO_LIMIT).expect("nothing else wrote into the controller").made() {
            did = true;
            if let Step::CarriedOut(answer, asked) = step {
                self.keep(answer, asked);
                self.ctrl().finish(); // of an empty queue, before a Delete of its completion queue
            }
            while let Some(command) = self.ctrl().take() {
                let status = self.execute(&command.entry);
                // (what fails here would fail again)
                let flags = if status == Status::SUCCESS { StatusFlags::default() } else { StatusFlags::DO_NOT_RETRY };
                self.ctrl().complete_with(command.tag, status, 0, flags).expect("the command was taken");
            }
        }
        did
    }

    /// Writes the completions that can be posted, and would send the interrupts.
    fn post(&mut self) -> bool {
        let mut did = false;
        while let Some((cqid, post)) = self.ctrl().posts().next() {
            did = true;
            let at = place(self.cqs[usize::from(cqid)], post.slot, CQE_BYTES);
            let entry = match at.and_then(|at| self.memory.get_mut(at)) {
                Some(entry) => entry,
                None => {
                    self.has_failed = true;
                    return false;
                }
            };
            entry[..12].copy_from_slice(&post.bytes[..12]);
            // a host on another thread wants a release barrier here: Dword 3 has the phase tag
            entry[12..].copy_from_slice(&post.bytes[12..]);
        }
        did
    }

    /// A pass over the queues with work: picks make room for fetches, posts for picks, and the end of a deletion for both.
    fn pass(&mut self) -> bool {
        self.fetch();
        let mut did = self.work();
        did |= self.post();
        did | self.ctrl().finish().is_some()
    }

    /// A doorbell write: `doorbell` is 2 * QID, or 2 * QID + 1 for a completion queue. An invalid one is an error
    /// event. Before the first enabling there is no queue.
    fn ring(&mut self, doorbell: u16, value: u32) -> Result<(), DoorbellError> {
        let (qid, to) = (doorbell / 2, value as u16);
        let ctrl = self.ctrl.as_mut().ok_or(DoorbellError::Register)?;
        let rung = if doorbell % 2 == 0 { ctrl.sq_tail(qid, to) } else { ctrl.cq_head(qid, to) };
        while !self.has_failed && self.pass() {}
        rung
    }
}

/// The host's side of a queue pair.
struct Pair {
    qid: u16,
    tail: u16,
    head: u16,
    phase: bool,
}

impl Pair {
    fn new(qid: u16) -> Pair {
        Pair { qid, tail: 0, head: 0, phase: true }
    }

    /// Submits a command, and collects its completion.
    fn run(&mut self, device: &mut Device, entry: Sqe) -> Status {
        let entry = Sqe { cid: self.tail, ..entry };
        let (sq, cq) = (SQS[usize::from(self.qid)], CQS[usize::from(self.qid)]);
        let at = place(sq, self.tail, SQE_BYTES).expect("the ring is in memory");
        device.memory[at].copy_from_slice(&entry.to_bytes());
        self.tail = (self.tail + 1) % RING;
        device.ring(2 * self.qid, self.tail.into()).expect("the ring has room");
        let at = place(cq, self.head, CQE_BYTES).expect("the ring is in memory");
        let bytes: [u8; CQE_BYTES] = device.memory[at].try_into().expect("a slot");
        let (done, _flags) = Cqe::from_flagged(&bytes).expect("a completion");
        assert_eq!((done.phase, done.cid, done.sqhd), (self.phase, entry.cid, self.tail));
        self.head = (self.head + 1) % RING;
        self.phase ^= self.head == 0;
        device.ring(2 * self.qid + 1, self.head.into()).expect("a completion was posted");
        done.status
    }
}

/// The host enables the device, over rings without entries, and creates both queues 1.
fn boot(device: &mut Device) -> (Pair, Pair) {
    device.memory.fill(0);
    device.enable(SQS[0], CQS[0]).expect("its numbers are in their ranges");
    let (mut admin, io) = (Pair::new(0), Pair::new(1));
    let create = |opcode, prp1, cdw11| Sqe { opcode, prp1, cdw10: 0x0007_0001, cdw11, ..Sqe::default() };
    assert_eq!(admin.run(device, create(admin_opcode::CREATE_CQ, CQS[1], 1)), Status::SUCCESS);
    assert_eq!(admin.run(device, create(admin_opcode::CREATE_SQ, SQS[1], 0x0001_0001)), Status::SUCCESS);
    (admin, io)
}

fn main() {
    let mut device = Device::new();
    assert_eq!(device.ring(0, 1), Err(DoorbellError::Register)); // it isn't enabled
    let (mut admin, mut io) = boot(&mut device);
    let write = Sqe { opcode: io_opcode::WRITE, nsid: 1, prp1: 0x5000, cdw10: 3, ..Sqe::default() };
    let read = Sqe { opcode: io_opcode::READ, prp1: 0x6000, ..write };
    for n in 0..20 {
        // twice round the rings and more
        device.memory[0x5000..0x5000 + BLOCK].fill(n);
        assert_eq!(io.run(&mut device, write), Status::SUCCESS);
        assert_eq!(io.run(&mut device, read), Status::SUCCESS);
        assert!(device.memory[0x6000..0x6000 + BLOCK].iter().all(|byte| *byte == n));
    }
    let beyond = Sqe { cdw10: BLOCKS as u32, ..read };
    assert_eq!(io.run(&mut device, beyond), Status::LBA_OUT_OF_RANGE);
    let over = Sqe { prp1: 0x6f00, ..read }; // over the end of its page
    assert_eq!(io.run(&mut device, over), Status::INVALID_FIELD);
    let sgl = Sqe { flags: 0x40, ..read }; // PSDT
    assert_eq!(io.run(&mut device, sgl), Status::INVALID_FIELD);
    let delete = Sqe { opcode: admin_opcode::DELETE_SQ, cdw10: 1, ..Sqe::default() };
    assert_eq!(admin.run(&mut device, delete), Status::SUCCESS);
    assert_eq!(device.ring(2, 0), Err(DoorbellError::Register)); // the doorbell of a queue that is gone
    let (_, mut io) = boot(&mut device); // a reset: the blocks are still there
    assert_eq!(io.run(&mut device, read), Status::SUCCESS);
    assert!(device.memory[0x6000..0x6000 + BLOCK].iter().all(|byte| *byte == 19));
    println!("1 passed, 0 failed");
}
