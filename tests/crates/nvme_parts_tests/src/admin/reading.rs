// A second reading of the checks. It keeps what was accepted in a list, and searches that from its end.

use super::{entry, expect, expect_cq, expect_sq, finish};
use nvme_admin::{Limits, Table, Verdict};
use nvme_arbiter::{Class, Settings};
use nvme_entry::{Sqe, Status};
use std::alloc::{AllocError, Global};
use std::process::Abort;
use std::test::Fail;

// How many I/O submission queues there may be.
const NSQ: u16 = 7;

// How many I/O completion queues there may be.
const NCQ: u16 = 5;
// Submission region k is at address k, completion region k at 10 + k. Each has 2 slots where k is even and 3
// where it is odd.
const REGIONS: u8 = 6;

// What was accepted, by what it changed.
#[derive(Clone, Copy, Debug)]
enum Kept {
    Sq { qid: u16, cqid: u16, prp1: u64 },
    Cq { qid: u16, prp1: u64 },
    DeleteSq(u16),
    DeleteCq(u16),
    Finished(u16),
    Numbers(u32),
    Arbitration(u32),
    Nothing,
}

// Bits 15:00 of a dword.
fn low(dword: u32) -> u16 {
    (dword % 0x1_0000) as u16
}

// Bits 31:16 of a dword.
fn high(dword: u32) -> u16 {
    (dword / 0x1_0000) as u16
}

// The completion queue of a submission queue, and whether it is closing.
fn sq_of(kept: &[Kept], qid: u16) -> Option<(u16, bool)> {
    let mut closing = false;
    for step in kept.iter().rev() {
        match step {
            Kept::Finished(q) if *q == qid => return None,
            Kept::DeleteSq(q) if *q == qid => closing = true,
            Kept::Sq { qid: q, cqid, .. } if *q == qid => return Some((*cqid, closing)),
            _ => {}
        }
    }
    None
}

// Whether a completion queue exists.
fn is_cq(kept: &[Kept], qid: u16) -> bool {
    for step in kept.iter().rev() {
        match step {
            Kept::DeleteCq(q) if *q == qid => return false,
            Kept::Cq { qid: q, .. } if *q == qid => return true,
            _ => {}
        }
    }
    false
}

// Whether a submission queue posts to this completion queue.
fn is_attached(kept: &[Kept], cqid: u16) -> bool {
    for qid in 1..20u16 {
        if let Some((to, _)) = sq_of(kept, qid) {
            if to == cqid {
                return true;
            }
        }
    }
    false
}

// The last request in the list, seen from its end, is the first that was accepted.
fn numbers(kept: &[Kept]) -> (u16, u16) {
    let mut numbers = (NSQ, NCQ);
    for step in kept.iter().rev() {
        if let Kept::Numbers(cdw11) = step {
            numbers = (
                low(*cdw11).saturating_add(1).min(NSQ),
                high(*cdw11).saturating_add(1).min(NCQ),
            );
        }
    }
    numbers
}

// Command Dword 11 of the arbitration settings in force.
fn settings(kept: &[Kept]) -> u32 {
    for step in kept.iter().rev() {
        if let Kept::Arbitration(cdw11) = step {
            return *cdw11;
        }
    }
    0
}

// Whether a Create named a region. Its address isn't free for another, whatever was deleted since.
fn is_named(kept: &[Kept], address: u64) -> bool {
    kept.iter().rev().any(|step| match step {
        Kept::Sq { prp1, .. } | Kept::Cq { prp1, .. } => *prp1 == address,
        _ => false,
    })
}

// Whether a queue was created.
fn is_created(kept: &[Kept]) -> bool {
    kept.iter()
        .rev()
        .any(|step| matches!(step, Kept::Sq { .. } | Kept::Cq { .. }))
}

// An unused region at an address, where the regions of its kind begin at `first`.
fn is_free(kept: &[Kept], e: &Sqe, first: u8) -> bool {
    let slots = high(e.cdw10).saturating_add(1);
    let first = u64::from(first);
    e.prp1 > first
        && e.prp1 < first + u64::from(REGIONS)
        && slots == if e.prp1 % 2 == 0 { 2 } else { 3 }
        && !is_named(kept, e.prp1)
}

// The status of a Create I/O Completion Queue.
fn create_cq(kept: &[Kept], e: &Sqe) -> Status {
    let qid = low(e.cdw10);
    let qsize = high(e.cdw10);
    if e.cdw11 % 2 == 0 {
        Status::INVALID_FIELD
    } else if qid == 0 || qid > numbers(kept).1 || is_cq(kept, qid) {
        Status::INVALID_QUEUE_IDENTIFIER
    } else if qsize == 0 || qsize > 4095 {
        Status::INVALID_QUEUE_SIZE
    } else if !is_free(kept, e, 10) {
        Status::INVALID_FIELD
    } else {
        Status::SUCCESS
    }
}

// The status of a Create I/O Submission Queue.
fn create_sq(kept: &[Kept], e: &Sqe) -> Status {
    let qid = low(e.cdw10);
    let qsize = high(e.cdw10);
    let cqid = high(e.cdw11);
    if e.cdw11 % 2 == 0 {
        Status::INVALID_FIELD
    } else if qid == 0 || qid > numbers(kept).0 || sq_of(kept, qid).is_some() {
        Status::INVALID_QUEUE_IDENTIFIER
    } else if qsize == 0 || qsize > 4095 {
        Status::INVALID_QUEUE_SIZE
    } else if cqid == 0 || cqid > numbers(kept).1 {
        Status::INVALID_QUEUE_IDENTIFIER
    } else if !is_cq(kept, cqid) {
        Status::COMPLETION_QUEUE_INVALID
    } else if !is_free(kept, e, 0) {
        Status::INVALID_FIELD
    } else {
        Status::SUCCESS
    }
}

// The status of a Set Features.
fn set_features(kept: &[Kept], e: &Sqe) -> Status {
    let fid = e.cdw10 % 256;
    if fid != 1 && fid != 7 {
        Status::INVALID_FIELD
    } else if e.cdw10 >= 0x8000_0000 {
        Status::FEATURE_NOT_SAVEABLE
    } else if fid == 7 && is_created(kept) {
        Status::SEQUENCE_ERROR
    } else if fid == 7 && (low(e.cdw11) == 0xffff || high(e.cdw11) == 0xffff) {
        Status::INVALID_FIELD
    } else {
        Status::SUCCESS
    }
}

// The status of an admin command.
fn status(kept: &[Kept], e: &Sqe) -> Status {
    let qid = low(e.cdw10);
    if e.flags % 4 != 0 {
        return Status::INVALID_FIELD;
    }
    match e.opcode {
        0 => match sq_of(kept, qid) {
            Some((_, false)) => Status::SUCCESS,
            _ => Status::INVALID_QUEUE_IDENTIFIER,
        },
        1 => create_sq(kept, e),
        4 if !is_cq(kept, qid) => Status::INVALID_QUEUE_IDENTIFIER,
        4 if is_attached(kept, qid) => Status::INVALID_QUEUE_DELETION,
        4 => Status::SUCCESS,
        5 => create_cq(kept, e),
        8 => Status::SUCCESS,
        9 => set_features(kept, e),
        10 if e.cdw10 % 256 == 1 || e.cdw10 % 256 == 7 => Status::SUCCESS,
        10 => Status::INVALID_FIELD,
        _ => Status::INVALID_OPCODE,
    }
}

// What an accepted entry leaves.
fn step(e: &Sqe) -> Kept {
    let qid = low(e.cdw10);
    match e.opcode {
        0 => Kept::DeleteSq(qid),
        1 => Kept::Sq {
            qid,
            cqid: high(e.cdw11),
            prp1: e.prp1,
        },
        4 => Kept::DeleteCq(qid),
        5 => Kept::Cq { qid, prp1: e.prp1 },
        9 if e.cdw10 % 256 == 7 => Kept::Numbers(e.cdw11),
        9 => Kept::Arbitration(e.cdw11),
        _ => Kept::Nothing,
    }
}

// The answer to an accepted entry, after it.
fn verdict(kept: &[Kept], e: &Sqe) -> Verdict {
    let qid = low(e.cdw10);
    let (nsq, ncq) = numbers(kept);
    let dw0 = u32::from(nsq.saturating_sub(1)) + 0x1_0000 * u32::from(ncq.saturating_sub(1));
    match e.opcode {
        0 => Verdict::BeginDelete { qid },
        1 => Verdict::OpenSq {
            qid,
            region: (e.prp1 % 10) as u8,
            cqid: high(e.cdw11),
            class: match e.cdw11 / 2 % 4 {
                0 => Class::Urgent,
                1 => Class::High,
                2 => Class::Medium,
                _ => Class::Low,
            },
        },
        4 => Verdict::CloseCq { qid },
        5 => Verdict::OpenCq {
            qid,
            region: (e.prp1 % 10) as u8,
        },
        8 => Verdict::Abort {
            sqid: qid,
            cid: high(e.cdw10),
        },
        9 if e.cdw10 % 256 == 1 => Verdict::SetArbitration(Settings::from_cdw11(settings(kept))),
        10 if e.cdw10 % 256 == 1 => Verdict::Done(Status::SUCCESS, settings(kept) & 0xffff_ff07),
        _ => Verdict::Done(Status::SUCCESS, dw0),
    }
}

// The next number of a linear congruential generator, below a bound.
fn draw(seed: &mut u64, below: u32) -> u32 {
    *seed = seed
        .wrapping_mul(6_364_136_223_846_793_005)
        .wrapping_add(1_442_695_040_888_963_407);
    ((*seed / 0x2_0000_0000) % u64::from(below)) as u32
}

// Mostly a small identifier, now and then a larger one.
fn drawn_id(seed: &mut u64) -> u32 {
    if draw(seed, 4) == 0 {
        draw(seed, 9)
    } else {
        1 + draw(seed, 3)
    }
}

// A Create, most of whose fields are valid.
fn drawn_create(seed: &mut u64, opcode: u8) -> Sqe {
    let first = if opcode == 5 { 10 } else { 0 };
    let prp1 = if draw(seed, 8) == 0 {
        draw(seed, 18)
    } else {
        first + 1 + draw(seed, 5)
    };
    let qsize = match draw(seed, 8) {
        0 => 4096,
        1 => draw(seed, 4),
        _ => 1 + prp1 % 2,
    };
    let qid = drawn_id(seed);
    let cqid = drawn_id(seed);
    let qprio = draw(seed, 4);
    let pc = draw(seed, 16).min(1);
    entry(
        opcode,
        u64::from(prp1),
        qsize * 0x1_0000 + qid,
        cqid * 0x1_0000 + 2 * qprio + pc,
    )
}

// A Get or Set Features, of one of the two features or of another.
fn drawn_feature(seed: &mut u64, opcode: u8) -> Sqe {
    let fid = [1, 1, 7, 7, 2][draw(seed, 5) as usize];
    let sv = if draw(seed, 8) == 0 { 0x8000_0000 } else { 0 };
    let nsqr = if draw(seed, 8) == 0 {
        0xffff
    } else {
        draw(seed, 9)
    };
    let ncqr = if draw(seed, 8) == 0 {
        0xffff
    } else {
        draw(seed, 9)
    };
    entry(opcode, 0, fid + sv, nsqr + 0x1_0000 * ncqr)
}

// An admin command, now and then with FUSE.
fn drawn(seed: &mut u64) -> Sqe {
    let opcode = draw(seed, 12) as u8;
    let e = match opcode {
        1 | 5 => drawn_create(seed, opcode),
        8 => entry(opcode, 0, draw(seed, 4) * 0x1_0000 + drawn_id(seed), 0),
        9 | 10 => drawn_feature(seed, opcode),
        _ => entry(opcode, 0, drawn_id(seed), 0),
    };
    let flags = if draw(seed, 32) == 0 { 1 } else { 0 };
    Sqe { flags, ..e }
}

// A table with its regions, of 2 and 3 slots.
fn table_of_regions(rt: &impl Abort) -> Table {
    let mut table = Table::new(Limits { nsq: NSQ, ncq: NCQ }, Settings::from_cdw11(0));
    for k in 0..REGIONS {
        let slots = if k % 2 == 0 { 2 } else { 3 };
        expect_sq(rt, &mut table, u64::from(k), slots, Ok(k));
        expect_cq(rt, &mut table, 10 + u64::from(k), slots, Ok(k));
    }
    table
}

// Applies an entry to a table and to the list beside it. The answer is whether a submission queue was created.
fn apply_one(
    rt: &impl Abort,
    table: &mut Table,
    kept: &mut Vec<Kept>,
    entry: &Sqe,
) -> Result<bool, AllocError> {
    let expected = status(kept.as_slice(), entry);
    if expected != Status::SUCCESS {
        expect(rt, table, entry, &Verdict::Done(expected, 0));
        return Ok(false);
    }
    kept.push(step(entry))?;
    let answer = verdict(kept.as_slice(), entry);
    expect(rt, table, entry, &answer);
    Ok(entry.opcode == 1)
}

// Finishes the deletion of a queue, where it is closing.
fn finish_one(
    rt: &impl Abort,
    table: &mut Table,
    kept: &mut Vec<Kept>,
    qid: u16,
) -> Result<(), AllocError> {
    let closing = matches!(sq_of(kept.as_slice(), qid), Some((_, true)));
    assert_eq!(rt; finish(table, qid), closing);
    if closing {
        kept.push(Kept::Finished(qid))?;
    }
    Ok(())
}

// Applies 100 entries to a table and to a list beside it. The answer is how many submission queues were created.
fn play(rt: &impl Abort, alloc: Global, seed: &mut u64) -> Result<u32, AllocError> {
    let mut table = table_of_regions(rt);
    let mut kept: Vec<Kept> = Vec::new(alloc);
    let mut created: u32 = 0;
    for _ in 0..100u8 {
        if apply_one(rt, &mut table, &mut kept, &drawn(seed))? {
            created = created.wrapping_add(1);
        }
        finish_one(rt, &mut table, &mut kept, drawn_id(seed) as u16)?;
    }
    Ok(created)
}

#[test]
fn second_reading(rt: HostRuntime) -> Result<(), Fail> {
    let mut seed = 1u64;
    let mut created: u32 = 0;
    for _ in 0..50u8 {
        created = created.wrapping_add(play(&rt, rt.alloc(), &mut seed)?);
    }
    assert!(rt; created > 20, "only {created}");
    Ok(())
}
