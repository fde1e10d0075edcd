// SPDX-License-Identifier: MIT
//! The queue table: admin commands with their answers. Values are the specification's.
use nvmearb::admin_opcode::*;
use nvmearb::{Answer, Error, Priority, Queue, Sqe, Status, Table, Verdict, MAX_REGIONS};

fn applied(table: &mut Table, opcode: u8, prp1: u64, cdw10: u32, cdw11: u32) -> Answer {
    table.apply(&Sqe { opcode, prp1, cdw10, cdw11, ..Sqe::default() }.to_bytes())
}

fn done(status: Status, dw0: u32) -> Answer {
    Answer { status, dw0, verdict: Verdict::Done }
}

fn succeeds(verdict: Verdict) -> Answer {
    Answer { status: Status::SUCCESS, dw0: 0, verdict }
}

/// Regions of 8 slots at 0x1000 to 0x3000 and 0x8000 to 0xa000, and both queues 1 open on regions 1.
fn prepared() -> Table {
    let mut table = Table::new(16, 16, 0).unwrap();
    for k in 0..3 {
        assert_eq!(table.add_sq_region(0x1000 * (u64::from(k) + 1), 8), Ok(k));
        assert_eq!(table.add_cq_region(0x8000 + 0x1000 * u64::from(k), 8), Ok(k));
    }
    let cq = succeeds(Verdict::OpenCq { qid: 1, region: 1 });
    assert_eq!(applied(&mut table, CREATE_CQ, 0x9000, 0x0007_0001, 1), cq);
    let sq = succeeds(Verdict::OpenSq { qid: 1, region: 1, cqid: 1, priority: Priority::High });
    assert_eq!(applied(&mut table, CREATE_SQ, 0x2000, 0x0007_0001, 0x0001_0003), sq);
    table
}

#[test]
fn creates_are_refused_as_the_specification_says() {
    let mut table = prepared();
    let refusals = [
        (CREATE_SQ, 0x3000, 0x0000_0003, 0x0001_0003, Status::INVALID_QUEUE_SIZE),
        (CREATE_SQ, 0x3000, 0x1000_0003, 0x0001_0003, Status::INVALID_QUEUE_SIZE),
        (CREATE_SQ, 0x3000, 0x0007_0001, 0x0001_0003, Status::INVALID_QUEUE_IDENTIFIER),
        (CREATE_SQ, 0x3000, 0x0007_0011, 0x0001_0003, Status::INVALID_QUEUE_IDENTIFIER),
        (CREATE_SQ, 0x3000, 0x0007_0003, 0x0002_0003, Status::COMPLETION_QUEUE_INVALID),
        (CREATE_SQ, 0x3000, 0x0007_0003, 0x0001_0002, Status::INVALID_FIELD), // PC is 0
        (CREATE_SQ, 0x2000, 0x0007_0003, 0x0001_0003, Status::INVALID_FIELD), // the region is used
        (CREATE_CQ, 0xa000, 0x0007_0001, 1, Status::INVALID_QUEUE_IDENTIFIER),
        (DELETE_CQ, 0, 1, 0, Status::INVALID_QUEUE_DELETION),
        (0x06, 0, 1, 0, Status::INVALID_OPCODE), // Identify
    ];
    for (opcode, prp1, cdw10, cdw11, status) in refusals {
        assert_eq!(applied(&mut table, opcode, prp1, cdw10, cdw11), done(status, 0));
    }
}

#[test]
fn deletions_end_when_the_caller_says() {
    let mut table = prepared();
    assert_eq!(table.finish_delete(1), Err(Error::Argument));
    assert_eq!(applied(&mut table, DELETE_SQ, 0, 1, 0), succeeds(Verdict::BeginDelete { qid: 1 }));
    let queue = Queue { region: 1, cqid: 1, priority: Priority::High, closing: true };
    assert_eq!(table.sq(1), Some(queue));
    assert_eq!(applied(&mut table, DELETE_CQ, 0, 1, 0), done(Status::INVALID_QUEUE_DELETION, 0));
    assert_eq!(table.finish_delete(1), Ok(()));
    assert_eq!((table.sq(1), table.finish_delete(1)), (None, Err(Error::Argument)));
    assert_eq!(table.cq(1), Some(1));
    assert_eq!(applied(&mut table, DELETE_CQ, 0, 1, 0), succeeds(Verdict::CloseCq { qid: 1 }));
    assert_eq!(table.cq(1), None);
}

#[test]
fn aborts_are_told() {
    let mut table = prepared();
    let abort = succeeds(Verdict::Abort { sqid: 1, cid: 5 });
    assert_eq!(applied(&mut table, ABORT, 0, 0x0005_0001, 0), abort);
}

#[test]
fn features_are_set_and_told() {
    let mut table = Table::new(8, 4, 0).unwrap();
    table.add_sq_region(0x1000, 8).unwrap();
    table.add_cq_region(0x8000, 8).unwrap();
    assert_eq!(table.allotted(), (8, 4));
    assert_eq!(applied(&mut table, GET_FEATURES, 0, 7, 0), done(Status::SUCCESS, 0x0003_0007));
    assert_eq!(applied(&mut table, SET_FEATURES, 0, 7, 0x0003_ffff), done(Status::INVALID_FIELD, 0));
    assert_eq!(applied(&mut table, SET_FEATURES, 0, 7, 0x0007_0003), done(Status::SUCCESS, 0x0003_0003));
    assert_eq!(table.allotted(), (4, 4));
    let saved = done(Status::FEATURE_NOT_SAVEABLE, 0);
    assert_eq!(applied(&mut table, SET_FEATURES, 0, 0x8000_0001, 0x0301_0001), saved);
    assert_eq!(applied(&mut table, GET_FEATURES, 0, 2, 0), done(Status::INVALID_FIELD, 0));
    let set = succeeds(Verdict::SetArbitration { cdw11: 0x0301_0001 });
    assert_eq!(applied(&mut table, SET_FEATURES, 0, 1, 0x0301_00f9), set);
    let settings = table.settings();
    assert_eq!((settings.cdw11, settings.burst, settings.high), (0x0301_0001, Some(2), 4));
    assert_eq!(applied(&mut table.clone(), GET_FEATURES, 0, 1, 0), done(Status::SUCCESS, 0x0301_0001));
}

#[test]
fn tables_and_regions_are_refused() {
    for (nsq, ncq) in [(0, 1), (1, 0), (65, 1), (1, 65)] {
        assert_eq!(Table::new(nsq, ncq, 0).unwrap_err(), Error::Argument);
    }
    let mut table = Table::new(64, 64, 0).unwrap();
    assert_eq!((table.sq(0), table.cq(0)), (None, None));
    assert_eq!(table.add_sq_region(1, 1), Err(Error::Size));
    assert_eq!(table.add_cq_region(1, 4097), Err(Error::Size));
    for k in 0..MAX_REGIONS as u16 {
        assert_eq!(table.add_sq_region(k.into(), 4096), Ok(k));
        assert_eq!(table.add_cq_region(k.into(), 2), Err(Error::Used));
    }
    assert_eq!(table.add_sq_region(3, 0), Err(Error::Used));
    assert_eq!(table.add_sq_region(99, 0), Err(Error::TooMany));
    let admin = Queue { region: 0, cqid: 0, priority: Priority::Admin, closing: false };
    assert_eq!((table.sq(0), table.sq(65), table.cq(65535)), (Some(admin), None, None));
    assert_eq!(table.add_cq_region(99, 2), Ok(0));
    assert_eq!(table.cq(0), Some(0));
}
