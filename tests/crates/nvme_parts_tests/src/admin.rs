mod reading;

use nvme_admin::{AdminError, Effect, Limits, SqEntry, Table, TableFields, Verdict};
use nvme_arbiter::{Class, Settings};
use nvme_entry::{Sqe, Status};
use std::process::Abort;
use std::test::Fail;

// An entry of an opcode, with PRP1 and Command Dwords 10 and 11.
fn entry(opcode: u8, prp1: u64, cdw10: u32, cdw11: u32) -> Sqe {
    Sqe {
        opcode,
        flags: 0,
        cid: 0,
        nsid: 0,
        cdw2: 0,
        cdw3: 0,
        mptr: 0,
        prp1,
        prp2: 0,
        cdw10,
        cdw11,
        cdw12: 0,
        cdw13: 0,
        cdw14: 0,
        cdw15: 0,
    }
}

// Adds regions of 8 slots at 0x1000 to 0x3000 and 0x8000 to 0xa000, and one of 16 slots of each kind.
fn add_regions(table: &mut Table) -> Result<(), AdminError> {
    table.add_sq_region(0x1000, 8)?;
    table.add_sq_region(0x2000, 8)?;
    table.add_sq_region(0x3000, 8)?;
    table.add_sq_region(0x4000, 16)?;
    table.add_cq_region(0x8000, 8)?;
    table.add_cq_region(0x9000, 8)?;
    table.add_cq_region(0xa000, 8)?;
    table.add_cq_region(0xb000, 16)?;
    Ok(())
}

// A table answers a command with this verdict.
fn expect(rt: &impl Abort, table: &mut Table, entry: &Sqe, verdict: &Verdict) {
    assert_eq!(rt; table.apply(entry), *verdict, "{entry:?}");
}

// A table refuses a command with this status, and keeps its queues.
fn refuse(rt: &impl Abort, table: &mut Table, entry: &Sqe, status: Status) {
    expect(rt, table, entry, &Verdict::Done(status, 0));
    assert!(rt; is_as_prepared(table), "{entry:?}");
}

// A table with these regions, with completion queue 1 and submission queue 1 open.
fn prepared(rt: &impl Abort, nsq: u16, ncq: u16) -> Result<Table, AdminError> {
    let mut table = Table::new(Limits { nsq, ncq }, Settings::from_cdw11(0));
    add_regions(&mut table)?;
    let create_cq = entry(5, 0x9000, 0x0007_0001, 1);
    expect(
        rt,
        &mut table,
        &create_cq,
        &Verdict::OpenCq { qid: 1, region: 1 },
    );
    let create_sq = entry(1, 0x2000, 0x0007_0001, 0x0001_0003);
    let opened = Verdict::OpenSq {
        qid: 1,
        region: 1,
        cqid: 1,
        class: Class::High,
    };
    expect(rt, &mut table, &create_sq, &opened);
    Ok(table)
}

// Whether the queues are those of `prepared`.
fn is_as_prepared(table: &Table) -> bool {
    let first = SqEntry {
        region: 1,
        cqid: 1,
        class: Class::High,
        closing: false,
    };
    table.sq(1) == Some(first)
        && table.cq(1) == Some(1)
        && table.sq(2).is_none()
        && table.sq(3).is_none()
        && table.cq(2).is_none()
        && table.cq(3).is_none()
        && table.sq(65).is_none()
        && table.cq(0) == Some(0)
        && table.sq(0).is_some()
}

#[test]
fn create_sq_refusals(rt: HostRuntime) -> Result<(), Fail> {
    let mut table = prepared(&rt, 16, 16)?;
    let refused = [
        (0x0000_0003, 0x0001_0003, Status::INVALID_QUEUE_SIZE),
        (0x1000_0003, 0x0001_0003, Status::INVALID_QUEUE_SIZE),
        (0x0100_0003, 0x0001_0003, Status::INVALID_FIELD),
        (0x0007_0001, 0x0001_0003, Status::INVALID_QUEUE_IDENTIFIER),
        (0x0007_0011, 0x0001_0003, Status::INVALID_QUEUE_IDENTIFIER),
        (0x0007_0000, 0x0001_0003, Status::INVALID_QUEUE_IDENTIFIER),
        (0x0007_0003, 0x0002_0003, Status::COMPLETION_QUEUE_INVALID),
        (0x0007_0003, 0x0000_0003, Status::INVALID_QUEUE_IDENTIFIER),
        (0x0007_0003, 0x0011_0003, Status::INVALID_QUEUE_IDENTIFIER),
    ];
    for &(cdw10, cdw11, status) in &refused {
        refuse(&rt, &mut table, &entry(1, 0x3000, cdw10, cdw11), status);
    }
    Ok(())
}

#[test]
fn create_sq_refuses_fields(rt: HostRuntime) -> Result<(), Fail> {
    let mut table = prepared(&rt, 16, 16)?;
    for &prp1 in &[0x2000, 0x1000, 0x4000, 0xa000, 0x5000] {
        let create = entry(1, prp1, 0x0007_0003, 0x0001_0003);
        refuse(&rt, &mut table, &create, Status::INVALID_FIELD);
    }
    let scattered = entry(1, 0x3000, 0x0007_0003, 0x0001_0002);
    refuse(&rt, &mut table, &scattered, Status::INVALID_FIELD);
    let fused = Sqe {
        flags: 1,
        ..entry(1, 0x3000, 0x0007_0003, 0x0001_0003)
    };
    refuse(&rt, &mut table, &fused, Status::INVALID_FIELD);
    let create = entry(1, 0x3000, 0x0007_0003, 0x0001_0007);
    let opened = Verdict::OpenSq {
        qid: 3,
        region: 2,
        cqid: 1,
        class: Class::Low,
    };
    expect(&rt, &mut table, &create, &opened);
    Ok(())
}

#[test]
fn create_cq_refusals(rt: HostRuntime) -> Result<(), Fail> {
    let mut table = prepared(&rt, 16, 16)?;
    let refused = [
        (0xa000, 0x0000_0003, 1, Status::INVALID_QUEUE_SIZE),
        (0xa000, 0x1000_0003, 1, Status::INVALID_QUEUE_SIZE),
        (0xa000, 0x0100_0003, 1, Status::INVALID_FIELD),
        (0xa000, 0x0007_0001, 1, Status::INVALID_QUEUE_IDENTIFIER),
        (0xa000, 0x0007_0011, 1, Status::INVALID_QUEUE_IDENTIFIER),
        (0xa000, 0x0007_0000, 1, Status::INVALID_QUEUE_IDENTIFIER),
        (0xa000, 0x0007_0003, 0, Status::INVALID_FIELD),
        (0x9000, 0x0007_0003, 1, Status::INVALID_FIELD),
        (0x8000, 0x0007_0003, 1, Status::INVALID_FIELD),
        (0xb000, 0x0007_0003, 1, Status::INVALID_FIELD),
        (0x3000, 0x0007_0003, 1, Status::INVALID_FIELD),
        (0x5000, 0x0007_0003, 1, Status::INVALID_FIELD),
    ];
    for &(prp1, cdw10, cdw11, status) in &refused {
        refuse(&rt, &mut table, &entry(5, prp1, cdw10, cdw11), status);
    }
    let create = entry(5, 0xb000, 0x000f_0003, 1);
    let opened = Verdict::OpenCq { qid: 3, region: 3 };
    expect(&rt, &mut table, &create, &opened);
    Ok(())
}

// Finishes the deletion of a queue, where it is closing.
fn finish(table: &mut Table, qid: u16) -> bool {
    match table.sq(qid) {
        Some(queue) if queue.closing => {
            table.finish_delete(qid);
            true
        }
        _ => false,
    }
}

#[test]
fn delete_order(rt: HostRuntime) -> Result<(), Fail> {
    let mut table = prepared(&rt, 16, 16)?;
    let delete_cq = entry(4, 0, 1, 0);
    let delete_sq = entry(0, 0, 1, 0);
    let create_sq = entry(1, 0x3000, 0x0007_0001, 0x0001_0003);
    let attached = Verdict::Done(Status::INVALID_QUEUE_DELETION, 0);
    let no_such = Verdict::Done(Status::INVALID_QUEUE_IDENTIFIER, 0);
    expect(&rt, &mut table, &delete_cq, &attached);
    expect(
        &rt,
        &mut table,
        &delete_sq,
        &Verdict::BeginDelete { qid: 1 },
    );
    expect(&rt, &mut table, &delete_cq, &attached);
    expect(&rt, &mut table, &delete_sq, &no_such);
    expect(&rt, &mut table, &create_sq, &no_such);
    assert!(rt; finish(&mut table, 1));
    expect(&rt, &mut table, &delete_cq, &Verdict::CloseCq { qid: 1 });
    expect(&rt, &mut table, &delete_cq, &no_such);
    expect(&rt, &mut table, &entry(0, 0, 0, 0), &no_such);
    expect(&rt, &mut table, &entry(4, 0, 0, 0), &no_such);
    Ok(())
}

#[test]
fn effects_name_regions(rt: HostRuntime) -> Result<(), Fail> {
    let mut table = prepared(&rt, 16, 16)?;
    let created = Effect::OpenCq { qid: 2, region: 3 };
    let create_cq = entry(5, 0xb000, 0x000f_0002, 1);
    assert_eq!(rt; table.execute(&create_cq), created);
    let opened = Effect::OpenSq {
        qid: 3,
        region: 2,
        cqid: 2,
        cq_region: 3,
        class: Class::Low,
    };
    let create_sq = entry(1, 0x3000, 0x0007_0003, 0x0002_0007);
    assert_eq!(rt; table.execute(&create_sq), opened);
    let closing = Effect::BeginDelete { qid: 3, region: 2 };
    assert_eq!(rt; table.execute(&entry(0, 0, 3, 0)), closing);
    assert!(rt; finish(&mut table, 3));
    let closed = Effect::CloseCq { qid: 2, region: 3 };
    assert_eq!(rt; table.execute(&entry(4, 0, 2, 0)), closed);
    Ok(())
}

// The numbers of queues of a table for 8 submission and 4 completion queues, once they are set and a queue exists.
fn set_numbers(rt: &impl Abort, table: &mut Table) {
    let done = |dw0: u32| Verdict::Done(Status::SUCCESS, dw0);
    let get_numbers = entry(10, 0, 7, 0);
    expect(rt, table, &get_numbers, &done(0x0003_0007));
    let too_many = Verdict::Done(Status::INVALID_FIELD, 0);
    expect(rt, table, &entry(9, 0, 7, 0x0003_ffff), &too_many);
    expect(rt, table, &entry(9, 0, 7, 0x0007_0003), &done(0x0003_0003));
    expect(rt, table, &entry(9, 0, 7, 0), &done(0x0003_0003));
    expect(rt, table, &get_numbers, &done(0x0003_0003));
    assert_eq!(rt; table.allotted(), Limits { nsq: 4, ncq: 4 });
    let too_high = Verdict::Done(Status::INVALID_QUEUE_IDENTIFIER, 0);
    expect(rt, table, &entry(5, 0x9000, 0x0007_0005, 1), &too_high);
    let opened = Verdict::OpenCq { qid: 4, region: 1 };
    expect(rt, table, &entry(5, 0x9000, 0x0007_0004, 1), &opened);
    let late = Verdict::Done(Status::SEQUENCE_ERROR, 0);
    expect(rt, table, &entry(9, 0, 7, 0x0003_ffff), &late);
}

#[test]
fn features(rt: HostRuntime) -> Result<(), Fail> {
    let mut table = Table::new(Limits { nsq: 8, ncq: 4 }, Settings::from_cdw11(0x0301_0001));
    table.add_sq_region(0x1000, 8)?;
    table.add_cq_region(0x8000, 8)?;
    table.add_cq_region(0x9000, 8)?;
    set_numbers(&rt, &mut table);
    let done = |dw0: u32| Verdict::Done(Status::SUCCESS, dw0);
    expect(&rt, &mut table, &entry(10, 0, 1, 0), &done(0x0301_0001));
    let refused = [
        (9, 0x8000_0001, Status::FEATURE_NOT_SAVEABLE),
        (9, 2, Status::INVALID_FIELD),
        (10, 2, Status::INVALID_FIELD),
        (6, 0, Status::INVALID_OPCODE),
    ];
    for &(opcode, cdw10, status) in &refused {
        let verdict = Verdict::Done(status, 0);
        expect(&rt, &mut table, &entry(opcode, 0, cdw10, 0), &verdict);
    }
    let abort = Verdict::Abort { sqid: 3, cid: 7 };
    expect(&rt, &mut table, &entry(8, 0, 0x0007_0003, 0), &abort);
    let settings = Settings::from_cdw11(0xffff_ffff);
    let set = Verdict::SetArbitration(settings);
    expect(&rt, &mut table, &entry(9, 0, 1, 0xffff_ffff), &set);
    expect(&rt, &mut table, &entry(10, 0, 1, 0), &done(0xffff_ff07));
    assert_eq!(rt; table.settings(), settings);
    Ok(())
}

// Adding a submission region to a table has this result.
fn expect_sq(
    rt: &impl Abort,
    table: &mut Table,
    address: u64,
    slots: u16,
    added: Result<u8, AdminError>,
) {
    assert_eq!(rt; table.add_sq_region(address, slots), added);
}

// Adding a completion region to a table has this result.
fn expect_cq(
    rt: &impl Abort,
    table: &mut Table,
    address: u64,
    slots: u16,
    added: Result<u8, AdminError>,
) {
    assert_eq!(rt; table.add_cq_region(address, slots), added);
}

#[test]
fn region_refusals(rt: HostRuntime) {
    let mut table = Table::new(Limits { nsq: 1, ncq: 1 }, Settings::from_cdw11(0));
    expect_sq(&rt, &mut table, 64, 1, Err(AdminError::Size));
    expect_sq(&rt, &mut table, 64, 4097, Err(AdminError::Size));
    assert!(rt; table.sq(0).is_none());
    expect_sq(&rt, &mut table, 64, 2, Ok(0));
    expect_cq(&rt, &mut table, 64, 2, Err(AdminError::Used));
    expect_cq(&rt, &mut table, 65, 4096, Ok(0));
    expect_sq(&rt, &mut table, 65, 2, Err(AdminError::Used));
    for k in 1..65u8 {
        let place = u64::from(k);
        expect_sq(&rt, &mut table, 100 + place, 2, Ok(k));
        expect_cq(&rt, &mut table, 200 + place, 2, Ok(k));
    }
    expect_sq(&rt, &mut table, 300, 1, Err(AdminError::TooMany));
    expect_cq(&rt, &mut table, 300, 2, Err(AdminError::TooMany));
    expect_cq(&rt, &mut table, 101, 2, Err(AdminError::Used));
}

// A table with two regions of 8 slots of each kind, with completion queue 1 and submission queue 1 on the second ones.
fn with_queues(rt: &impl Abort) -> Result<TableFields, AdminError> {
    let mut table = TableFields::new(Limits { nsq: 4, ncq: 4 }, Settings::from_cdw11(0));
    table.add_sq_region(0x1000, 8)?;
    table.add_sq_region(0x2000, 8)?;
    table.add_cq_region(0x8000, 8)?;
    table.add_cq_region(0x9000, 8)?;
    let created = Effect::OpenCq { qid: 1, region: 1 };
    assert_eq!(rt; table.execute(&entry(5, 0x9000, 0x0007_0001, 1)), created);
    let opened = Effect::OpenSq {
        qid: 1,
        region: 1,
        cqid: 1,
        cq_region: 1,
        class: Class::Urgent,
    };
    assert_eq!(rt;
        table.execute(&entry(1, 0x2000, 0x0007_0001, 0x0001_0001)),
        opened
    );
    Ok(table)
}

// Deletes submission queue 1 of such a table.
fn delete_first(rt: &impl Abort, table: &mut TableFields) {
    let closing = Effect::BeginDelete { qid: 1, region: 1 };
    assert_eq!(rt; table.execute(&entry(0, 0, 1, 0)), closing);
    match table.sq(1) {
        Some(queue) if queue.closing => table.finish_delete(1),
        _ => {}
    }
}

#[test]
fn submission_region_is_renewed(rt: HostRuntime) -> Result<(), Fail> {
    let mut table = with_queues(&rt)?;
    delete_first(&rt, &mut table);
    let create_sq = entry(1, 0x2000, 0x000f_0001, 0x0001_0003);
    let refused = Effect::Done(Status::INVALID_FIELD, 0);
    assert_eq!(rt; table.execute(&create_sq), refused);
    table.renew_sq_region(0, 16);
    table.renew_sq_region(1, 16);
    table.renew_sq_region(2, 16);
    assert!(rt; table.is_sq_region_used(0) && !table.is_sq_region_used(1));
    let opened = Effect::OpenSq {
        qid: 1,
        region: 1,
        cqid: 1,
        cq_region: 1,
        class: Class::High,
    };
    assert_eq!(rt; table.execute(&create_sq), opened);
    Ok(())
}

#[test]
fn completion_region_is_renewed(rt: HostRuntime) -> Result<(), Fail> {
    let mut table = with_queues(&rt)?;
    delete_first(&rt, &mut table);
    let closed = Effect::CloseCq { qid: 1, region: 1 };
    assert_eq!(rt; table.execute(&entry(4, 0, 1, 0)), closed);
    let create_cq = entry(5, 0x9000, 0x000f_0001, 1);
    let refused = Effect::Done(Status::INVALID_FIELD, 0);
    assert_eq!(rt; table.execute(&create_cq), refused);
    table.renew_cq_region(0, 16);
    table.renew_cq_region(1, 16);
    table.renew_cq_region(2, 16);
    assert!(rt; table.is_cq_region_used(0) && !table.is_cq_region_used(1));
    let created = Effect::OpenCq { qid: 1, region: 1 };
    assert_eq!(rt; table.execute(&create_cq), created);
    Ok(())
}

#[test]
fn fault_messages(rt: HostRuntime) -> Result<(), Fail> {
    let alloc = rt.alloc();
    let cases = [
        (AdminError::Used, "the address is that of another region"),
        (AdminError::TooMany, "65 regions of this kind are there"),
        (AdminError::Size, "the number of slots is outside 2 to 4096"),
    ];
    for (fault, line) in &cases {
        assert_eq!(rt; fault.to_string(alloc)?.as_str(), *line);
    }
    Ok(())
}
