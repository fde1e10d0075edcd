use nvme_admin::{AdminError, Effect, Limits, SqEntry};
use nvme_arbiter::{Class, Settings};
use nvme_entry::{Sqe, Status};
use nvme_placing::{PlacedTable, Placement};
use std::process::Abort;
use std::test::Fail;

// Generic Command Status, PRP Offset Invalid.
const PRP_OFFSET_INVALID: Status = Status { sct: 0, sc: 0x13 };

// Command Specific Status, Invalid Interrupt Vector.
const INVALID_INTERRUPT_VECTOR: Status = Status { sct: 1, sc: 0x08 };

// What a Create may ask for in these tests: pages of 4,096 bytes, rings of at most 16 slots, and 4 vectors.
fn placement() -> Placement {
    Placement {
        page: 0x1000,
        mqes: 15,
        vectors: 4,
    }
}

// Room for 4 submission queues and 3 completion queues.
fn limits() -> Limits {
    Limits { nsq: 4, ncq: 3 }
}

// A table whose queues may lie anywhere.
fn anywhere() -> Result<PlacedTable, AdminError> {
    PlacedTable::anywhere(limits(), Settings::from_cdw11(0), placement(), 8, 8)
}

// An entry of an opcode, with PRP1 and Command Dwords 10 and 11.
fn entry(opcode: u8, prp1: u64, cdw10: u32, cdw11: u32) -> Sqe {
    Sqe {
        opcode,
        prp1,
        cdw10,
        cdw11,
        ..Sqe::default()
    }
}

// A table creates the completion queue that an entry asks for.
fn create_cq(rt: &impl Abort, table: &mut PlacedTable, entry: &Sqe, number: u16) {
    match table.execute(entry) {
        Effect::OpenCq { qid, .. } => assert_eq!(rt; qid, number),
        effect => assert!(rt; false, "{effect:?}"),
    }
    assert!(rt; table.cq(number).is_some());
}

// A table creates the submission queue that an entry asks for, of class High and attached to completion queue 1.
fn create_sq(rt: &impl Abort, table: &mut PlacedTable, entry: &Sqe, number: u16) {
    match table.execute(entry) {
        Effect::OpenSq {
            qid,
            cqid,
            class,
            ..
        } => assert_eq!(rt; (qid, cqid, class), (number, 1, Class::High)),
        effect => assert!(rt; false, "{effect:?}"),
    }
    match table.sq(number) {
        Some(queue) => assert!(rt; queue.cqid == 1 && !queue.closing),
        None => assert!(rt; false),
    }
}

// A table refuses an entry with this status, and has the same queues and settings as before.
fn refuse(rt: &impl Abort, table: &mut PlacedTable, entry: &Sqe, status: Status) {
    let before = (table.sq(1), table.cq(1), table.settings());
    assert_eq!(rt; table.execute(entry), Effect::Done(status, 0), "{entry:?}");
    assert_eq!(rt; (table.sq(1), table.cq(1), table.settings()), before);
}

// A table deletes a submission queue, and the deletion is finished.
fn delete_sq(rt: &impl Abort, table: &mut PlacedTable, number: u16) {
    match table.execute(&entry(0, 0, u32::from(number), 0)) {
        Effect::BeginDelete { qid, .. } => assert_eq!(rt; qid, number),
        effect => assert!(rt; false, "{effect:?}"),
    }
    match table.sq(number) {
        Some(queue) if queue.closing => table.finish_delete(number),
        _ => assert!(rt; false),
    }
    assert!(rt; table.sq(number).is_none());
}

#[test]
fn queues_lie_on_regions(rt: HostRuntime) -> Result<(), Fail> {
    let mut table = PlacedTable::on_regions(limits(), Settings::from_cdw11(0));
    assert!(rt; table.placing().is_none());
    assert_eq!(rt; table.add_sq_region(0x1000, 8)?, 0);
    assert_eq!(rt; table.add_sq_region(0x2000, 8)?, 1);
    assert_eq!(rt; table.add_cq_region(0x8000, 8)?, 0);
    assert_eq!(rt; table.add_cq_region(0x9000, 8)?, 1);
    assert_eq!(rt; table.add_sq_region(0x9000, 8), Err(AdminError::Used));
    assert_eq!(rt; table.add_cq_region(0xa000, 1), Err(AdminError::Size));
    let create = entry(5, 0x9000, 0x0007_0001, 1);
    assert_eq!(rt;
        table.execute(&create),
        Effect::OpenCq { qid: 1, region: 1 }
    );
    let opened = Effect::OpenSq {
        qid: 1,
        region: 1,
        cqid: 1,
        cq_region: 1,
        class: Class::High,
    };
    let create = entry(1, 0x2000, 0x0007_0001, 0x0001_0003);
    assert_eq!(rt; table.execute(&create), opened);
    delete_sq(&rt, &mut table, 1);
    assert_eq!(rt;
        table.execute(&create),
        Effect::Done(Status::INVALID_FIELD, 0)
    );
    Ok(())
}

#[test]
fn admin_queues_lie_anywhere(rt: HostRuntime) -> Result<(), Fail> {
    let mut table = anywhere()?;
    assert_eq!(rt; table.placing(), Some(placement()));
    let admin = SqEntry {
        region: 0,
        cqid: 0,
        class: Class::Admin,
        closing: false,
    };
    assert_eq!(rt; table.sq(0), Some(admin));
    assert_eq!(rt; table.cq(0), Some(0));
    assert!(rt; table.sq(1).is_none() && table.cq(1).is_none());
    assert_eq!(rt; (table.allotted().nsq, table.allotted().ncq), (4, 3));
    assert_eq!(rt; table.settings(), Settings::from_cdw11(0));
    assert_eq!(rt; table.add_sq_region(0x1000, 8), Err(AdminError::TooMany));
    assert_eq!(rt; table.add_cq_region(0x1000, 8), Err(AdminError::TooMany));
    Ok(())
}

#[test]
fn admin_rings_have_their_sizes(rt: HostRuntime) {
    let cases = [
        (2, 2, true),
        (4096, 4096, true),
        (1, 8, false),
        (8, 1, false),
        (4097, 8, false),
        (8, 4097, false),
    ];
    for (sq_slots, cq_slots, fits) in cases {
        let made = PlacedTable::anywhere(
            limits(),
            Settings::from_cdw11(0),
            placement(),
            sq_slots,
            cq_slots,
        );
        match made {
            Ok(_) => assert!(rt; fits),
            Err(error) => assert!(rt; !fits && error == AdminError::Size),
        }
    }
}

// Four queues at one address. Each deleted queue is created again there, with another number of slots.
#[test]
fn queues_share_an_address(rt: HostRuntime) -> Result<(), Fail> {
    let mut table = anywhere()?;
    create_cq(&rt, &mut table, &entry(5, 0x3000, 0x0007_0001, 1), 1);
    create_cq(&rt, &mut table, &entry(5, 0x3000, 0x0003_0002, 1), 2);
    let create = entry(1, 0x3000, 0x0007_0001, 0x0001_0003);
    create_sq(&rt, &mut table, &create, 1);
    let create_second = entry(1, 0x3000, 0x0007_0002, 0x0001_0003);
    create_sq(&rt, &mut table, &create_second, 2);
    refuse(&rt, &mut table, &create, Status::INVALID_QUEUE_IDENTIFIER);
    delete_sq(&rt, &mut table, 1);
    let create_longer = entry(1, 0x3000, 0x000f_0001, 0x0001_0003);
    create_sq(&rt, &mut table, &create_longer, 1);
    delete_sq(&rt, &mut table, 1);
    create_sq(&rt, &mut table, &create_longer, 1);
    match table.execute(&entry(4, 0, 2, 0)) {
        Effect::CloseCq { qid, .. } => assert_eq!(rt; qid, 2),
        effect => assert!(rt; false, "{effect:?}"),
    }
    assert!(rt; table.cq(2).is_none());
    create_cq(&rt, &mut table, &entry(5, 0x3000, 0x0001_0002, 1), 2);
    Ok(())
}

#[test]
fn completion_queues_are_refused(rt: HostRuntime) -> Result<(), Fail> {
    let mut table = anywhere()?;
    // The address, Command Dwords 10 and 11, and the status. Each has all faults of those below it.
    let cases = [
        (0x1800, 0x0010_0000, 0x0004_0000, Status::INVALID_QUEUE_SIZE),
        (0x1800, 0x000f_0000, 0x0004_0000, PRP_OFFSET_INVALID),
        (0x2000, 0x000f_0000, 0x0004_0000, INVALID_INTERRUPT_VECTOR),
        (0x2000, 0x000f_0000, 0x0003_0000, Status::INVALID_FIELD),
        (
            0x2000,
            0x000f_0000,
            0x0003_0001,
            Status::INVALID_QUEUE_IDENTIFIER,
        ),
        (0x2000, 0x0000_0001, 0x0003_0001, Status::INVALID_QUEUE_SIZE),
    ];
    for (prp1, cdw10, cdw11, status) in cases {
        refuse(&rt, &mut table, &entry(5, prp1, cdw10, cdw11), status);
    }
    create_cq(
        &rt,
        &mut table,
        &entry(5, 0x2000, 0x000f_0001, 0x0003_0001),
        1,
    );
    Ok(())
}

#[test]
fn submission_queues_are_refused(rt: HostRuntime) -> Result<(), Fail> {
    let mut table = anywhere()?;
    create_cq(&rt, &mut table, &entry(5, 0, 0x0007_0001, 1), 1);
    let cases = [
        (0x2001, 0x0010_0005, 0x0004_0000, Status::INVALID_QUEUE_SIZE),
        (0x2001, 0x000f_0005, 0x0004_0000, PRP_OFFSET_INVALID),
        (0x2000, 0x000f_0005, 0x0004_0000, Status::INVALID_FIELD),
        (
            0x2000,
            0x000f_0005,
            0x0004_0003,
            Status::INVALID_QUEUE_IDENTIFIER,
        ),
        (0x2000, 0x0000_0001, 0x0004_0003, Status::INVALID_QUEUE_SIZE),
        (
            0x2000,
            0x000f_0001,
            0x0004_0003,
            Status::INVALID_QUEUE_IDENTIFIER,
        ),
        (
            0x2000,
            0x000f_0001,
            0x0002_0003,
            Status::COMPLETION_QUEUE_INVALID,
        ),
    ];
    for (prp1, cdw10, cdw11, status) in cases {
        refuse(&rt, &mut table, &entry(1, prp1, cdw10, cdw11), status);
    }
    create_sq(
        &rt,
        &mut table,
        &entry(1, 0x2000, 0x000f_0001, 0x0001_0003),
        1,
    );
    Ok(())
}

// A fused entry is refused for that alone, whatever it asks for.
#[test]
fn fused_creates_are_refused(rt: HostRuntime) -> Result<(), Fail> {
    let mut table = anywhere()?;
    let mut fused = entry(5, 0x1800, 0x0010_0001, 0x0004_0001);
    fused.flags = 1;
    refuse(&rt, &mut table, &fused, Status::INVALID_FIELD);
    Ok(())
}

// Other commands have no further check, and features answer as in any table.
#[test]
fn features_are_set_anywhere(rt: HostRuntime) -> Result<(), Fail> {
    let mut table = anywhere()?;
    let set = table.execute(&entry(9, 0x1801, 0x07, 0x0001_0001));
    assert_eq!(rt; set, Effect::Done(Status::SUCCESS, 0x0001_0001));
    assert_eq!(rt; (table.allotted().nsq, table.allotted().ncq), (2, 2));
    let settings = Settings::from_cdw11(0x0302_0103);
    let set = table.execute(&entry(9, 0, 0x01, 0x0302_0103));
    assert_eq!(rt; set, Effect::SetArbitration(settings));
    assert_eq!(rt; table.settings(), settings);
    Ok(())
}
