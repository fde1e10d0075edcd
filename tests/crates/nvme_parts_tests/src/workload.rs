// Worked workloads, field by field, and the texts of faults.
use nvme_admin::Limits;
use nvme_arbiter::{Mechanism, Settings};
use nvme_entry::{Namespaces, Sqe};
use nvme_texts::{CREATED_ANEW, DELETE_THREE, EMPTY, FIVE_QUEUES, THOUSAND};
use nvme_workload::{CqPlan, Key, SqPlan, Workload, WorkloadError, read};
use std::process::Abort;
use std::test::Fail;

// The empty workload with one command, all of whose keys are written.
const ONE_COMMAND: &str = "mechanism = \"round-robin\"
arbitration = 0
sq_limit = 16
cq_limit = 16
patience = 1
namespaces = []
[[submission]]
address = 0x1000
slots = 16
script = [{ op = 2, flags = 3, nsid = 4, prp1 = 5, cdw10 = 6, cdw11 = 7, cdw12 = 8, count = 1 }]
[[completion]]
address = 0x8000
slots = 16
";

// A command of an admin script.
fn admin(cid: u16, opcode: u8, prp1: u64, cdw10: u32, cdw11: u32) -> Sqe {
    Sqe {
        opcode,
        cid,
        prp1,
        cdw10,
        cdw11,
        ..Sqe::default()
    }
}

// A command of an I/O script.
fn io(cid: u16, opcode: u8, nsid: u32, cdw10: u32, cdw12: u32) -> Sqe {
    Sqe {
        opcode,
        cid,
        nsid,
        cdw10,
        cdw12,
        ..Sqe::default()
    }
}

// A workload has this mechanism and these settings, and the values that all worked files share.
fn expect_head(rt: &impl Abort, workload: &Workload, mechanism: Mechanism, cdw11: u32) {
    let settings = Settings::from_cdw11(cdw11);
    assert_eq!(rt;
        (workload.mechanism, workload.settings),
        (mechanism, settings)
    );
    assert_eq!(rt; workload.limits, Limits { nsq: 16, ncq: 16 });
    assert!(rt; Namespaces::new(&[1000]) == Ok(workload.spaces));
    assert_eq!(rt; workload.patience, 100_000_000);
}

// A submission region with its script, command by command.
fn expect_submission(rt: &impl Abort, region: &SqPlan, address: u64, slots: u16, script: &[Sqe]) {
    assert_eq!(rt; (region.address, region.slots), (address, slots));
    assert_eq!(rt; region.script.as_slice(), script);
}

// A region of n equal commands.
fn expect_equal(
    rt: &impl Abort,
    region: &SqPlan,
    address: u64,
    slots: u16,
    command: Sqe,
    n: usize,
) {
    assert_eq!(rt; (region.address, region.slots), (address, slots));
    assert_eq!(rt; region.script.as_slice().len(), n);
    for (index, entry) in region.script.as_slice().iter().enumerate() {
        let cid = (index % 0x1_0000) as u16;
        assert!(rt; *entry == Sqe { cid, ..command }, "{index}: {entry:?}");
    }
}

// The completion regions, in order.
fn expect_completions(rt: &impl Abort, workload: &Workload, regions: &[CqPlan]) {
    assert_eq!(rt; workload.completions.as_slice(), regions);
}

// A completion region.
const fn completion(address: u64, slots: u16) -> CqPlan {
    CqPlan { address, slots }
}

#[test]
fn five_queues_weighted(rt: HostRuntime) -> Result<(), Fail> {
    let workload = read(rt.alloc(), FIVE_QUEUES.as_bytes())?;
    expect_head(&rt, &workload, Mechanism::Weighted, 0x0301_0001);
    let regions = workload.submissions.as_slice();
    assert_eq!(rt; regions.len(), 5);
    let script = [
        admin(0, 5, 0x9000, 0x003f_0001, 1),
        admin(1, 1, 0x2000, 0x0007_0001, 0x0001_0003),
        admin(2, 1, 0x3000, 0x0007_0002, 0x0001_0003),
        admin(3, 1, 0x4000, 0x0007_0003, 0x0001_0005),
        admin(4, 1, 0x5000, 0x0007_0004, 0x0001_0007),
    ];
    expect_submission(&rt, &regions[0], 0x1000, 16, &script);
    expect_equal(&rt, &regions[1], 0x2000, 8, io(0, 2, 1, 0, 7), 5);
    expect_equal(&rt, &regions[2], 0x3000, 8, io(0, 1, 1, 0, 0), 5);
    expect_equal(&rt, &regions[3], 0x4000, 8, io(0, 0, 0xffff_ffff, 0, 0), 5);
    let script = [
        io(0, 2, 1, 992, 7),
        io(1, 2, 1, 992, 7),
        io(2, 2, 1, 992, 7),
        io(3, 2, 1, 992, 7),
        io(4, 2, 1, 993, 7),
    ];
    expect_submission(&rt, &regions[4], 0x5000, 8, &script);
    expect_completions(
        &rt,
        &workload,
        &[completion(0x8000, 16), completion(0x9000, 64)],
    );
    Ok(())
}

#[test]
fn empty_workload(rt: HostRuntime) -> Result<(), Fail> {
    let workload = read(rt.alloc(), EMPTY.as_bytes())?;
    expect_head(&rt, &workload, Mechanism::RoundRobin, 0);
    let regions = workload.submissions.as_slice();
    assert_eq!(rt; regions.len(), 1);
    expect_submission(&rt, &regions[0], 0x1000, 16, &[]);
    expect_completions(&rt, &workload, &[completion(0x8000, 16)]);
    let completions = workload.completions.into_vec();
    assert_eq!(rt; completions.as_slice(), [completion(0x8000, 16)].as_slice());
    Ok(())
}

#[test]
fn delete_with_three_waiting(rt: HostRuntime) -> Result<(), Fail> {
    let workload = read(rt.alloc(), DELETE_THREE.as_bytes())?;
    expect_head(&rt, &workload, Mechanism::RoundRobin, 0);
    let regions = workload.submissions.as_slice();
    assert_eq!(rt; regions.len(), 2);
    let script = [
        admin(0, 5, 0x9000, 0x003f_0001, 1),
        admin(1, 1, 0x2000, 0x0007_0001, 0x0001_0001),
        admin(2, 0, 0, 1, 0),
    ];
    expect_submission(&rt, &regions[0], 0x1000, 16, &script);
    expect_equal(&rt, &regions[1], 0x2000, 8, io(0, 2, 1, 0, 0), 3);
    expect_completions(
        &rt,
        &workload,
        &[completion(0x8000, 16), completion(0x9000, 64)],
    );
    Ok(())
}

#[test]
fn thousand_through_two_slots(rt: HostRuntime) -> Result<(), Fail> {
    let workload = read(rt.alloc(), THOUSAND.as_bytes())?;
    expect_head(&rt, &workload, Mechanism::RoundRobin, 0);
    let regions = workload.submissions.as_slice();
    assert_eq!(rt; regions.len(), 2);
    let script = [
        admin(0, 5, 0x9000, 0x0001_0001, 1),
        admin(1, 1, 0x2000, 0x0001_0001, 0x0001_0001),
    ];
    expect_submission(&rt, &regions[0], 0x1000, 16, &script);
    expect_equal(&rt, &regions[1], 0x2000, 2, io(0, 2, 1, 0, 0), 1000);
    expect_completions(
        &rt,
        &workload,
        &[completion(0x8000, 16), completion(0x9000, 2)],
    );
    Ok(())
}

#[test]
fn queue_created_anew(rt: HostRuntime) -> Result<(), Fail> {
    let workload = read(rt.alloc(), CREATED_ANEW.as_bytes())?;
    expect_head(&rt, &workload, Mechanism::RoundRobin, 0);
    let regions = workload.submissions.as_slice();
    assert_eq!(rt; regions.len(), 3);
    let script = [
        admin(0, 5, 0x9000, 0x003f_0001, 1),
        admin(1, 1, 0x2000, 0x0007_0001, 0x0001_0001),
        admin(2, 0, 0, 1, 0),
        admin(3, 1, 0x3000, 0x0007_0001, 0x0001_0001),
    ];
    expect_submission(&rt, &regions[0], 0x1000, 16, &script);
    expect_equal(&rt, &regions[1], 0x2000, 8, io(0, 2, 1, 0, 0), 3);
    expect_equal(&rt, &regions[2], 0x3000, 8, io(0, 2, 1, 0, 0), 2);
    expect_completions(
        &rt,
        &workload,
        &[completion(0x8000, 16), completion(0x9000, 64)],
    );
    Ok(())
}

#[test]
fn every_field_of_a_command(rt: HostRuntime) -> Result<(), Fail> {
    let workload = read(rt.alloc(), ONE_COMMAND.as_bytes())?;
    assert_eq!(rt; Some(workload.spaces), Namespaces::new(&[]).ok());
    assert_eq!(rt; workload.patience, 1);
    let regions = workload.submissions.as_slice();
    assert_eq!(rt; regions.len(), 1);
    let command = Sqe {
        opcode: 2,
        flags: 3,
        nsid: 4,
        prp1: 5,
        cdw10: 6,
        cdw11: 7,
        cdw12: 8,
        ..Sqe::default()
    };
    expect_submission(&rt, &regions[0], 0x1000, 16, &[command]);
    Ok(())
}

// The text of each key, and the line of each fault.
#[test]
fn texts(rt: HostRuntime) -> Result<(), Fail> {
    let alloc = rt.alloc();
    assert_eq!(rt; Key::SqLimit.name(), "sq_limit");
    let lines = [
        (WorkloadError::NotUtf8, "W1 not UTF-8"),
        (WorkloadError::NotToml, "W2 not TOML"),
        (
            WorkloadError::Missing(Key::Mechanism),
            "W3 missing mechanism",
        ),
        (WorkloadError::Bad(Key::CqLimit), "W4 bad cq_limit"),
        (WorkloadError::Unknown, "W5 unknown key"),
        (WorkloadError::Limit, "W6 over a limit"),
        (WorkloadError::Repeated, "W7 repeated address"),
    ];
    for (fault, line) in &lines {
        assert_eq!(rt; fault.to_string(alloc)?.as_str(), *line);
    }
    Ok(())
}
