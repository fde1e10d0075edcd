// Entries by their bytes, statuses, namespaces and outcomes.
use nvme_entry::{
    Cqe, Namespaces, SpaceError, Sqe, Status, complete, completion_layout_is_exact, outcome,
    submission_layout_is_exact,
};
use std::test::Fail;

// An entry whose bytes all differ: byte k is k + 1.
fn counted_bytes() -> [u8; 64] {
    let mut bytes = [0; 64];
    for (k, byte) in bytes.iter_mut().enumerate() {
        *byte = (k % 64) as u8 + 1;
    }
    bytes
}

#[test]
fn submission_fields_by_place(rt: HostRuntime) {
    let entry = Sqe::from_bytes(&counted_bytes());
    let fields = Sqe {
        opcode: 0x01,
        flags: 0x02,
        cid: 0x0403,
        nsid: 0x0807_0605,
        cdw2: 0x0c0b_0a09,
        cdw3: 0x100f_0e0d,
        mptr: 0x1817_1615_1413_1211,
        prp1: 0x201f_1e1d_1c1b_1a19,
        prp2: 0x2827_2625_2423_2221,
        cdw10: 0x2c2b_2a29,
        cdw11: 0x302f_2e2d,
        cdw12: 0x3433_3231,
        cdw13: 0x3837_3635,
        cdw14: 0x3c3b_3a39,
        cdw15: 0x403f_3e3d,
    };
    assert_eq!(rt; entry, fields);
    assert_eq!(rt;
        (entry.fuse(), entry.slba(), entry.nlb()),
        (2, 0x302f_2e2d_2c2b_2a29, 0x3231)
    );
    assert!(rt; entry.to_bytes() == counted_bytes());
}

#[test]
fn completion_fields_by_place(rt: HostRuntime) -> Result<(), Fail> {
    let entry = Sqe {
        cid: 0x1234,
        ..Sqe::default()
    };
    let status = Status::new(5, 0xa5).ok_or("a type of 5")?;
    let done = complete(&entry, 0x0506, 0x0708, true, status, 0x0102_0304);
    let bytes = [
        0x04, 0x03, 0x02, 0x01, 0, 0, 0, 0, 0x08, 0x07, 0x06, 0x05, 0x34, 0x12, 0x4b, 0x0b,
    ];
    assert!(rt; done.to_bytes() == bytes);
    assert!(rt; Cqe::from_bytes(&bytes) == Some(done));
    Ok(())
}

#[test]
fn entry_edges(rt: HostRuntime) -> Result<(), Fail> {
    let mut bytes = [0, 0, 0, 0, 0, 0, 0, 0, 1, 0, 1, 0, 7, 0, 1, 0x80];
    assert!(rt; Cqe::from_bytes(&bytes).is_none(), "Do Not Retry is set");
    bytes[15] = 0;
    assert!(rt; Cqe::from_bytes(&bytes).is_some());
    bytes[4] = 1;
    assert!(rt;
        Cqe::from_bytes(&bytes).is_none(),
        "Command Dword 1 isn't 0"
    );
    assert!(rt; Status::new(8, 0).is_none());
    assert!(rt; Namespaces::new(&[1; 17]) == Err(SpaceError::TooMany));
    assert!(rt; Namespaces::new(&[5, 0]) == Err(SpaceError::Empty));

    let Ok(spaces) = Namespaces::new(&[1000; 16]) else {
        return Err("sixteen sizes".into());
    };
    assert!(rt; spaces.size(16) == Some(1000));
    assert!(rt; spaces.size(17).is_none());
    assert!(rt; spaces.size(0).is_none());
    let cases = [
        (0x00, 0, 0xffff_ffff, Status::SUCCESS),
        (0x02, 0, 0xffff_ffff, Status::INVALID_FIELD),
        (0x02, 0, 17, Status::INVALID_NAMESPACE),
        (0x02, 1, 1, Status::INVALID_FIELD),
        (0x09, 0, 1, Status::INVALID_OPCODE),
    ];
    for (opcode, flags, nsid, want) in cases {
        let entry = Sqe {
            opcode,
            flags,
            nsid,
            ..Sqe::default()
        };
        assert!(rt;
            outcome(&entry, &spaces) == want,
            "opcode {opcode}, flags {flags}, namespace {nsid}"
        );
    }
    Ok(())
}

#[test]
fn statuses(rt: HostRuntime) {
    let status = Status::INVALID_QUEUE_DELETION;
    assert_eq!(rt; (status.sct(), status.sc()), (1, 0x0c));
    assert!(rt; Status::new(7, 255).is_some());
}

#[test]
fn status_fields(rt: HostRuntime) {
    let Status { sct, sc } = Status::SEQUENCE_ERROR;
    assert_eq!(rt; (sct, sc), (0, 0x0c));
}

#[test]
fn fault_messages(rt: HostRuntime) -> Result<(), Fail> {
    let alloc = rt.alloc();
    let cases = [
        (SpaceError::TooMany, "more than 16 namespaces"),
        (SpaceError::Empty, "a namespace of size 0"),
    ];
    for (fault, line) in &cases {
        assert_eq!(rt; fault.to_string(alloc)?.as_str(), *line);
    }
    Ok(())
}

#[test]
fn layouts_are_exact() {
    submission_layout_is_exact();
    completion_layout_is_exact();
}
