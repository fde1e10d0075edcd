// SPDX-License-Identifier: MIT
//! Entries, statuses, outcomes, admin fields and settings. Values are the specification's.
use nvmearb::{admin_opcode, feature, io_opcode};
use nvmearb::{Admin, Cqe, DoorbellError, Error, Priority, Settings, Sqe, Status, StatusFlags, MAX_NAMESPACES};

#[test]
fn library_is_of_this_version() {
    assert!(nvmearb::is_library_of_this_version());
    let [major, minor, patch] = [16, 8, 0].map(|shift| nvmearb::sys::NVMEARB_VERSION >> shift & 0xff);
    assert_eq!(format!("{major}.{minor}.{patch}"), env!("CARGO_PKG_VERSION"));
}

#[test]
fn submission_fields_stand_at_their_places() {
    let bytes: [u8; 64] = std::array::from_fn(|k| k as u8 + 1);
    let entry = Sqe::from_bytes(&bytes);
    let want = Sqe {
        opcode: 0x01,
        flags: 0x02,
        cid: 0x0403,
        nsid: 0x0807_0605,
        cdw2: 0x0c0b_0a09,
        cdw3: 0x100f_0e0d,
        mptr: 0x1817_1615_1413_1211,
        prp1: 0x201f_1e1d_1c1b_1a19,
        prp2: 0x2827_2625_2423_2221,
        cdw10: 0x2c2b_2a29,
        cdw11: 0x302f_2e2d,
        cdw12: 0x3433_3231,
        cdw13: 0x3837_3635,
        cdw14: 0x3c3b_3a39,
        cdw15: 0x403f_3e3d,
    };
    assert_eq!(entry, want);
    assert_eq!(want.to_bytes(), bytes);
}

#[test]
fn completion_fields_stand_at_their_places() {
    let status = Status::new(5, 0xa5).unwrap();
    let entry = Cqe { dw0: 0x0102_0304, sqhd: 0x0708, sqid: 0x0506, cid: 0x1234, phase: true, status };
    let bytes = [0x04, 0x03, 0x02, 0x01, 0, 0, 0, 0, 0x08, 0x07, 0x06, 0x05, 0x34, 0x12, 0x4b, 0x0b];
    assert_eq!(entry.to_bytes(), bytes);
    assert_eq!(Cqe::from_bytes(&bytes), Ok(entry));
}

#[test]
fn completions_with_bits_of_no_field_are_refused() {
    let mut bytes = [0; 16];
    bytes[15] = 0x80; // Do Not Retry
    assert_eq!(Cqe::from_bytes(&bytes), Err(Error::Argument));
    bytes[15] = 0x10;
    assert_eq!(Cqe::from_bytes(&bytes), Err(Error::Argument));
    bytes = [0; 16];
    bytes[4] = 1; // Dword 1
    assert_eq!(Cqe::from_bytes(&bytes), Err(Error::Argument));
    assert_eq!(Cqe::from_bytes(&[0; 16]), Ok(Cqe::default()));
}

#[test]
fn completions_with_flags_are_decoded() {
    let mut bytes = [0; 16];
    bytes[15] = 0x80;
    assert_eq!(Cqe::from_flagged(&bytes), Ok((Cqe::default(), StatusFlags::DO_NOT_RETRY)));
    bytes[15] = 0xcb;
    let status = Status::new(5, 0x80).unwrap();
    let both = StatusFlags { more: true, do_not_retry: true };
    assert_eq!(Cqe::from_flagged(&bytes), Ok((Cqe { status, ..Cqe::default() }, both)));
    bytes[15] = 0x10; // CRD
    assert_eq!(Cqe::from_flagged(&bytes), Err(Error::Argument));
    bytes = [0; 16];
    bytes[7] = 1; // Dword 1
    assert_eq!(Cqe::from_flagged(&bytes), Err(Error::Argument));
}

#[test]
fn statuses_have_types_below_8() {
    assert_eq!(Status::new(8, 0), None);
    let vendor = Status::new(7, 0xff).unwrap();
    assert_eq!((vendor.sct(), vendor.sc(), vendor.is_success()), (7, 0xff, false));
    assert!(Status::SUCCESS.is_success() && Status::default().is_success());
    assert!(!Status::COMPLETION_QUEUE_INVALID.is_success());
    assert_eq!(Status::ABORTED_BY_DELETION.to_string(), "0/08");
    assert_eq!(Status::INVALID_QUEUE_DELETION.to_string(), "1/0c");
    assert_eq!(Status::UNRECOVERED_READ_ERROR.to_string(), "2/81");
}

/// The outcome of an entry that names logical blocks, over namespaces of 1000 blocks.
fn outcome(opcode: u8, flags: u8, nsid: u32, slba: u64, nlb: u32, namespaces: usize) -> Result<Status, Error> {
    let (cdw10, cdw11) = (slba as u32, (slba >> 32) as u32);
    Sqe { opcode, flags, nsid, cdw10, cdw11, cdw12: nlb, ..Sqe::default() }.outcome(&vec![1000; namespaces])
}

#[test]
fn outcomes_are_those_of_the_first_check() {
    use io_opcode::{FLUSH, READ, WRITE};
    assert_eq!(outcome(FLUSH, 0, 0xffff_ffff, 0, 0, MAX_NAMESPACES), Ok(Status::SUCCESS));
    assert_eq!(outcome(READ, 0, 0xffff_ffff, 0, 0, MAX_NAMESPACES), Ok(Status::INVALID_FIELD));
    assert_eq!(outcome(READ, 0, 17, 0, 0, MAX_NAMESPACES), Ok(Status::INVALID_NAMESPACE));
    assert_eq!(outcome(READ, 0, 16, 0, 0, MAX_NAMESPACES), Ok(Status::SUCCESS));
    assert_eq!(outcome(READ, 1, 1, 0, 0, 1), Ok(Status::INVALID_FIELD)); // FUSE
    assert_eq!(outcome(0x09, 0, 1, 0, 0, 1), Ok(Status::INVALID_OPCODE));
    assert_eq!(outcome(READ, 0, 1, 999, 0, 1), Ok(Status::SUCCESS));
    assert_eq!(outcome(WRITE, 0, 1, 999, 1, 1), Ok(Status::LBA_OUT_OF_RANGE));
    assert_eq!(outcome(WRITE, 0, 1, u64::MAX, 0xffff, 1), Ok(Status::LBA_OUT_OF_RANGE));
    assert_eq!(outcome(READ, 0, 1, 0, 0, 0), Ok(Status::INVALID_NAMESPACE));
    assert_eq!(outcome(READ, 0, 1, 0, 0, MAX_NAMESPACES + 1), Err(Error::Argument));
    assert_eq!(Sqe::default().outcome(&[5, 0]), Err(Error::Argument));
}

/// A command that names logical blocks, and namespaces of which the second is inactive.
const NAMESPACES: [u64; 3] = [1000, 0, 1 << 32];
fn blocks(opcode: u8, flags: u8, nsid: u32, slba: u64, nlb: u32) -> Sqe {
    let (cdw10, cdw11) = (slba as u32, (slba >> 32) as u32);
    Sqe { opcode, flags, nsid, cdw10, cdw11, cdw12: nlb, ..Sqe::default() }
}

#[test]
fn checks_look_at_psdt_and_inactive_namespaces() {
    use io_opcode::{FLUSH, READ, WRITE};
    let check = |opcode, flags, nsid, slba, nlb| blocks(opcode, flags, nsid, slba, nlb).check(&NAMESPACES);
    assert_eq!(check(FLUSH, 0, 0xffff_ffff, 0, 0), Status::SUCCESS);
    assert_eq!(check(FLUSH, 0, 2, 0, 0), Status::INVALID_FIELD);
    assert_eq!(check(READ, 0, 0xffff_ffff, 0, 0), Status::INVALID_FIELD);
    assert_eq!(check(READ, 0, 2, 0, 0), Status::INVALID_FIELD);
    assert_eq!(check(READ, 0, 4, 0, 0), Status::INVALID_NAMESPACE);
    assert_eq!(check(READ, 0, 0, 0, 0), Status::INVALID_NAMESPACE);
    assert_eq!(check(READ, 1, 1, 0, 0), Status::INVALID_FIELD); // FUSE
    for psdt in [0x40, 0x80, 0xc0] {
        assert_eq!(check(WRITE, psdt, 1, 0, 0), Status::INVALID_FIELD);
    }
    assert_eq!(check(0x05, 0, 1, 0, 0), Status::INVALID_OPCODE);
    assert_eq!(check(READ, 0, 1, 999, 0), Status::SUCCESS);
    assert_eq!(check(WRITE, 0, 1, 999, 1), Status::LBA_OUT_OF_RANGE);
    assert_eq!(check(READ, 0, 3, u64::MAX, 0xffff), Status::LBA_OUT_OF_RANGE);
    assert_eq!(blocks(READ, 0, 17, 0, 0).check(&[1; 17]), Status::SUCCESS);
    assert_eq!(blocks(READ, 0, 1, 0, 0).check(&[]), Status::INVALID_NAMESPACE);
}

#[test]
fn ranges_are_checked_of_any_opcode() {
    let range = |opcode, nsid, slba, nlb| blocks(opcode, 0x41, nsid, slba, nlb).range(&NAMESPACES);
    assert_eq!(range(0x05, 1, 990, 9), Status::SUCCESS);
    assert_eq!(range(0x05, 1, 990, 10), Status::LBA_OUT_OF_RANGE);
    assert_eq!(range(0x08, 2, 0, 0), Status::INVALID_FIELD);
    assert_eq!(range(0x08, 0xffff_ffff, 0, 0), Status::INVALID_FIELD);
    assert_eq!(range(0x0c, 0, 0, 0), Status::INVALID_NAMESPACE);
    assert_eq!(range(0x0c, 3, 0xffff_0001, 0xfffe), Status::SUCCESS);
    assert_eq!(range(0x0c, 3, 0xffff_0001, 0xffff), Status::LBA_OUT_OF_RANGE);
}

fn admin(opcode: u8, cdw10: u32, cdw11: u32, prp1: u64) -> Admin {
    Sqe { opcode, cdw10, cdw11, prp1, ..Sqe::default() }.admin()
}

#[test]
fn admin_commands_have_the_fields_of_their_kind() {
    use admin_opcode::*;
    let sq = Admin::CreateSq { qid: 3, qsize: 255, cqid: 5, priority: Priority::High, pc: true, prp1: 0x12_3456_7890 };
    assert_eq!(admin(CREATE_SQ, 0x00ff_0003, 0x0005_0003, 0x12_3456_7890), sq);
    let cq = Admin::CreateCq { qid: 2, qsize: 1, pc: false, prp1: 0x1000 };
    assert_eq!(admin(CREATE_CQ, 0x0001_0002, 0x0005_0002, 0x1000), cq);
    assert_eq!(admin(DELETE_SQ, 7, 0, 0), Admin::DeleteSq { qid: 7 });
    assert_eq!(admin(DELETE_CQ, 8, 0, 0), Admin::DeleteCq { qid: 8 });
    let set = Admin::SetFeatures { fid: feature::NUMBER_OF_QUEUES, sv: true, cdw11: 0x0003_0003 };
    assert_eq!(admin(SET_FEATURES, 0x8000_0007, 0x0003_0003, 0), set);
    assert_eq!(admin(GET_FEATURES, 1, 0, 0), Admin::GetFeatures { fid: feature::ARBITRATION });
    assert_eq!(admin(ABORT, 0x1234_0056, 0xffff_ffff, 0xffff), Admin::Abort { sqid: 0x56, cid: 0x1234 });
    assert_eq!(admin(0x0c, 1, 1, 1), Admin::Other);
    let priorities = [0x1, 0x3, 0x5, 0x7].map(|cdw11| match admin(CREATE_SQ, 1, cdw11, 0) {
        Admin::CreateSq { priority, .. } => priority,
        other => panic!("{other:?}"),
    });
    assert_eq!(priorities, [Priority::Urgent, Priority::High, Priority::Medium, Priority::Low]);
}

#[test]
fn settings_are_those_of_the_dword() {
    let some = Settings { cdw11: 0x0301_0001, burst: Some(2), high: 4, medium: 2, low: 1 };
    assert_eq!(Settings::from_cdw11(0x0301_00f9), some);
    let most = Settings { cdw11: 0xffff_ff07, burst: None, high: 256, medium: 256, low: 256 };
    assert_eq!(Settings::from_cdw11(0xffff_ffff), most);
}

#[test]
fn errors_are_told_in_words() {
    assert_eq!(Error::Used.to_string(), "another region has this address");
    assert_eq!(DoorbellError::Value.to_string(), "invalid doorbell write value");
    let _: [Box<dyn std::error::Error + Send + Sync>; 2] = [Error::State.into(), DoorbellError::Register.into()];
}
