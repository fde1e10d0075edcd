// The device over an array, played.
use nvme_admin::{Limits, Region};
use nvme_arbiter::{Mechanism, Settings};
use nvme_ctrl::{Controller, Slot};
use nvme_ctrl_uses::{Memory, SLOTS, serve};
use nvme_entry::{Sqe, Status};
use std::alloc::AllocError;
use std::test::*;

// A Get Features of the Number of Queues, with its command identifier. (Base Specification, Get Features)
fn get_features(cid: u16) -> Sqe {
    Sqe {
        opcode: 0x0a,
        cid,
        cdw10: 7,
        ..Sqe::default()
    }
}

// The host asks for a feature, and finds the answer in its completion ring.
#[test]
fn admin_command_is_answered(rt: HostRuntime) -> Result<(), Fail> {
    let mut memory = Memory::new();
    let mut slots = [Slot::free(); 16];
    let asq = Region {
        address: 0x1000,
        slots: SLOTS as u16,
    };
    let acq = Region {
        address: 0x2000,
        slots: SLOTS as u16,
    };
    let limits = Limits { nsq: 1, ncq: 1 };
    let settings = Settings::from_cdw11(0);
    let Ok(mut ctrl) = Controller::new(
        Mechanism::RoundRobin,
        settings,
        limits,
        8,
        asq,
        acq,
        &mut slots,
    ) else {
        return Err(Fail::from(AllocError));
    };
    memory.sqs[0] = get_features(5);
    assert!(rt; ctrl.sq_tail(0, 1));
    serve(&mut ctrl, &mut slots, &mut memory);
    let cqe = memory.cqs[0];
    assert_eq!(rt;
        (cqe.cid, cqe.sqhd, cqe.phase, cqe.status),
        (5, 1, true, Status::SUCCESS)
    );
    Ok(())
}
