// Commands that the hosts submit.
use nvme_entry::Sqe;

/// An admin command.
pub fn admin(cid: u16, opcode: u8, prp1: u64, cdw10: u32, cdw11: u32) -> Sqe {
    Sqe {
        opcode,
        cid,
        prp1,
        cdw10,
        cdw11,
        ..Sqe::default()
    }
}

/// Get Features, of the Arbitration feature.
pub fn get_arbitration(cid: u16) -> Sqe {
    admin(cid, 0x0a, 0, 1, 0)
}

/// Read of the first block of namespace 1.
pub fn read(cid: u16) -> Sqe {
    Sqe {
        opcode: 2,
        cid,
        nsid: 1,
        ..Sqe::default()
    }
}
