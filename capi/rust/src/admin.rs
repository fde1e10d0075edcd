// SPDX-License-Identifier: MIT
//! Admin commands by their fields, and the answers to them.
use crate::{sys, Priority, Sqe, Status};

/// An admin command, with its fields that the queue table reads.
#[derive(Clone, Copy, Debug, PartialEq, Eq, Hash)]
#[non_exhaustive]
pub enum Admin {
    /// Every other opcode.
    Other,
    /// Delete I/O Submission Queue.
    DeleteSq {
        /// The queue identifier.
        qid: u16,
    },
    /// Create I/O Submission Queue.
    CreateSq {
        /// The queue identifier.
        qid: u16,
        /// QSIZE, the number of slots less 1.
        qsize: u16,
        /// The identifier of its completion queue.
        cqid: u16,
        /// QPRIO, 0 urgent to 3 low, as a class.
        priority: Priority,
        /// Whether the queue is physically contiguous.
        pc: bool,
        /// The address of the queue.
        prp1: u64,
    },
    /// Delete I/O Completion Queue.
    DeleteCq {
        /// The queue identifier.
        qid: u16,
    },
    /// Create I/O Completion Queue.
    CreateCq {
        /// The queue identifier.
        qid: u16,
        /// QSIZE, the number of slots less 1.
        qsize: u16,
        /// Whether the queue is physically contiguous.
        pc: bool,
        /// The address of the queue.
        prp1: u64,
    },
    /// Set Features.
    SetFeatures {
        /// The feature identifier.
        fid: u8,
        /// Whether the value is to be saved.
        sv: bool,
        /// The value.
        cdw11: u32,
    },
    /// Get Features.
    GetFeatures {
        /// The feature identifier.
        fid: u8,
    },
    /// Abort.
    Abort {
        /// The submission queue of the command to abort.
        sqid: u16,
        /// The command identifier of the command to abort.
        cid: u16,
    },
}

impl Sqe {
    /// The kind and the fields of an admin command. FUSE and the namespace identifier are ignored.
    pub fn admin(&self) -> Admin {
        let mut fields = sys::nvmearb_admin::default();
        // SAFETY: references.
        unsafe { sys::nvmearb_admin_of(&self.fields(), &mut fields) };
        Admin::of(&fields)
    }
}

impl Admin {
    fn of(fields: &sys::nvmearb_admin) -> Admin {
        let sys::nvmearb_admin { kind, cdw11, prp1, qid, qsize, cqid, qprio, pc, fid, sv, cid } = *fields;
        match kind {
            sys::NVMEARB_ADMIN_DELETE_SQ => Admin::DeleteSq { qid },
            sys::NVMEARB_ADMIN_CREATE_SQ => {
                Admin::CreateSq { qid, qsize, cqid, priority: Priority::of(u16::from(qprio) + 1), pc: pc != 0, prp1 }
            }
            sys::NVMEARB_ADMIN_DELETE_CQ => Admin::DeleteCq { qid },
            sys::NVMEARB_ADMIN_CREATE_CQ => Admin::CreateCq { qid, qsize, pc: pc != 0, prp1 },
            sys::NVMEARB_ADMIN_SET_FEATURES => Admin::SetFeatures { fid, sv: sv != 0, cdw11 },
            sys::NVMEARB_ADMIN_GET_FEATURES => Admin::GetFeatures { fid },
            sys::NVMEARB_ADMIN_ABORT => Admin::Abort { sqid: qid, cid },
            _ => Admin::Other,
        }
    }
}

/// The answer to an admin command.
#[derive(Clone, Copy, Debug, PartialEq, Eq, Hash)]
pub struct Answer {
    /// The status of its completion: success with every verdict but [`Verdict::Done`], which has any.
    pub status: Status,
    /// Dword 0 of its completion.
    pub dw0: u32,
    /// What the caller of a table does before it answers the command.
    pub verdict: Verdict,
}

/// The verdict on an admin command: what the caller of a [`Table`](crate::Table) does before it answers the command. A
/// [`Controller`](crate::Controller) did it already, and tells it.
#[derive(Clone, Copy, Debug, PartialEq, Eq, Hash)]
#[non_exhaustive]
pub enum Verdict {
    /// Nothing.
    Done,
    /// A submission queue was created: fetch from it ([`Board::open`](crate::Board::open)).
    OpenSq {
        /// The queue identifier.
        qid: u16,
        /// The number of its region; where queues may lie anywhere, the identifier.
        region: u16,
        /// Its completion queue.
        cqid: u16,
        /// Its priority class.
        priority: Priority,
    },
    /// A completion queue was created.
    OpenCq {
        /// The queue identifier.
        qid: u16,
        /// The number of its region; where queues may lie anywhere, the identifier.
        region: u16,
    },
    /// A submission queue is closing, and the command isn't answered yet. The caller fetches and picks no more commands
    /// of the queue ([`Board::close`](crate::Board::close)), answers those that wait with
    /// [`Status::ABORTED_BY_DELETION`], waits until those that were picked are answered too, and calls
    /// [`Table::finish_delete`](crate::Table::finish_delete). Of a controller, [`Controller::finish`] does all this.
    ///
    /// [`Controller::finish`]: crate::Controller::finish
    BeginDelete {
        /// The queue identifier.
        qid: u16,
    },
    /// A completion queue was deleted.
    CloseCq {
        /// The queue identifier.
        qid: u16,
    },
    /// The Arbitration feature was set: hand the dword on ([`Board::set`](crate::Board::set)).
    SetArbitration {
        /// The settings, with bits 07:03 as 0.
        cdw11: u32,
    },
    /// The oldest waiting command with this identifier in this queue is to be aborted. If one waits, the caller takes
    /// it out ([`Board::went`](crate::Board::went)) and answers it with [`Status::ABORT_REQUESTED`]. Otherwise it
    /// answers the Abort with 1 as Dword 0.
    Abort {
        /// The submission queue of the command.
        sqid: u16,
        /// The command identifier.
        cid: u16,
    },
}

impl Answer {
    pub(crate) fn of(fields: &sys::nvmearb_answer) -> Answer {
        let sys::nvmearb_answer { verdict, dw0, cdw11, qid, region, cqid, priority, status, cid } = *fields;
        let verdict = match verdict {
            sys::NVMEARB_DONE => Verdict::Done,
            sys::NVMEARB_OPEN_SQ => Verdict::OpenSq { qid, region, cqid, priority: Priority::of(priority) },
            sys::NVMEARB_OPEN_CQ => Verdict::OpenCq { qid, region },
            sys::NVMEARB_BEGIN_DELETE => Verdict::BeginDelete { qid },
            sys::NVMEARB_CLOSE_CQ => Verdict::CloseCq { qid },
            sys::NVMEARB_SET_ARBITRATION => Verdict::SetArbitration { cdw11 },
            sys::NVMEARB_ABORT => Verdict::Abort { sqid: qid, cid },
            _ => panic!("libnvmearb gave the verdict {verdict}, which can't be"),
        };
        Answer { status: Status::of(&status), dw0, verdict }
    }
}

/// A region: the memory of one ring. A Create command names it by its address.
#[derive(Clone, Copy, Debug, Default, PartialEq, Eq, Hash)]
pub struct Region {
    /// The address of the ring.
    pub address: u64,
    /// The number of its slots, 2 to 4096.
    pub slots: u16,
}

impl Region {
    pub(crate) fn fields(self) -> sys::nvmearb_region {
        sys::nvmearb_region { address: self.address, slots: self.slots }
    }
}

/// A submission queue that is open or closing.
#[derive(Clone, Copy, Debug, PartialEq, Eq, Hash)]
pub struct Queue {
    /// The number of its region.
    pub region: u16,
    /// Its completion queue.
    pub cqid: u16,
    /// Its priority class.
    pub priority: Priority,
    /// Whether its deletion began and isn't finished.
    pub closing: bool,
}

impl Queue {
    pub(crate) fn of(fields: &sys::nvmearb_queue) -> Queue {
        let sys::nvmearb_queue { region, cqid, priority, closing } = *fields;
        Queue { region, cqid, priority: Priority::of(priority), closing: closing != 0 }
    }
}
