// SPDX-License-Identifier: MIT
//! Entries of queues, statuses, and the outcome of an I/O command.
use crate::error::{sure, written};
use crate::{sys, Error, StatusFlags, CQE_BYTES, SQE_BYTES};
use core::fmt;

/// The opcodes of I/O commands that the library knows.
pub mod io_opcode {
    pub use crate::sys::{NVMEARB_OPC_FLUSH as FLUSH, NVMEARB_OPC_READ as READ, NVMEARB_OPC_WRITE as WRITE};
}

/// The opcodes of admin commands that the library knows.
pub mod admin_opcode {
    pub use crate::sys::{
        NVMEARB_OPC_ABORT as ABORT, NVMEARB_OPC_CREATE_CQ as CREATE_CQ, NVMEARB_OPC_CREATE_SQ as CREATE_SQ,
        NVMEARB_OPC_DELETE_CQ as DELETE_CQ, NVMEARB_OPC_DELETE_SQ as DELETE_SQ,
        NVMEARB_OPC_GET_FEATURES as GET_FEATURES, NVMEARB_OPC_SET_FEATURES as SET_FEATURES,
    };
}

/// The feature identifiers that the library knows.
pub mod feature {
    pub use crate::sys::{NVMEARB_FID_ARBITRATION as ARBITRATION, NVMEARB_FID_NUMBER_OF_QUEUES as NUMBER_OF_QUEUES};
}

/// The fields of a submission queue entry. Each may have any value.
#[derive(Clone, Copy, Debug, Default, PartialEq, Eq, Hash)]
pub struct Sqe {
    /// The opcode.
    pub opcode: u8,
    /// FUSE in bits 1:0, PSDT in bits 7:6.
    pub flags: u8,
    /// The command identifier.
    pub cid: u16,
    /// The namespace identifier.
    pub nsid: u32,
    /// Command Dword 2.
    pub cdw2: u32,
    /// Command Dword 3.
    pub cdw3: u32,
    /// The metadata pointer.
    pub mptr: u64,
    /// PRP Entry 1; in a Create command the address of the queue.
    pub prp1: u64,
    /// PRP Entry 2.
    pub prp2: u64,
    /// Command Dword 10.
    pub cdw10: u32,
    /// Command Dword 11.
    pub cdw11: u32,
    /// Command Dword 12.
    pub cdw12: u32,
    /// Command Dword 13.
    pub cdw13: u32,
    /// Command Dword 14.
    pub cdw14: u32,
    /// Command Dword 15.
    pub cdw15: u32,
}

impl Sqe {
    /// Decodes a submission queue entry. Every bit of the entry belongs to a field. Copy an entry first that lies where
    /// a guest may write.
    pub fn from_bytes(bytes: &[u8; SQE_BYTES]) -> Sqe {
        let mut fields = sys::nvmearb_sqe::default();
        // SAFETY: references.
        unsafe { sys::nvmearb_sqe_decode(bytes, &mut fields) };
        Sqe::of(&fields)
    }

    /// Encodes a submission queue entry. It undoes [`Sqe::from_bytes`].
    pub fn to_bytes(&self) -> [u8; SQE_BYTES] {
        let mut bytes = [0; SQE_BYTES];
        // SAFETY: references.
        unsafe { sys::nvmearb_sqe_encode(&self.fields(), &mut bytes) };
        bytes
    }

    /// The status of an I/O command: that of the first check that it fails, or success. Flush, Write and Read are
    /// supported. `sizes` has the sizes of the namespaces in logical blocks, that of namespace identifier 1 first. No
    /// data is moved.
    ///
    /// [`Error::Argument`]: there are more than [`MAX_NAMESPACES`](crate::MAX_NAMESPACES) sizes, or one is 0.
    pub fn outcome(&self, sizes: &[u64]) -> Result<Status, Error> {
        let fields = self.fields();
        // SAFETY: references.
        written(|status| unsafe { sys::nvmearb_outcome(&fields, sizes.as_ptr(), sizes.len(), status) })
            .map(|status| Status::of(&status))
    }

    /// The status of an I/O command as [`Sqe::outcome`] has it, for a device that moves data by PRPs: it looks at PSDT
    /// too, and namespaces may be inactive and any number. A size of 0 says that the namespace identifier is inactive.
    /// The first of these that is so gives the status:
    ///
    /// * [`Status::INVALID_FIELD`]: FUSE isn't 0; PSDT isn't 0, so that it asks for SGLs or is reserved
    /// * [`Status::INVALID_OPCODE`]: the command is no Flush, Write or Read
    /// * [`Status::INVALID_FIELD`]: the namespace identifier is `0xffff_ffff`, and the command is no Flush. A Flush
    ///   with this identifier succeeds
    /// * [`Status::INVALID_NAMESPACE`]: the namespace identifier is 0 or above the number of sizes
    /// * [`Status::INVALID_FIELD`]: the namespace identifier is inactive
    /// * [`Status::LBA_OUT_OF_RANGE`]: the blocks of a Write or Read end past the namespace
    ///
    /// [`Status::INVALID_OPCODE`] says that the command passed what stands above it, so a device with more opcodes goes
    /// on from there.
    pub fn check(&self, sizes: &[u64]) -> Status {
        let mut status = sys::nvmearb_status::default();
        // SAFETY: references.
        unsafe { sys::nvmearb_check(&self.fields(), sizes.as_ptr(), sizes.len(), &mut status) };
        Status::of(&status)
    }

    /// The status of a command that names logical blocks by namespace identifier, SLBA and NLB (Command Dwords 10 to
    /// 12), as Write, Read, Write Uncorrectable, Compare, Write Zeroes and Verify do: that of the last four rows of
    /// [`Sqe::check`], as of a Read. The opcode, FUSE and PSDT aren't looked at.
    pub fn range(&self, sizes: &[u64]) -> Status {
        let mut status = sys::nvmearb_status::default();
        // SAFETY: references.
        unsafe { sys::nvmearb_range(&self.fields(), sizes.as_ptr(), sizes.len(), &mut status) };
        Status::of(&status)
    }

    pub(crate) fn fields(&self) -> sys::nvmearb_sqe {
        let Sqe { opcode, flags, cid, nsid, cdw2, cdw3, mptr, prp1, prp2, .. } = *self;
        let Sqe { cdw10, cdw11, cdw12, cdw13, cdw14, cdw15, .. } = *self;
        sys::nvmearb_sqe {
            opcode,
            flags,
            cid,
            nsid,
            cdw2,
            cdw3,
            mptr,
            prp1,
            prp2,
            cdw10,
            cdw11,
            cdw12,
            cdw13,
            cdw14,
            cdw15,
        }
    }

    pub(crate) fn of(fields: &sys::nvmearb_sqe) -> Sqe {
        let sys::nvmearb_sqe { opcode, flags, cid, nsid, cdw2, cdw3, mptr, prp1, prp2, .. } = *fields;
        let sys::nvmearb_sqe { cdw10, cdw11, cdw12, cdw13, cdw14, cdw15, .. } = *fields;
        Sqe { opcode, flags, cid, nsid, cdw2, cdw3, mptr, prp1, prp2, cdw10, cdw11, cdw12, cdw13, cdw14, cdw15 }
    }
}

/// A status: its type (SCT) and its code (SC). It is written as both in hexadecimal: `0/08`.
#[derive(Clone, Copy, Debug, Default, PartialEq, Eq, Hash)]
pub struct Status {
    sct: u8,
    sc: u8,
}

// The statuses of one type.
macro_rules! statuses {
    ($sct:ident: $($(#[$told:meta])* $name:ident = $sc:ident;)*) => {
        impl Status {$(
            $(#[$told])*
            pub const $name: Status = Status { sct: sys::$sct, sc: sys::$sc };
        )*}
    };
}

statuses! { NVMEARB_SCT_GENERIC:
    /// Successful Completion.
    SUCCESS = NVMEARB_SC_SUCCESS;
    /// Invalid Command Opcode.
    INVALID_OPCODE = NVMEARB_SC_INVALID_OPCODE;
    /// Invalid Field in Command.
    INVALID_FIELD = NVMEARB_SC_INVALID_FIELD;
    /// Data Transfer Error.
    DATA_TRANSFER_ERROR = NVMEARB_SC_DATA_TRANSFER_ERROR;
    /// Internal Error.
    INTERNAL_ERROR = NVMEARB_SC_INTERNAL_ERROR;
    /// Command Abort Requested.
    ABORT_REQUESTED = NVMEARB_SC_ABORT_REQUESTED;
    /// Command Aborted due to SQ Deletion.
    ABORTED_BY_DELETION = NVMEARB_SC_ABORTED_BY_DELETION;
    /// Invalid Namespace or Format.
    INVALID_NAMESPACE = NVMEARB_SC_INVALID_NAMESPACE;
    /// Command Sequence Error.
    SEQUENCE_ERROR = NVMEARB_SC_SEQUENCE_ERROR;
    /// PRP Offset Invalid.
    PRP_OFFSET_INVALID = NVMEARB_SC_PRP_OFFSET_INVALID;
    /// LBA Out of Range.
    LBA_OUT_OF_RANGE = NVMEARB_SC_LBA_OUT_OF_RANGE;
    /// Capacity Exceeded.
    CAPACITY_EXCEEDED = NVMEARB_SC_CAPACITY_EXCEEDED;
    /// Namespace Not Ready.
    NAMESPACE_NOT_READY = NVMEARB_SC_NAMESPACE_NOT_READY;
}

statuses! { NVMEARB_SCT_COMMAND_SPECIFIC:
    /// Completion Queue Invalid.
    COMPLETION_QUEUE_INVALID = NVMEARB_SC_COMPLETION_QUEUE_INVALID;
    /// Invalid Queue Identifier.
    INVALID_QUEUE_IDENTIFIER = NVMEARB_SC_INVALID_QUEUE_IDENTIFIER;
    /// Invalid Queue Size.
    INVALID_QUEUE_SIZE = NVMEARB_SC_INVALID_QUEUE_SIZE;
    /// Invalid Interrupt Vector.
    INVALID_INTERRUPT_VECTOR = NVMEARB_SC_INVALID_INTERRUPT_VECTOR;
    /// Invalid Queue Deletion.
    INVALID_QUEUE_DELETION = NVMEARB_SC_INVALID_QUEUE_DELETION;
    /// Feature Identifier Not Saveable.
    FEATURE_NOT_SAVEABLE = NVMEARB_SC_FEATURE_NOT_SAVEABLE;
}

statuses! { NVMEARB_SCT_MEDIA:
    /// Write Fault.
    WRITE_FAULT = NVMEARB_SC_WRITE_FAULT;
    /// Unrecovered Read Error.
    UNRECOVERED_READ_ERROR = NVMEARB_SC_UNRECOVERED_READ_ERROR;
}

impl Status {
    /// The status of a type and a code. None if the type is above 7.
    pub const fn new(sct: u8, sc: u8) -> Option<Status> {
        if sct > 7 {
            return None;
        }
        Some(Status { sct, sc })
    }

    /// The status code type, 0 to 7.
    pub const fn sct(self) -> u8 {
        self.sct
    }

    /// The status code.
    pub const fn sc(self) -> u8 {
        self.sc
    }

    /// Whether the command succeeded.
    pub const fn is_success(self) -> bool {
        self.sct == 0 && self.sc == 0
    }

    pub(crate) fn fields(self) -> sys::nvmearb_status {
        sys::nvmearb_status { sct: self.sct, sc: self.sc }
    }

    pub(crate) fn of(fields: &sys::nvmearb_status) -> Status {
        Status::new(fields.sct, fields.sc).expect("a status code type of libnvmearb has three bits")
    }
}

impl fmt::Display for Status {
    fn fmt(&self, f: &mut fmt::Formatter<'_>) -> fmt::Result {
        write!(f, "{:x}/{:02x}", self.sct, self.sc)
    }
}

/// The fields of a completion queue entry. CRD, More and Do Not Retry have none: [`Cqe::to_bytes`] writes 0.
#[derive(Clone, Copy, Debug, Default, PartialEq, Eq, Hash)]
pub struct Cqe {
    /// Dword 0, command specific.
    pub dw0: u32,
    /// The submission queue head pointer: the index of a slot.
    pub sqhd: u16,
    /// The submission queue identifier.
    pub sqid: u16,
    /// The command identifier.
    pub cid: u16,
    /// The phase tag.
    pub phase: bool,
    /// The status.
    pub status: Status,
}

impl Cqe {
    fn of(fields: &sys::nvmearb_cqe) -> Cqe {
        let sys::nvmearb_cqe { dw0, sqhd, sqid, cid, phase, status } = *fields;
        Cqe { dw0, sqhd, sqid, cid, phase: phase != 0, status: Status::of(&status) }
    }

    /// Decodes a completion queue entry.
    ///
    /// [`Error::Argument`]: Dword 1 isn't 0, or one of bits 31:28 of Dword 3 is set, which have no
    /// field.
    pub fn from_bytes(bytes: &[u8; CQE_BYTES]) -> Result<Cqe, Error> {
        // SAFETY: references.
        let fields = written(|fields| unsafe { sys::nvmearb_cqe_decode(bytes, fields) })?;
        Ok(Cqe::of(&fields))
    }

    /// Decodes a completion queue entry that may have flags, as what a controller posts.
    ///
    /// [`Error::Argument`]: Dword 1, or CRD in bits 29:28 of Dword 3, isn't 0.
    pub fn from_flagged(bytes: &[u8; CQE_BYTES]) -> Result<(Cqe, StatusFlags), Error> {
        let mut flags = 0;
        // SAFETY: references.
        let fields = written(|fields| unsafe { sys::nvmearb_cqe_decode_with(bytes, fields, &mut flags) })?;
        Ok((Cqe::of(&fields), StatusFlags::of(flags)))
    }

    /// Encodes a completion queue entry. It undoes [`Cqe::from_bytes`].
    pub fn to_bytes(&self) -> [u8; CQE_BYTES] {
        let Cqe { dw0, sqhd, sqid, cid, phase, status } = *self;
        let fields = sys::nvmearb_cqe { dw0, sqhd, sqid, cid, phase: phase.into(), status: status.fields() };
        // SAFETY: references.
        sure(written(|bytes| unsafe { sys::nvmearb_cqe_encode(&fields, bytes) }))
    }
}
