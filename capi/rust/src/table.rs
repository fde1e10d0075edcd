// SPDX-License-Identifier: MIT
//! The queue table.
use crate::error::{checked, found, sure, written};
use crate::{check_version, sys, Answer, Error, OneCaller, Queue, Settings, SQE_BYTES};
use core::fmt;

/// The regions, queues and features of a controller, and the answers to the admin commands that create, delete, set and
/// get them.
///
/// A table answers an opcode that is none of the seven kinds of [`Admin`](crate::Admin) with
/// [`Status::INVALID_OPCODE`](crate::Status::INVALID_OPCODE), and Set and Get Features of a feature other than 01h and
/// 07h with [`Status::INVALID_FIELD`](crate::Status::INVALID_FIELD). A controller that has more of them looks at
/// [`Sqe::admin`](crate::Sqe::admin) first, and keeps those entries from the table.
///
/// ```
/// use nvmearb::{admin_opcode, Sqe, Table, Verdict};
///
/// let mut table = Table::new(4, 4, 0)?;
/// table.add_sq_region(0x1000, 8)?; // region 0 of each kind is that of the admin queue
/// table.add_cq_region(0x2000, 8)?;
/// table.add_cq_region(0x4000, 8)?;
/// let create = Sqe { opcode: admin_opcode::CREATE_CQ, prp1: 0x4000, cdw10: 0x0007_0001, cdw11: 1, ..Sqe::default() };
/// let answer = table.apply(&create.to_bytes());
/// assert!(answer.status.is_success());
/// assert_eq!(answer.verdict, Verdict::OpenCq { qid: 1, region: 1 });
/// # Ok::<(), nvmearb::Error>(())
/// ```
#[derive(Clone)]
pub struct Table(sys::nvmearb_table, OneCaller);

impl Table {
    /// A table with no region and no queue. `nsq` and `ncq` are the most I/O submission queues and I/O completion
    /// queues. `cdw11` is that of the Arbitration feature; its bits 07:03 are ignored.
    ///
    /// [`Error::Argument`]: `nsq` or `ncq` isn't 1 to [`MAX_IO_QUEUES`](crate::MAX_IO_QUEUES).
    ///
    /// # Panics
    ///
    /// If [`is_library_of_this_version`](crate::is_library_of_this_version) is false.
    pub fn new(nsq: u16, ncq: u16, cdw11: u32) -> Result<Table, Error> {
        check_version();
        // SAFETY: references.
        written(|table| unsafe { sys::nvmearb_table_init(table, nsq, ncq, cdw11) })
            .map(|table| Table(table, OneCaller::default()))
    }

    /// Adds a submission region of `slots` slots. Its number counts from 0. Region 0 is that of the admin queue, which
    /// is open from then on. A Create command takes one of the others, which no later Create can take again.
    ///
    /// The first of these: [`Error::Used`]: a region of either kind has this address. [`Error::TooMany`]: there are
    /// [`MAX_REGIONS`](crate::MAX_REGIONS) submission regions. [`Error::Size`]: `slots` isn't 2 to 4096.
    pub fn add_sq_region(&mut self, address: u64, slots: u16) -> Result<u16, Error> {
        // SAFETY: references.
        written(|number| unsafe { sys::nvmearb_table_add_sq_region(&mut self.0, address, slots, number) })
    }

    /// Adds a completion region, as [`Table::add_sq_region`] a submission region.
    pub fn add_cq_region(&mut self, address: u64, slots: u16) -> Result<u16, Error> {
        // SAFETY: references.
        written(|number| unsafe { sys::nvmearb_table_add_cq_region(&mut self.0, address, slots, number) })
    }

    /// Applies an admin command. A command whose status isn't success leaves the table as it was. Add region 0 of both
    /// kinds before the first command.
    pub fn apply(&mut self, bytes: &[u8; SQE_BYTES]) -> Answer {
        // SAFETY: references.
        Answer::of(&sure(written(|answer| unsafe { sys::nvmearb_table_apply(&mut self.0, bytes, answer) })))
    }

    /// Finishes the deletion of a submission queue: its identifier is free again.
    ///
    /// [`Error::Argument`]: the queue isn't closing.
    pub fn finish_delete(&mut self, qid: u16) -> Result<(), Error> {
        // SAFETY: references.
        checked(unsafe { sys::nvmearb_table_finish_delete(&mut self.0, qid) })
    }

    /// What the table has of a submission queue. None if the queue is neither open nor closing.
    pub fn sq(&self, qid: u16) -> Option<Queue> {
        // SAFETY: references.
        sure(found(|queue| unsafe { sys::nvmearb_table_sq(&self.0, qid, queue) })).as_ref().map(Queue::of)
    }

    /// The number of the region of a completion queue. None if the queue isn't open.
    pub fn cq(&self, qid: u16) -> Option<u16> {
        // SAFETY: references.
        sure(found(|region| unsafe { sys::nvmearb_table_cq(&self.0, qid, region) }))
    }

    /// How many I/O submission queues and I/O completion queues are allotted.
    pub fn allotted(&self) -> (u16, u16) {
        let mut ncq = 0;
        // SAFETY: references.
        let nsq = sure(written(|nsq| unsafe { sys::nvmearb_table_allotted(&self.0, nsq, &mut ncq) }));
        (nsq, ncq)
    }

    /// The settings of the Arbitration feature.
    pub fn settings(&self) -> Settings {
        // SAFETY: references.
        Settings::of(&sure(written(|settings| unsafe { sys::nvmearb_table_settings(&self.0, settings) })))
    }
}

impl fmt::Debug for Table {
    fn fmt(&self, f: &mut fmt::Formatter<'_>) -> fmt::Result {
        f.debug_struct("Table").finish_non_exhaustive()
    }
}
