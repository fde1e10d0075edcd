// SPDX-License-Identifier: MIT
//! Arbitration: mechanisms, priority classes, settings, picks, and the arbiter.
use crate::error::{checked, found, sure};
use crate::{check_version, sys, Error, OneCaller};
use core::fmt;
use core::mem::{align_of, size_of};

/// An arbitration mechanism.
#[derive(Clone, Copy, Debug, PartialEq, Eq, Hash)]
#[repr(u32)]
pub enum Mechanism {
    /// Round robin.
    RoundRobin = sys::NVMEARB_ROUND_ROBIN,
    /// Weighted round robin with urgent priority class.
    Weighted = sys::NVMEARB_WEIGHTED,
}

/// The priority class of a submission queue.
#[derive(Clone, Copy, Debug, PartialEq, Eq, Hash)]
#[repr(u16)]
pub enum Priority {
    /// That of the admin queue, queue 0, and of no other.
    Admin = sys::NVMEARB_ADMIN,
    /// QPRIO 0.
    Urgent = sys::NVMEARB_URGENT,
    /// QPRIO 1.
    High = sys::NVMEARB_HIGH,
    /// QPRIO 2.
    Medium = sys::NVMEARB_MEDIUM,
    /// QPRIO 3.
    Low = sys::NVMEARB_LOW,
}

impl Priority {
    pub(crate) fn of(number: u16) -> Priority {
        match number {
            sys::NVMEARB_ADMIN => Priority::Admin,
            sys::NVMEARB_URGENT => Priority::Urgent,
            sys::NVMEARB_HIGH => Priority::High,
            sys::NVMEARB_MEDIUM => Priority::Medium,
            sys::NVMEARB_LOW => Priority::Low,
            _ => panic!("libnvmearb told the priority {number}, which can't be"),
        }
    }
}

/// The Arbitration feature: what its Command Dword 11 says.
#[derive(Clone, Copy, Debug, PartialEq, Eq, Hash)]
pub struct Settings {
    /// The dword as Get Features answers it: bits 07:03 are 0.
    pub cdw11: u32,
    /// The most commands of one pick: a power of 2 from 1 to 64, or None for no limit.
    pub burst: Option<u16>,
    /// The weight of the high class: the most of its commands in one round, 1 to 256.
    pub high: u16,
    /// The weight of the medium class.
    pub medium: u16,
    /// The weight of the low class.
    pub low: u16,
}

impl Settings {
    /// What a Command Dword 11 of the Arbitration feature says. Its bits 07:03 are ignored.
    pub fn from_cdw11(cdw11: u32) -> Settings {
        let mut fields = sys::nvmearb_settings::default();
        // SAFETY: references.
        unsafe { sys::nvmearb_settings_of(cdw11, &mut fields) };
        Settings::of(&fields)
    }

    pub(crate) fn of(fields: &sys::nvmearb_settings) -> Settings {
        let sys::nvmearb_settings { cdw11, burst, high, medium, low } = *fields;
        Settings { cdw11, burst: (burst != 0).then_some(burst), high, medium, low }
    }
}

/// An open submission queue as a pick is shown it.
#[derive(Clone, Copy, Debug, PartialEq, Eq, Hash)]
#[repr(C)]
pub struct Seen {
    /// The queue identifier: 0 for the admin queue, 1 to 64 for an I/O queue.
    pub qid: u16,
    /// Its priority class: [`Priority::Admin`] for queue 0, one of the others for an I/O queue.
    pub priority: Priority,
    /// How many of its commands wait, or [`MAX_COUNT`](crate::MAX_COUNT) if more do.
    pub count: u16,
}

impl Seen {
    pub(crate) fn of(fields: &sys::nvmearb_seen) -> Seen {
        Seen { qid: fields.qid, priority: Priority::of(fields.priority), count: fields.count }
    }
}

// What is shown lies in memory as the library reads it: both are `repr(C)`, with the same fields in the same order.
const _: () = {
    assert!(
        size_of::<Seen>() == size_of::<sys::nvmearb_seen>() && align_of::<Seen>() == align_of::<sys::nvmearb_seen>()
    );
    assert!(size_of::<Priority>() == size_of::<u16>() && align_of::<Priority>() == align_of::<u16>());
};

/// A pick: the next `n` commands of a submission queue.
#[derive(Clone, Copy, Debug, PartialEq, Eq, Hash)]
pub struct Pick {
    /// The queue identifier.
    pub qid: u16,
    /// How many commands: at least 1, and at most as many as wait. The caller takes all of them.
    pub n: u16,
    /// Whether the pick starts a new round of weighted round robin.
    pub fresh: bool,
}

impl Pick {
    pub(crate) fn of(fields: &sys::nvmearb_pick) -> Pick {
        Pick { qid: fields.qid, n: fields.n, fresh: fields.fresh != 0 }
    }
}

/// Which submission queue is served next, and how many of its commands.
#[derive(Clone)]
pub struct Arbiter(sys::nvmearb_arbiter, OneCaller);

impl Arbiter {
    /// An arbiter that has served nothing yet. `cdw11` is that of the Arbitration feature; its bits 07:03 are ignored.
    ///
    /// # Panics
    ///
    /// If [`is_library_of_this_version`](crate::is_library_of_this_version) is false.
    pub fn new(mechanism: Mechanism, cdw11: u32) -> Arbiter {
        check_version();
        let mut arbiter = Arbiter(sys::nvmearb_arbiter::default(), OneCaller::default());
        // SAFETY: references.
        sure(checked(unsafe { sys::nvmearb_arbiter_init(&mut arbiter.0, mechanism as u32, cdw11) }));
        arbiter
    }

    /// Takes new settings. They start a new round; which queues were served last is kept.
    pub fn set(&mut self, cdw11: u32) {
        // SAFETY: references.
        sure(checked(unsafe { sys::nvmearb_arbiter_set(&mut self.0, cdw11) }));
    }

    /// What [`Arbiter::pick`] would pick.
    pub fn peek(&self, seen: &[Seen]) -> Result<Option<Pick>, Error> {
        // SAFETY: references; `Seen` lies in memory as `nvmearb_seen`.
        let told = found(|pick| unsafe { sys::nvmearb_arbiter_peek(&self.0, seen.as_ptr().cast(), seen.len(), pick) });
        told.map(|pick| pick.as_ref().map(Pick::of))
    }

    /// Picks among the open queues, and counts these commands as served. None if no command waits.
    ///
    /// [`Error::Argument`]: `seen` has more than [`MAX_QUEUES`](crate::MAX_QUEUES) queues, a queue has a field outside
    /// its range, or the identifiers don't ascend.
    pub fn pick(&mut self, seen: &[Seen]) -> Result<Option<Pick>, Error> {
        let arbiter = &mut self.0;
        // SAFETY: references; `Seen` lies in memory as `nvmearb_seen`.
        let told = found(|pick| unsafe { sys::nvmearb_arbiter_pick(arbiter, seen.as_ptr().cast(), seen.len(), pick) });
        told.map(|pick| pick.as_ref().map(Pick::of))
    }

    /// Picks at most `limit` commands: as [`Arbiter::pick`], but `n` is the least of that `n` and `limit`. It is for a
    /// caller that has room for so many: the burst is the most that may be fetched at a time (Base Specification,
    /// Command Arbitration). The rest waits until the turn of its queue comes again; what it would have used of the
    /// weight of its class stays.
    ///
    /// [`Error::Argument`]: `limit` is 0, or as [`Arbiter::pick`].
    ///
    /// ```
    /// use nvmearb::{Arbiter, Mechanism, Pick, Priority, Seen};
    ///
    /// let mut arbiter = Arbiter::new(Mechanism::Weighted, 0x0103_0007); // no burst limit; weight of Medium: 4
    /// let seen = [Seen { qid: 1, priority: Priority::Medium, count: 9 }];
    /// assert_eq!(arbiter.pick_up_to(&seen, 3)?, Some(Pick { qid: 1, n: 3, fresh: false }));
    /// assert_eq!(arbiter.pick_up_to(&seen, 3)?, Some(Pick { qid: 1, n: 1, fresh: false })); // the rest of the weight
    /// # Ok::<(), nvmearb::Error>(())
    /// ```
    pub fn pick_up_to(&mut self, seen: &[Seen], limit: u16) -> Result<Option<Pick>, Error> {
        let (arbiter, queues, count) = (&mut self.0, seen.as_ptr().cast(), seen.len());
        // SAFETY: references; `Seen` lies in memory as `nvmearb_seen`.
        let told = found(|pick| unsafe { sys::nvmearb_arbiter_pick_up_to(arbiter, queues, count, limit, pick) });
        told.map(|pick| pick.as_ref().map(Pick::of))
    }
}

impl fmt::Debug for Arbiter {
    fn fmt(&self, f: &mut fmt::Formatter<'_>) -> fmt::Result {
        f.debug_struct("Arbiter").finish_non_exhaustive()
    }
}
