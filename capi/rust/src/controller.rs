// SPDX-License-Identifier: MIT
//! The controller.
use crate::error::{checked, filled, found, rung, sure, written};
use crate::queues::Turns;
use crate::sys::{self, nvmearb_ctrl, nvmearb_slot};
use crate::{check_version, DoorbellError, Error, Mechanism, Pick, Priority, Region, Seen, Slots, Sqe, Status, Step};
use crate::{CQE_BYTES, SQE_BYTES};
use core::fmt;

/// What a controller is made with.
#[derive(Clone, Copy, Debug, PartialEq, Eq, Hash)]
pub struct Config {
    /// The admin submission queue: ASQ, and the field of AQA and 1 more.
    pub asq: Region,
    /// The admin completion queue: ACQ, and the field of AQA and 1 more.
    pub acq: Region,
    /// The arbitration mechanism (CC.AMS).
    pub mechanism: Mechanism,
    /// The Arbitration feature; bits 07:03 are ignored.
    pub cdw11: u32,
    /// The most I/O submission queues, 1 to [`MAX_IO_QUEUES`](crate::MAX_IO_QUEUES).
    pub nsq: u16,
    /// The most I/O completion queues, 1 to [`MAX_IO_QUEUES`](crate::MAX_IO_QUEUES).
    pub ncq: u16,
    /// The depth of each I/O submission queue, 1 to [`MAX_DEPTH`](crate::MAX_DEPTH) ([`Controller::set_depth`]).
    pub depth: u16,
    /// That of the admin queue, above the number of event requests that the device holds.
    pub admin_depth: u16,
}

impl Config {
    fn fields(&self) -> sys::nvmearb_config {
        sys::nvmearb_config {
            asq: self.asq.fields(),
            acq: self.acq.fields(),
            mechanism: self.mechanism as u32,
            cdw11: self.cdw11,
            nsq: self.nsq,
            ncq: self.ncq,
            depth: self.depth,
            admin_depth: self.admin_depth,
        }
    }
}

/// What a Create may ask for where queues may lie anywhere in memory.
#[derive(Clone, Copy, Debug, PartialEq, Eq, Hash)]
pub struct Placement {
    /// The memory page in bytes, 2 to the power of 12 + CC.MPS: PRP1 is a multiple of it.
    pub page: u32,
    /// The largest QSIZE, which is zero based (CAP.MQES), 1 to 4095.
    pub mqes: u16,
    /// The number of interrupt vectors, at least 1, also for a device with a pin: IV is below it.
    pub vectors: u16,
}

impl Placement {
    fn fields(&self) -> sys::nvmearb_placement {
        sys::nvmearb_placement { page: self.page, mqes: self.mqes, vectors: self.vectors }
    }
}

/// The name of a command that the device has, until it is completed: the slot that holds it, and that slot's generation,
/// which goes up by one, modulo 65,536, each time the device takes a command of the slot. A tag is used up once its
/// command is completed, or the controller is reset. Calls refuse it then, so what the device completes twice, or late,
/// ends no other command. A tag comes again with the 65,536th command that is taken from its slot after it.
#[derive(Clone, Copy, Debug, PartialEq, Eq, PartialOrd, Ord, Hash)]
pub struct Tag(u32);

impl Tag {
    /// Both in one number: the slot in bits 15:0, and the generation in bits 31:16.
    pub fn number(self) -> u32 {
        self.0
    }

    /// The index of the slot, below the number of slots: for an array in which the device keeps what it has of a command.
    pub fn slot(self) -> u16 {
        self.0 as u16
    }
}

/// As for a device that saves the tags of its commands. Calls refuse a tag that no command has.
impl From<u32> for Tag {
    fn from(number: u32) -> Tag {
        Tag(number)
    }
}

/// A command that the device has.
#[derive(Clone, Copy, Debug, PartialEq, Eq, Hash)]
pub struct Command {
    /// Its submission queue entry.
    pub entry: Sqe,
    /// What the caller gave [`Controller::fetched`] with it, for example the number of its queue.
    pub cookie: u32,
    /// Its name until it is completed.
    pub tag: Tag,
}

impl Command {
    fn of(fields: &sys::nvmearb_command) -> Command {
        Command { entry: Sqe::of(&fields.entry), cookie: fields.cookie, tag: Tag(fields.tag) }
    }
}

/// The flags of a completion, beside its status. By default it has neither.
#[derive(Clone, Copy, Debug, Default, PartialEq, Eq, Hash)]
pub struct StatusFlags {
    /// More: the Error Information log page has more of the command.
    pub more: bool,
    /// Do Not Retry: the same command would fail again. Without it Linux submits a failing Read six times.
    pub do_not_retry: bool,
}

impl StatusFlags {
    /// Do Not Retry alone.
    pub const DO_NOT_RETRY: StatusFlags = StatusFlags { more: false, do_not_retry: true };

    pub(crate) fn of(number: u8) -> StatusFlags {
        StatusFlags { more: number & sys::NVMEARB_MORE != 0, do_not_retry: number & sys::NVMEARB_DNR != 0 }
    }

    fn number(self) -> u8 {
        u8::from(self.do_not_retry) * sys::NVMEARB_DNR + u8::from(self.more) * sys::NVMEARB_MORE
    }
}

/// A completion to be written into the ring of a completion queue. The phase tag is in its last four bytes: write them
/// after the others.
#[derive(Clone, Copy, Debug, PartialEq, Eq, Hash)]
pub struct Post {
    /// The completion queue entry. [`Cqe::from_flagged`](crate::Cqe::from_flagged) takes it, as it may have flags.
    pub bytes: [u8; CQE_BYTES],
    /// The cookie of its command.
    pub cookie: u32,
    /// The tag of its command, or one that is used up if the device never took it.
    pub tag: Tag,
    /// The slot of the ring.
    pub slot: u16,
}

impl Post {
    fn of(fields: &sys::nvmearb_post) -> Post {
        let sys::nvmearb_post { bytes, cookie, tag, slot } = *fields;
        Post { bytes, cookie, tag: Tag(tag), slot }
    }

    /// Its flags: those that the device gave, or for what the controller answers itself Do Not Retry where a retry
    /// can't change the status.
    pub fn flags(&self) -> StatusFlags {
        StatusFlags { more: self.bytes[15] & 0x40 != 0, do_not_retry: self.bytes[15] & 0x80 != 0 }
    }
}

/// The front of a whole controller, which is driven by calls. It has its state, of 6,016 bytes, and the slots that hold
/// the commands ([`Slots`]), and allocates nothing.
///
/// The order of calls:
///
/// 1. When the host enables the controller (CC.EN), [`Controller::anywhere`] or [`Controller::reset_anywhere`] with the
///    admin queues: the host chooses where its queues lie. (After [`Controller::new`] a Create names a region that was
///    added by [`Controller::add_sq_region`] or [`Controller::add_cq_region`].) When CC.EN becomes 0, make no call until
///    it is 1 again, and then [`Controller::reset_anywhere`]: what the device completes late under a [`Tag`] from before
///    is refused. To a controller that is made anew over other slots such a tag may name one of its own commands.
/// 2. [`Controller::own_opcode`] and [`Controller::own_feature`] for the admin commands that the device answers itself,
///    such as Identify.
/// 3. At each doorbell write [`Controller::sq_tail`] or [`Controller::cq_head`].
/// 4. While `to_fetch().next()` tells a queue and a slot: read the entry there, and [`Controller::fetched`], or
///    [`Controller::fetched_at`] where several reads are under way. Queues take turns ([`Controller::to_fetch`]). [`Controller::next_fetch`] asks for the queue behind another, and
///    [`Controller::fetch`] a single one.
/// 5. While [`Controller::take`] gives a command, execute it. Where it has none, [`Controller::pick`], and begin again,
///    until that picks nothing either. At a step that created a queue keep its [`Asked`](crate::Asked) by the
///    identifier, those of submission queues and of completion queues apart. At one that began a deletion do 8. at once.
/// 6. [`Controller::complete`] or [`Controller::complete_with`] for each command that ends, in any order and at any
///    time.
/// 7. For each of [`Controller::posts`]: write the completion into the slot of the ring, and then send the interrupt of the
///    queue's vector, if its enable bit is set. [`Controller::next_to_post`] and [`Controller::post`] ask for a queue, and
///    for one of its completions.
/// 8. After a pick that began a deletion, [`Controller::finish`] at once and after each 7., while it ends one. Until it
///    ends, nothing is fetched or picked of that queue, and a Delete of its completion queue is refused with
///    [`Status::INVALID_QUEUE_DELETION`], also one that came with it. What the device has of the queue may still be
///    completed. Other queues go on, and further deletions may begin.
/// 9. Go back to 4. until a pass does nothing, and once the device can take more commands or no longer holds a queue.
///
/// [`Controller::fetched_n`], [`Controller::take_n`] and [`Controller::post_n`] make several calls of 4., 5. or 7. at once.
///
/// An admin command that is neither the controller's own nor the device's is answered with [`Status::INVALID_OPCODE`],
/// and Set and Get Features of such a feature identifier with [`Status::INVALID_FIELD`].
///
/// After [`Controller::anywhere`] a Create names any address, and the host may use the memory of a queue again once its
/// Delete is answered. The library doesn't know the memory: a Create at an address where none is, or over another ring,
/// is accepted. Where an access to a ring fails, the device sets CSTS.CFS and waits for the reset. Of regions there are
/// at most 65 of a kind until the next reset; an address is that of one, and one queue uses it, once.
///
/// It isn't `Clone`: two copies would post the same completions.
///
/// ```
/// use nvmearb::{admin_opcode, feature, Config, Controller, Cqe, Mechanism, Placement, Region, Slot, Sqe, NO_LIMIT};
///
/// let mut ctrl = Controller::anywhere(
///     &Config {
///         asq: Region { address: 0x1000, slots: 8 },
///         acq: Region { address: 0x2000, slots: 8 },
///         mechanism: Mechanism::RoundRobin,
///         cdw11: 7,
///         nsq: 4,
///         ncq: 4,
///         depth: 8,
///         admin_depth: 8,
///     },
///     &Placement { page: 4096, mqes: 4095, vectors: 1 },
///     [Slot::EMPTY; 5 * 8],
/// )
/// .expect("its numbers are in their ranges");
/// let entry =
///     Sqe { opcode: admin_opcode::GET_FEATURES, cid: 5, cdw10: feature::ARBITRATION.into(), ..Sqe::default() };
/// ctrl.sq_tail(0, 1).expect("the ring has room"); // the host submitted a command to the admin queue
/// assert_eq!(ctrl.fetch(0), Some(0)); // its entry is in slot 0
/// ctrl.fetched(0, &entry.to_bytes(), 0)?;
/// ctrl.pick(NO_LIMIT)?; // the controller carries it out
/// let post = ctrl.post(0).expect("its completion is ready");
/// assert_eq!((post.slot, Cqe::from_bytes(&post.bytes)?.dw0), (0, 7));
/// # Ok::<(), nvmearb::Error>(())
/// ```
pub struct Controller<S> {
    // These two go together: the library wrote what is in both, and nothing else writes into them.
    pub(crate) ctrl: nvmearb_ctrl,
    pub(crate) slots: S,
    // (these make it `!Sync`: calls run one after another)
    pub(crate) turns: Turns,
}

impl<S: Slots> Controller<S> {
    /// A controller with its admin queues alone, which are open, on region 0 of each kind. One of the `slots` holds one
    /// command from its fetch until its completion is posted, and nothing is fetched while none is free. At most as many
    /// commands of a submission queue hold a slot as its depth. With as many slots as the depths of the queues that may
    /// be open have together, `admin_depth + nsq * depth`, one is free for each command that may be fetched otherwise,
    /// while queues are being deleted too. With fewer, commands of one queue may keep those of another from being
    /// fetched. Commands that a deletion drops hold their slots until their completions are posted.
    ///
    /// The slots keep their generations, by which a [`Tag`] of an earlier controller over them is refused. Over other slots,
    /// such as [`Slot::EMPTY`](crate::Slot::EMPTY) ones, such a tag may name a command of this controller. So at a reset of
    /// the device take [`Controller::reset`], or the slots that [`Controller::into_slots`] gives back.
    ///
    /// The call takes some 34 KB of stack, and each other call 1 KB.
    ///
    /// [`Error::Argument`]: there aren't 1 to [`MAX_SLOTS`](crate::MAX_SLOTS) slots, `nsq` or `ncq` isn't 1 to
    /// [`MAX_IO_QUEUES`](crate::MAX_IO_QUEUES), or `depth` or `admin_depth` isn't 1 to
    /// [`MAX_DEPTH`](crate::MAX_DEPTH). Otherwise the first of these: [`Error::Size`]: `asq` doesn't have 2 to 4096
    /// slots. [`Error::Used`]: `acq` has the address of `asq`. [`Error::Size`]: `acq` doesn't have 2 to 4096 slots.
    ///
    /// # Panics
    ///
    /// If [`is_library_of_this_version`](crate::is_library_of_this_version) is false.
    pub fn new(config: &Config, slots: S) -> Result<Controller<S>, Error> {
        check_version();
        let mut controller = Controller::of(nvmearb_ctrl::default(), slots);
        controller.reset(config)?;
        Ok(controller)
    }

    pub(crate) fn of(ctrl: nvmearb_ctrl, slots: S) -> Controller<S> {
        Controller { ctrl, slots, turns: Turns::default() }
    }

    /// Makes the controller anew with the slots that it has, as at a controller reset: nothing of before is left but the
    /// generations of the slots ([`Tag`]). Refused as [`Controller::new`], and then the controller is as it was.
    pub fn reset(&mut self, config: &Config) -> Result<(), Error> {
        let (ctrl, slots, count) = self.parts();
        // SAFETY: references.
        checked(unsafe { sys::nvmearb_ctrl_init(ctrl, slots, count, &config.fields()) })?;
        self.turns = Turns::default();
        Ok(())
    }

    /// The slots, with their generations: a controller that is made over them refuses what is completed under a [`Tag`] of
    /// this one.
    pub fn into_slots(self) -> S {
        self.slots
    }

    /// A controller whose queues may lie anywhere in memory, as [`Controller::new`] makes one whose queues lie on
    /// regions. At a reset of the device take [`Controller::reset_anywhere`]: over other slots a [`Tag`] of before, which
    /// the device completes late, may name a command of the new controller, as [`Controller::new`] tells.
    ///
    /// The first of these that applies refuses a Create that isn't fused. [`Status::INVALID_QUEUE_SIZE`]: QSIZE is
    /// above `mqes`. [`Status::PRP_OFFSET_INVALID`]: PRP1 isn't a multiple of the page.
    /// [`Status::INVALID_INTERRUPT_VECTOR`]: IV of a completion queue isn't below `vectors`, whatever IEN.
    /// [`Status::INVALID_FIELD`]: PC is 0. [`Status::INVALID_QUEUE_IDENTIFIER`]: QID is 0, above the allotted number, or
    /// that of a queue that is open or closing. [`Status::INVALID_QUEUE_SIZE`]: QSIZE is 0. Of a submission queue
    /// [`Status::INVALID_QUEUE_IDENTIFIER`]: CQID is 0 or above the allotted number, and
    /// [`Status::COMPLETION_QUEUE_INVALID`]: that queue isn't open.
    ///
    /// [`Error::Argument`]: as [`Controller::new`], and if `page` is no power of two, `mqes` isn't 1 to
    /// 4095, or `vectors` is 0. Otherwise [`Error::Size`]: `asq` or `acq`
    /// doesn't have 2 to 4096 slots.
    ///
    /// # Panics
    ///
    /// If [`is_library_of_this_version`](crate::is_library_of_this_version) is false.
    pub fn anywhere(config: &Config, placement: &Placement, slots: S) -> Result<Controller<S>, Error> {
        check_version();
        let mut controller = Controller::of(nvmearb_ctrl::default(), slots);
        controller.reset_anywhere(config, placement)?;
        Ok(controller)
    }

    /// Makes the controller anew as [`Controller::anywhere`], with the slots that it has. Refused as that; otherwise as
    /// [`Controller::reset`].
    pub fn reset_anywhere(&mut self, config: &Config, placement: &Placement) -> Result<(), Error> {
        let (ctrl, slots, count) = self.parts();
        let (config, placement) = (config.fields(), placement.fields());
        // SAFETY: references.
        checked(unsafe { sys::nvmearb_ctrl_init_anywhere(ctrl, slots, count, &config, &placement) })?;
        self.turns = Turns::default();
        Ok(())
    }

    /// Adds a submission region, which a Create I/O Submission Queue may name, and answers its number.
    ///
    /// The first of these: [`Error::Used`]: a region of either kind has this address. [`Error::TooMany`]: there are
    /// [`MAX_REGIONS`](crate::MAX_REGIONS) submission regions, or queues may lie anywhere. [`Error::Size`]: `slots`
    /// isn't 2 to 4096.
    pub fn add_sq_region(&mut self, address: u64, slots: u16) -> Result<u16, Error> {
        // SAFETY: references.
        written(|number| unsafe { sys::nvmearb_ctrl_add_sq_region(&mut self.ctrl, address, slots, number) })
    }

    /// Adds a completion region, as [`Controller::add_sq_region`] a submission region.
    pub fn add_cq_region(&mut self, address: u64, slots: u16) -> Result<u16, Error> {
        // SAFETY: references.
        written(|number| unsafe { sys::nvmearb_ctrl_add_cq_region(&mut self.ctrl, address, slots, number) })
    }

    /// From now on the admin commands of this opcode are the device's: they are picked in their turn
    /// ([`Step::Passed`]), and the device takes and completes them as it does commands of I/O queues, at any later
    /// time. An Asynchronous Event Request waits like this. A reset forgets it. The opcodes 00h, 01h, 04h, 05h, 09h and
    /// 0Ah stay the controller's, and so does a fused command, which it refuses. The device checks PSDT, which the
    /// controller doesn't look at.
    ///
    /// An Abort, 08h, is the device's where it was announced and names no command that waits. The device finds the tag
    /// of that command by [`Controller::named`], ends it if it can, completes it with [`Status::ABORT_REQUESTED`], and
    /// completes the Abort with 0 as Dword 0, or 1 where it couldn't. One that isn't the device's is answered with 1
    /// where no command waits.
    pub fn own_opcode(&mut self, opcode: u8) {
        // SAFETY: references.
        sure(checked(unsafe { sys::nvmearb_ctrl_own_opcode(&mut self.ctrl, opcode) }));
    }

    /// From now on Set Features and Get Features of this feature identifier are the device's, as
    /// [`Controller::own_opcode`] tells. Of the controller's own features, 01h and 07h, the device has no more than a Get
    /// Features that selects (SEL) another value than the current one.
    pub fn own_feature(&mut self, fid: u8) {
        // SAFETY: references.
        sure(checked(unsafe { sys::nvmearb_ctrl_own_feature(&mut self.ctrl, fid) }));
    }

    /// From now on at most `depth` commands of a submission queue hold a slot, each from its fetch until its completion
    /// is posted: those that wait, and those that are picked, with the device, or to be posted. Call it before the queue
    /// is created: an identifier keeps its depth until the next call, or until the controller is made anew, whatever is
    /// created and deleted. Where more commands hold a slot already, nothing is fetched of the queue until fewer do. The
    /// depth of the admin queue has to be above the number of Asynchronous Event Requests that the device holds, or no
    /// admin command is fetched any more.
    ///
    /// [`Error::Argument`]: `qid` is above [`MAX_IO_QUEUES`](crate::MAX_IO_QUEUES), or `depth` isn't 1 to
    /// [`MAX_DEPTH`](crate::MAX_DEPTH).
    pub fn set_depth(&mut self, qid: u16, depth: u16) -> Result<(), Error> {
        // SAFETY: references.
        checked(unsafe { sys::nvmearb_ctrl_set_depth(&mut self.ctrl, qid, depth) })
    }

    /// From now on no command of a submission queue is picked (`on`), or they are again. What waits in it stays there,
    /// and up to its depth it is fetched as before; an Abort and a deletion still end it. Commands that were picked
    /// stay picked. The queue may be the admin queue. A queue that is created anew isn't held.
    ///
    /// [`Error::Missing`]: the queue isn't open or is closing.
    pub fn hold(&mut self, qid: u16, on: bool) -> Result<(), Error> {
        // SAFETY: references.
        checked(unsafe { sys::nvmearb_ctrl_hold(&mut self.ctrl, qid, u8::from(on)) })
    }

    /// From now on an I/O submission queue has this priority class, whatever its Create asked for (QPRIO). Linux asks
    /// for urgent for all, so that weights do nothing there. A queue that is created anew has the class of its Create.
    /// Under round robin a class has no effect.
    ///
    /// [`Error::Argument`]: `priority` is [`Priority::Admin`]. Otherwise [`Error::Missing`]: `qid` is 0, or the queue
    /// isn't open or is closing.
    pub fn set_class(&mut self, qid: u16, priority: Priority) -> Result<(), Error> {
        // SAFETY: references.
        checked(unsafe { sys::nvmearb_ctrl_set_class(&mut self.ctrl, qid, priority as u16) })
    }

    /// The host wrote the tail doorbell of a submission queue: `tail` is bits 15:00 of the value.
    ///
    /// [`DoorbellError::Register`]: the queue isn't open or is closing. Otherwise [`DoorbellError::Value`]: the ring
    /// has no such slot, or hasn't as many free slots. A ring has one slot less of commands than it has slots.
    pub fn sq_tail(&mut self, qid: u16, tail: u16) -> Result<(), DoorbellError> {
        // SAFETY: references.
        rung(unsafe { sys::nvmearb_ctrl_sq_tail(&mut self.ctrl, qid, tail) })
    }

    /// The host wrote the head doorbell of a completion queue: `head` is bits 15:00 of the value.
    ///
    /// [`DoorbellError::Register`]: the queue isn't open. Otherwise [`DoorbellError::Value`]: the ring has no such
    /// slot, or not as many completions were posted.
    pub fn cq_head(&mut self, cqid: u16, head: u16) -> Result<(), DoorbellError> {
        // SAFETY: references.
        rung(unsafe { sys::nvmearb_ctrl_cq_head(&mut self.ctrl, cqid, head) })
    }

    /// The slot of the ring of a submission queue whose entry is fetched next. None if the queue isn't open, the host
    /// submitted no more, as many of its commands hold a slot as its depth, as many wait as its ring has slots less 1,
    /// or 256, or no slot of the controller is free. A queue isn't open any more once its deletion began.
    pub fn fetch(&self, qid: u16) -> Option<u16> {
        // SAFETY: references.
        sure(found(|slot| unsafe { sys::nvmearb_ctrl_fetch(&self.ctrl, qid, slot) }))
    }

    /// The next submission queue of which [`Controller::fetch`] tells a slot, and that slot. Queues take turns by ascending
    /// identifier, 0 after [`MAX_IO_QUEUES`](crate::MAX_IO_QUEUES), beginning behind `last`. Any `last` above that counts
    /// as that, so that the admin queue has the first turn. None if `fetch` tells a slot of no queue.
    ///
    /// Hand in the queue that was told before. Then with each call a queue that has an entry to fetch is told, or its turn
    /// comes nearer: while it has some, it is told within [`MAX_QUEUES`](crate::MAX_QUEUES) calls. With fewer slots than
    /// the depths have together, queues share the free slots so.
    pub fn next_fetch(&self, last: u16) -> Option<(u16, u16)> {
        let mut qid = last;
        // SAFETY: references.
        let slot = sure(found(|slot| unsafe { sys::nvmearb_ctrl_next_fetch(&self.ctrl, &mut qid, slot) }))?;
        Some((qid, slot))
    }

    /// The entry in the slot that [`Controller::fetch`] tells was read: its command waits to be picked. `cookie` is
    /// kept with it.
    ///
    /// [`Error::Missing`]: `fetch` tells no slot.
    pub fn fetched(&mut self, qid: u16, bytes: &[u8; SQE_BYTES], cookie: u32) -> Result<(), Error> {
        let (ctrl, slots, count) = self.parts();
        // SAFETY: references, and the slots are those of the state.
        checked(unsafe { sys::nvmearb_ctrl_fetched(ctrl, slots, count, qid, bytes, cookie) })
    }

    /// As [`Controller::fetched`], of the entry that was read in this slot of the ring: with several reads under way, or a
    /// slot that was told before other calls, no entry is taken for another.
    ///
    /// The first of these: [`Error::Missing`]: `fetch` tells no slot. [`Error::Slot`]: it tells another.
    pub fn fetched_at(&mut self, qid: u16, slot: u16, bytes: &[u8; SQE_BYTES], cookie: u32) -> Result<(), Error> {
        let (ctrl, slots, count) = self.parts();
        // SAFETY: references, and the slots are those of the state.
        checked(unsafe { sys::nvmearb_ctrl_fetched_at(ctrl, slots, count, qid, slot, bytes, cookie) })
    }

    /// As [`Controller::fetched`], of one entry after the other, each with its cookie, until `fetch` tells no slot. Answers
    /// how many were fetched. The entries are those in the slots of the ring from the one that `fetch` tells on, slot 0
    /// after the last, and before the last tail that [`Controller::sq_tail`] accepted.
    ///
    /// [`Error::Argument`]: there aren't as many cookies as entries.
    pub fn fetched_n(&mut self, qid: u16, entries: &[[u8; SQE_BYTES]], cookies: &[u32]) -> Result<usize, Error> {
        let (ctrl, slots, count) = self.parts();
        let (first, bytes) = (entries.as_ptr().cast(), entries.len() * SQE_BYTES);
        let (kept, len) = (cookies.as_ptr(), cookies.len());
        // SAFETY: references, slices, and the slots are those of the state.
        let n = found(|n| unsafe { sys::nvmearb_ctrl_fetched_n(ctrl, slots, count, qid, first, bytes, kept, len, n) });
        n.map(Option::unwrap_or_default)
    }

    /// As [`Controller::fetched_n`], of entries that were read from this slot of the ring on.
    ///
    /// [`Error::Argument`]: there aren't as many cookies as entries. [`Error::Slot`]: `fetch` tells another slot.
    pub fn fetched_n_at(
        &mut self,
        qid: u16,
        slot: u16,
        entries: &[[u8; SQE_BYTES]],
        cookies: &[u32],
    ) -> Result<usize, Error> {
        let (ctrl, slots, count) = self.parts();
        let (first, bytes) = (entries.as_ptr().cast(), entries.len() * SQE_BYTES);
        let (kept, len) = (cookies.as_ptr(), cookies.len());
        // SAFETY: references, slices, and the slots are those of the state.
        let n = found(|n| unsafe {
            sys::nvmearb_ctrl_fetched_n_at(ctrl, slots, count, qid, slot, first, bytes, kept, len, n)
        });
        n.map(Option::unwrap_or_default)
    }

    /// The pick that arbitration makes next of the commands that wait now, where there is room for all of it, whether or
    /// not [`Controller::pick`] can make it already. None if no command waits but in queues that are held.
    pub fn peek(&self) -> Option<Pick> {
        let (ctrl, slots, count) = self.shared_parts();
        // SAFETY: references, and the slots are those of the state.
        sure(found(|pick| unsafe { sys::nvmearb_ctrl_peek(ctrl, slots, count, pick) })).as_ref().map(Pick::of)
    }

    /// Makes the next pick of arbitration, or tells by [`Step::Idle`], [`Step::Busy`] or [`Step::NoRoom`] why there is
    /// none yet. `room` says how many commands the device can take now; a device without a bound passes
    /// [`NO_LIMIT`](crate::NO_LIMIT).
    /// The queue is the one that is picked with any room, and `n` the least of the burst, what its class has left of its
    /// weight, what waits in the queue, and `room`. The rest of the burst waits until the turn of its queue comes again.
    ///
    /// An admin command is picked alone, and wants a room of 1: where the device is full, [`Controller::peek`] tells
    /// whether one is next. One that isn't the device's is carried out at once: queues are created, a deletion begins and
    /// the waiting commands of its queue are answered with [`Status::ABORTED_BY_DELETION`], a waiting command is aborted
    /// with [`Status::ABORT_REQUESTED`], features are set and told.
    ///
    /// [`Error::State`]: something outside of Rust's rules wrote into the controller.
    pub fn pick(&mut self, room: u16) -> Result<Step, Error> {
        let mut step = sys::nvmearb_step::default();
        let (ctrl, slots, count) = self.parts();
        // SAFETY: references, and the slots are those of the state.
        match unsafe { sys::nvmearb_ctrl_pick(ctrl, slots, count, room, &mut step) } {
            sys::NVMEARB_NONE => Ok(Step::Idle),
            sys::NVMEARB_BUSY => Ok(Step::Busy),
            sys::NVMEARB_NOROOM => Ok(Step::NoRoom),
            code => checked(code).map(|()| Step::of(&step)),
        }
    }

    /// The device takes the oldest of the commands that are picked and not taken. None if all are taken.
    pub fn take(&mut self) -> Option<Command> {
        let (ctrl, slots, count) = self.parts();
        // SAFETY: references, and the slots are those of the state.
        let command = sure(found(|command| unsafe { sys::nvmearb_ctrl_take(ctrl, slots, count, command) }));
        command.as_ref().map(Command::of)
    }

    /// As [`Controller::take`], until all are taken or the slice is full. Writes the commands in this order, and answers
    /// how many; what lies behind them stays.
    pub fn take_n(&mut self, commands: &mut [Option<Command>]) -> usize {
        let (ctrl, slots, count) = self.parts();
        // SAFETY: references, and the slots are those of the state.
        filled(commands, Command::of, |first, room, n| unsafe {
            sys::nvmearb_ctrl_take_n(ctrl, slots, count, first, room, n)
        })
    }

    /// The device completes a command, whose completion is ready then. `dw0` is its Dword 0.
    ///
    /// [`Error::Missing`]: the device has no command of this tag: none was taken under it, or the tag is used up.
    pub fn complete(&mut self, tag: Tag, status: Status, dw0: u32) -> Result<(), Error> {
        let (ctrl, slots, count) = self.parts();
        // SAFETY: references, and the slots are those of the state.
        checked(unsafe { sys::nvmearb_ctrl_complete(ctrl, slots, count, tag.0, &status.fields(), dw0) })
    }

    /// The device completes a command, with flags; [`Controller::complete`] gives it none.
    ///
    /// [`Error::Missing`]: as [`Controller::complete`].
    pub fn complete_with(&mut self, tag: Tag, status: Status, dw0: u32, flags: StatusFlags) -> Result<(), Error> {
        let (ctrl, slots, count) = self.parts();
        let (status, flags) = (status.fields(), flags.number());
        // SAFETY: references, and the slots are those of the state.
        checked(unsafe { sys::nvmearb_ctrl_complete_with(ctrl, slots, count, tag.0, &status, dw0, flags) })
    }

    /// The completion that became ready first in the completion queue `cqid`. None if the queue isn't open, if none is
    /// ready, or if the host has freed no slot of the ring.
    pub fn post(&mut self, cqid: u16) -> Option<Post> {
        let (ctrl, slots, count) = self.parts();
        // SAFETY: references, and the slots are those of the state.
        let post = sure(found(|post| unsafe { sys::nvmearb_ctrl_post(ctrl, slots, count, cqid, post) }));
        post.as_ref().map(Post::of)
    }

    /// As [`Controller::post`], until that gives none or the slice is full. Writes the completions in this order, in which
    /// they go into the ring, and answers how many; what lies behind them stays.
    pub fn post_n(&mut self, cqid: u16, posts: &mut [Option<Post>]) -> usize {
        let (ctrl, slots, count) = self.parts();
        // SAFETY: references, and the slots are those of the state.
        filled(posts, Post::of, |first, room, n| unsafe {
            sys::nvmearb_ctrl_post_n(ctrl, slots, count, cqid, first, room, n)
        })
    }

    /// The next completion queue of which [`Controller::post`] gives a completion. Queues take turns as those of
    /// [`Controller::next_fetch`], beginning behind `last`. None if `post` gives one of no queue.
    pub fn next_to_post(&self, last: u16) -> Option<u16> {
        let (ctrl, slots, count) = self.shared_parts();
        sure(found(|cqid| {
            *cqid = last;
            // SAFETY: references, and the slots are those of the state.
            unsafe { sys::nvmearb_ctrl_next_to_post(ctrl, slots, count, cqid) }
        }))
    }

    /// Finishes a deletion of a submission queue, all of whose commands have their completions posted, and answers its
    /// identifier, which is free then. The completion of the Delete is ready then. Of several it is the first one by
    /// identifier. None if of each queue that is being deleted a command that was fetched has no completion posted yet.
    pub fn finish(&mut self) -> Option<u16> {
        let (ctrl, slots, count) = self.parts();
        // SAFETY: references, and the slots are those of the state.
        sure(found(|qid| unsafe { sys::nvmearb_ctrl_finish(ctrl, slots, count, qid) }))
    }

    /// The command of a tag once more. None if the device has no command of this tag.
    pub fn command(&self, tag: Tag) -> Option<Command> {
        let (ctrl, slots, count) = self.shared_parts();
        // SAFETY: references, and the slots are those of the state.
        sure(found(|command| unsafe { sys::nvmearb_ctrl_command(ctrl, slots, count, tag.0, command) }))
            .as_ref()
            .map(Command::of)
    }

    /// The tag of the command with the identifier `cid`, of the submission queue `qid`, that the device has, so that it
    /// finds what an Abort names. None if the device has no such command: it waits, say, or is completed.
    pub fn named(&self, qid: u16, cid: u16) -> Option<Tag> {
        let (ctrl, slots, count) = self.shared_parts();
        // SAFETY: references, and the slots are those of the state.
        sure(found(|tag| unsafe { sys::nvmearb_ctrl_named(ctrl, slots, count, qid, cid, tag) })).map(Tag)
    }

    /// The number of the region of a submission queue, which is `qid` where queues may lie anywhere. None if the queue
    /// isn't open or is closing.
    pub fn sq(&self, qid: u16) -> Option<u16> {
        // SAFETY: references.
        sure(found(|region| unsafe { sys::nvmearb_ctrl_sq(&self.ctrl, qid, region) }))
    }

    /// The number of the region of a completion queue, which is `cqid` where queues may lie anywhere. None if the queue
    /// isn't open.
    pub fn cq(&self, cqid: u16) -> Option<u16> {
        // SAFETY: references.
        sure(found(|region| unsafe { sys::nvmearb_ctrl_cq(&self.ctrl, cqid, region) }))
    }

    /// How many commands of a submission queue were fetched and wait to be picked. None if the queue isn't open or is
    /// closing.
    pub fn waiting(&self, qid: u16) -> Option<u16> {
        // SAFETY: references.
        sure(found(|count| unsafe { sys::nvmearb_ctrl_waiting(&self.ctrl, qid, count) }))
    }

    /// A command that waits in a submission queue, and what the caller keeps with it: the oldest, which is picked first,
    /// if `n` is 0, the next one if `n` is 1, and so on. None if the queue isn't open or is closing, or if at most `n`
    /// commands wait in it.
    pub fn waits(&self, qid: u16, n: u16) -> Option<(Sqe, u32)> {
        let (ctrl, slots, count) = self.shared_parts();
        let mut cookie = 0;
        // SAFETY: references, and the slots are those of the state.
        let entry =
            sure(found(|entry| unsafe { sys::nvmearb_ctrl_waits(ctrl, slots, count, qid, n, entry, &mut cookie) }))?;
        Some((Sqe::of(&entry), cookie))
    }

    /// What the next pick is shown of a submission queue: its priority class, and how many of its commands wait, 0 if it
    /// is held. An [`Arbiter`](crate::Arbiter) that is shown all open queues so makes the same pick. None if the queue
    /// isn't open or is closing.
    pub fn seen(&self, qid: u16) -> Option<Seen> {
        // SAFETY: references.
        sure(found(|seen| unsafe { sys::nvmearb_ctrl_seen(&self.ctrl, qid, seen) })).as_ref().map(Seen::of)
    }

    /// Looks whether the numbers of the controller and its slots are within their ranges. They are unless something
    /// outside of Rust's rules wrote into them, or made them up: this finds some of that, and looks at each slot.
    ///
    /// [`Error::State`]: one is out of its range.
    pub fn verify(&self) -> Result<(), Error> {
        let (ctrl, slots, count) = self.shared_parts();
        // SAFETY: references.
        checked(unsafe { sys::nvmearb_ctrl_verify(ctrl, slots, count) })
    }

    /// The state, the slots, and their number, as calls take them.
    fn parts(&mut self) -> (&mut nvmearb_ctrl, *mut nvmearb_slot, usize) {
        let slots = self.slots.all_mut();
        (&mut self.ctrl, slots.as_mut_ptr().cast(), slots.len())
    }

    /// The same where nothing is written.
    fn shared_parts(&self) -> (&nvmearb_ctrl, *const nvmearb_slot, usize) {
        let slots = self.slots.all();
        (&self.ctrl, slots.as_ptr().cast(), slots.len())
    }
}

impl<S: Slots> fmt::Debug for Controller<S> {
    fn fmt(&self, f: &mut fmt::Formatter<'_>) -> fmt::Result {
        f.debug_struct("Controller").field("slots", &self.slots.all().len()).finish_non_exhaustive()
    }
}
