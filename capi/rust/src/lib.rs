// SPDX-License-Identifier: MIT
//! The queues of an NVMe controller, for virtual machine monitors, emulators and firmware with a loop of their own: the
//! C library `libnvmearb.a` of the same version, whose every function is proved, behind types that no safe caller can
//! break. Terms are those of the NVM Express Base Specification 2.0 and the NVM Command Set Specification 1.0.
//!
//! Which layer to take:
//!
//! * [`Controller`]: the front of a whole controller, which is driven by calls. It checks doorbells, says which slot is
//!   fetched next, arbitrates, carries out the admin commands on queues, features and Abort, hands I/O commands and the
//!   device's own admin commands, such as Identify, to the device under tags, and gives each completion with its slot,
//!   SQHD and phase tag. Take it if you have a device: the device keeps registers, memory, data and interrupts.
//!   `examples/device.rs` is one.
//!
//! or one of its parts by itself, if you have a front of your own:
//!
//! * [`Sqe`], [`Cqe`], [`Admin`] and [`Settings`] are the fields of entries and dwords, and [`Sqe::outcome`],
//!   [`Sqe::check`] and [`Sqe::range`] are the status of an I/O command.
//! * [`Arbiter`]: which submission queue is served next, and how many of its commands. Each pick is shown the open
//!   queues, and how many commands wait in each.
//! * [`Board`]: an arbiter that keeps the open queues and these numbers itself.
//! * [`Table`]: the queues and features of a controller, and the answers to the admin commands that create, delete, set
//!   and get them.
//!
//! The header `nvmearb.h` tells more of each, and in which order calls come.
//!
//! ```
//! use nvmearb::{Arbiter, Mechanism, Pick, Priority, Seen};
//!
//! let mut arbiter = Arbiter::new(Mechanism::Weighted, 0x0100_0001); // burst 2; weights: high 2, low 1
//! let seen = [
//!     Seen { qid: 1, priority: Priority::High, count: 5 },
//!     Seen { qid: 2, priority: Priority::Low, count: 5 },
//! ];
//! assert_eq!(arbiter.pick(&seen)?, Some(Pick { qid: 1, n: 2, fresh: false }));
//! assert_eq!(arbiter.pick(&seen)?, Some(Pick { qid: 2, n: 1, fresh: false }));
//! assert_eq!(arbiter.pick(&seen)?, Some(Pick { qid: 1, n: 2, fresh: true })); // a new round
//! # Ok::<(), nvmearb::Error>(())
//! ```
//!
//! # The library
//!
//! The build looks for `libnvmearb.a` in the folder that `NVMEARB_LIB_DIR` names, else by pkg-config.
//!
//! It allocates nothing, starts no thread and keeps no pointer: all states can be moved, and sent to other threads.
//! Calls on one state run one after another, so no state is `Sync`. An [`Arbiter`], a [`Board`], a [`Table`] and a
//! [`Controller`] are made only if the library is of this crate's version, is proved, and has states of its sizes: else
//! their making panics ([`is_library_of_this_version`]).
//!
//! # Features
//!
//! The crate is `no_std`, and by default allocates nothing. With `alloc` a controller may have its slots on the heap
//! (`boxed_slots`), and its snapshot is a `Vec` (`Controller::to_vec`). With `std` the errors are those of the standard
//! library. With `unproved` a library of which nothing is proved (`make -C capi install UNPROVED=1`) is taken as well, for
//! a try: it ends the program at a fault ([`is_library_proved`]).
//!
//! # What a call promises
//!
//! A call that answers an error, or `None`, has changed nothing. No call blocks, and none panics over its arguments.
#![no_std]
#![warn(missing_docs)]
#![warn(clippy::undocumented_unsafe_blocks)]

#[cfg(not(target_pointer_width = "64"))]
compile_error!("libnvmearb is built for 64-bit processors alone");

#[cfg(feature = "alloc")]
extern crate alloc;
#[cfg(feature = "std")]
extern crate std;

mod admin;
mod arbiter;
mod board;
mod controller;
mod entries;
mod error;
mod queues;
mod slots;
mod snapshot;
mod step;
pub mod sys;
mod table;

pub use admin::{Admin, Answer, Queue, Region, Verdict};
pub use arbiter::{Arbiter, Mechanism, Pick, Priority, Seen, Settings};
pub use board::Board;
pub use controller::{Command, Config, Controller, Placement, Post, StatusFlags, Tag};
pub use entries::{admin_opcode, feature, io_opcode, Cqe, Sqe, Status};
pub use error::{DoorbellError, Error};
pub use queues::{Posts, Queues, ToFetch};
#[cfg(feature = "alloc")]
pub use slots::boxed_slots;
pub use slots::{Slot, Slots};
pub use snapshot::SnapshotError;
pub use step::{Asked, Step};
pub use sys::{
    NVMEARB_CQE_BYTES as CQE_BYTES, NVMEARB_MAX_COUNT as MAX_COUNT, NVMEARB_MAX_DEPTH as MAX_DEPTH,
    NVMEARB_MAX_IO_QUEUES as MAX_IO_QUEUES, NVMEARB_MAX_NAMESPACES as MAX_NAMESPACES, NVMEARB_MAX_QUEUES as MAX_QUEUES,
    NVMEARB_MAX_REGIONS as MAX_REGIONS, NVMEARB_MAX_SLOTS as MAX_SLOTS, NVMEARB_NO_LIMIT as NO_LIMIT,
    NVMEARB_SQE_BYTES as SQE_BYTES,
};
pub use table::Table;

use core::cell::Cell;
use core::fmt;
use core::marker::PhantomData;
use core::mem::size_of;

// How the safe types keep the rules of nvmearb.h, which the comments of `unsafe` blocks cite as "references": all
// pointers to single objects come from references, and all pointers to arrays with their lengths from slices. So they
// aren't null, are aligned, point to as many objects, and nothing else writes what they point to during the call, nor
// reads it where it is written. The library keeps no pointer.

/// Whether states can be made over the library that is linked: it is of this crate's version, it is proved unless the
/// feature `unproved` is on, and it has states of this crate's sizes. Else a making panics and tells which of these it
/// isn't.
pub fn is_library_of_this_version() -> bool {
    fault().is_none()
}

/// Whether the library that is linked was proved, other than one of `make UNPROVED=1`.
pub fn is_library_proved() -> bool {
    version_of_library() & sys::NVMEARB_UNPROVED == 0
}

/// The states: their numbers for the library, their names, and their sizes here.
const SIZES: [(u32, &str, usize); 5] = [
    (sys::NVMEARB_STATE_ARBITER, "nvmearb_arbiter", size_of::<sys::nvmearb_arbiter>()),
    (sys::NVMEARB_STATE_BOARD, "nvmearb_board", size_of::<sys::nvmearb_board>()),
    (sys::NVMEARB_STATE_TABLE, "nvmearb_table", size_of::<sys::nvmearb_table>()),
    (sys::NVMEARB_STATE_CTRL, "nvmearb_ctrl", size_of::<sys::nvmearb_ctrl>()),
    (sys::NVMEARB_STATE_SLOT, "nvmearb_slot", size_of::<sys::nvmearb_slot>()),
];

fn version_of_library() -> u32 {
    // SAFETY: it has no argument.
    unsafe { sys::nvmearb_version() }
}

fn size_in_library(state: u32) -> usize {
    // SAFETY: numbers alone.
    unsafe { sys::nvmearb_size(state) as usize }
}

/// Why no state can be made over the library that is linked.
enum Fault {
    Version(u32),
    Unproved,
    Size(&'static str, usize, usize),
}

impl fmt::Display for Fault {
    fn fmt(&self, f: &mut fmt::Formatter<'_>) -> fmt::Result {
        match self {
            Fault::Version(version) => {
                let (major, minor, patch) = (version >> 16, version >> 8 & 0xff, version & 0xff);
                write!(f, "libnvmearb is of version {major}.{minor}.{patch}, and not {}", env!("CARGO_PKG_VERSION"))
            }
            Fault::Unproved => {
                f.write_str("libnvmearb is an unproved build (README, Install), which the feature `unproved` takes")
            }
            Fault::Size(name, other, size) => write!(f, "{name} has {other} bytes in libnvmearb, and not {size}"),
        }
    }
}

fn fault() -> Option<Fault> {
    let version = version_of_library() & !sys::NVMEARB_UNPROVED;
    if version != sys::NVMEARB_VERSION {
        return Some(Fault::Version(version));
    }
    if !is_library_proved() && !cfg!(feature = "unproved") {
        return Some(Fault::Unproved);
    }
    let other = SIZES.iter().find(|(state, _, size)| size_in_library(*state) != *size);
    other.map(|(state, name, size)| Fault::Size(name, size_in_library(*state), *size))
}

/// Marks a state whose calls run one after another: it isn't `Sync`.
type OneCaller = PhantomData<Cell<()>>;

/// Panics if the library that is linked isn't one that this crate takes.
fn check_version() {
    if let Some(why) = fault() {
        panic!("{why}");
    }
}
