// SPDX-License-Identifier: MIT
//! Controllers as bytes.
use crate::slots::{Slot, Slots};
use crate::sys::{self, nvmearb_ctrl};
use crate::Controller;
use core::fmt;
use core::mem::size_of;

/// What a snapshot begins with: eight letters, the version of the library, the bytes of a state and of a slot, the number
/// of slots, and a sum over these and all that follows.
const LETTERS: [u8; 8] = *b"nvmearb1";
const HEAD: usize = 8 + 4 * 4 + 8;
const STATE: usize = size_of::<nvmearb_ctrl>();
const SLOT: usize = size_of::<Slot>();

/// Why bytes aren't taken for a snapshot.
#[derive(Clone, Copy, Debug, PartialEq, Eq, Hash)]
#[non_exhaustive]
pub enum SnapshotError {
    /// They don't begin as a snapshot does.
    Letters,
    /// A library of another version made them: this one, as `NVMEARB_VERSION` has it.
    Version(u32),
    /// A state or a slot has another size there.
    Size,
    /// So many slots are there, and the memory for them has another number.
    Slots(usize),
    /// There are fewer or more bytes than the snapshot has: so many.
    Length(usize),
    /// They were changed: their sum is another.
    Changed,
    /// A number of the controller or of a slot is out of its range ([`Controller::verify`]).
    State,
}

impl fmt::Display for SnapshotError {
    fn fmt(&self, f: &mut fmt::Formatter<'_>) -> fmt::Result {
        match self {
            SnapshotError::Letters => f.write_str("no snapshot of a controller"),
            SnapshotError::Version(it) => {
                let (major, minor, patch) = (it >> 16, it >> 8 & 0xff, it & 0xff);
                write!(f, "a snapshot of version {major}.{minor}.{patch}, and not {}", env!("CARGO_PKG_VERSION"))
            }
            SnapshotError::Size => f.write_str("a snapshot with states of another size"),
            SnapshotError::Slots(it) => write!(f, "a snapshot of a controller with {it} slots"),
            SnapshotError::Length(it) => write!(f, "a snapshot has {it} bytes"),
            SnapshotError::Changed => f.write_str("the snapshot was changed"),
            SnapshotError::State => f.write_str("a number of the controller is out of its range"),
        }
    }
}

#[cfg(feature = "std")]
impl std::error::Error for SnapshotError {}

/// A sum over bytes (FNV-1a), the eight of its own left out.
fn sum_of(bytes: &[u8]) -> u64 {
    let rest = bytes[..HEAD - 8].iter().chain(&bytes[HEAD..]);
    rest.fold(0xcbf2_9ce4_8422_2325, |sum, byte| (sum ^ u64::from(*byte)).wrapping_mul(0x0000_0100_0000_01b3))
}

fn number_at(bytes: &[u8], at: usize) -> u32 {
    u32::from_le_bytes([bytes[at], bytes[at + 1], bytes[at + 2], bytes[at + 3]])
}

fn head_of(count: usize) -> [u8; HEAD] {
    let mut head = [0; HEAD];
    head[..8].copy_from_slice(&LETTERS);
    for (k, number) in [sys::NVMEARB_VERSION, STATE as u32, SLOT as u32, count as u32].iter().enumerate() {
        head[8 + 4 * k..][..4].copy_from_slice(&number.to_le_bytes());
    }
    head
}

/// The words of a state and its slots, in their order.
fn words<'a>(ctrl: &'a nvmearb_ctrl, slots: &'a [Slot]) -> impl Iterator<Item = u64> + 'a {
    let state = [ctrl.mark, ctrl.count as u64].into_iter().chain(ctrl.words.iter().copied());
    state.chain(slots.iter().flat_map(|slot| slot.words().iter().copied()))
}

/// Looks at the head of a snapshot, its length and its sum. `count` is the number of slots that memory is there for.
fn check(bytes: &[u8], count: usize) -> Result<(), SnapshotError> {
    if bytes.len() < HEAD || bytes[..8] != LETTERS {
        return Err(SnapshotError::Letters);
    }
    if number_at(bytes, 8) != sys::NVMEARB_VERSION {
        return Err(SnapshotError::Version(number_at(bytes, 8)));
    }
    if (number_at(bytes, 12) as usize, number_at(bytes, 16) as usize) != (STATE, SLOT) {
        return Err(SnapshotError::Size);
    }
    if number_at(bytes, 20) as usize != count {
        return Err(SnapshotError::Slots(number_at(bytes, 20) as usize));
    }
    if bytes.len() != HEAD + STATE + count * SLOT {
        return Err(SnapshotError::Length(HEAD + STATE + count * SLOT));
    }
    let sum = u64::from(number_at(bytes, 24)) | u64::from(number_at(bytes, 28)) << 32;
    if sum == sum_of(bytes) {
        Ok(())
    } else {
        Err(SnapshotError::Changed)
    }
}

impl<S: Slots> Controller<S> {
    /// How many bytes a snapshot of the controller has.
    pub fn snapshot_len(&self) -> usize {
        HEAD + STATE + self.slots.all().len() * SLOT
    }

    /// Writes a snapshot of the controller, as for a migration: what it knows of its queues and commands. Tags and
    /// cookies stay, so the device saves with it what it has under them, and where its queues lie.
    ///
    /// # Panics
    ///
    /// If there aren't [`Controller::snapshot_len`] bytes.
    pub fn to_bytes(&self, bytes: &mut [u8]) {
        assert!(bytes.len() == self.snapshot_len(), "a snapshot has {} bytes", self.snapshot_len());
        bytes[..HEAD].copy_from_slice(&head_of(self.slots.all().len()));
        for (place, word) in bytes[HEAD..].chunks_exact_mut(8).zip(words(&self.ctrl, self.slots.all())) {
            place.copy_from_slice(&word.to_le_bytes());
        }
        let sum = sum_of(bytes);
        bytes[HEAD - 8..HEAD].copy_from_slice(&sum.to_le_bytes());
    }

    /// A snapshot of the controller.
    #[cfg(feature = "alloc")]
    pub fn to_vec(&self) -> alloc::vec::Vec<u8> {
        let mut bytes = alloc::vec![0; self.snapshot_len()];
        self.to_bytes(&mut bytes);
        bytes
    }

    /// The controller of a snapshot, which takes the place of the one that wrote it, over memory for as many slots.
    /// What isn't a snapshot of this version, or was changed by mistake, is refused, and then
    /// [`Controller::verify`] looks at all numbers. A controller which somebody made up, with a right sum and with numbers
    /// in range, reads and writes its own memory alone, as any does, but what it answers is worth nothing.
    ///
    /// # Panics
    ///
    /// If [`is_library_of_this_version`](crate::is_library_of_this_version) is false.
    pub fn from_bytes(bytes: &[u8], mut slots: S) -> Result<Controller<S>, SnapshotError> {
        crate::check_version();
        check(bytes, slots.all().len())?;
        let mut numbers = bytes[HEAD..].chunks_exact(8).map(|it| {
            let mut word = [0; 8];
            word.copy_from_slice(it);
            u64::from_le_bytes(word)
        });
        let mut next = || numbers.next().unwrap_or_default();
        let mut ctrl = nvmearb_ctrl { mark: next(), count: next() as usize, ..nvmearb_ctrl::default() };
        ctrl.words.iter_mut().for_each(|word| *word = next());
        slots.all_mut().iter_mut().flat_map(Slot::words_mut).for_each(|word| *word = next());
        let controller = Controller::of(ctrl, slots);
        controller.verify().map_err(|_| SnapshotError::State)?;
        Ok(controller)
    }
}
