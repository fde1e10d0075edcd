// SPDX-License-Identifier: MIT
//! The board.
use crate::error::{checked, found, sure};
use crate::{check_version, sys, Error, Mechanism, OneCaller, Pick, Priority};
use core::fmt;

/// An arbiter with the open queues and the number of commands that wait in each. It picks what an
/// [`Arbiter`](crate::Arbiter) picks that is shown the same queues.
///
/// ```
/// use nvmearb::{Board, Mechanism, Pick, Priority};
///
/// let mut board = Board::new(Mechanism::Weighted, 1); // burst 2
/// board.open(1, Priority::Urgent)?;
/// board.open(2, Priority::Low)?;
/// board.came_n(2, 2)?; // two commands came to queue 2
/// board.came_n(1, 1)?;
/// assert_eq!(board.pick(), Some(Pick { qid: 1, n: 1, fresh: false }));
/// assert_eq!(board.pick(), Some(Pick { qid: 2, n: 1, fresh: false }));
/// # Ok::<(), nvmearb::Error>(())
/// ```
#[derive(Clone)]
pub struct Board(sys::nvmearb_board, OneCaller);

impl Board {
    /// A board on which no queue is open and which has served nothing. `cdw11` is that of the Arbitration feature; its
    /// bits 07:03 are ignored.
    ///
    /// # Panics
    ///
    /// If [`is_library_of_this_version`](crate::is_library_of_this_version) is false.
    pub fn new(mechanism: Mechanism, cdw11: u32) -> Board {
        check_version();
        let mut board = Board(sys::nvmearb_board::default(), OneCaller::default());
        // SAFETY: references.
        sure(checked(unsafe { sys::nvmearb_board_init(&mut board.0, mechanism as u32, cdw11) }));
        board
    }

    /// Opens a queue, in which no command waits.
    ///
    /// [`Error::Argument`]: the queue is open, `qid` is above 64, or `priority` isn't one that the queue can have:
    /// [`Priority::Admin`] for queue 0, one of the others for an I/O queue.
    pub fn open(&mut self, qid: u16, priority: Priority) -> Result<(), Error> {
        // SAFETY: references.
        checked(unsafe { sys::nvmearb_board_open(&mut self.0, qid, priority as u16) })
    }

    /// Closes a queue. The number of its waiting commands is forgotten; what was served is kept.
    ///
    /// [`Error::Argument`]: the queue isn't open.
    pub fn close(&mut self, qid: u16) -> Result<(), Error> {
        // SAFETY: references.
        checked(unsafe { sys::nvmearb_board_close(&mut self.0, qid) })
    }

    /// One more command waits in a queue.
    ///
    /// [`Error::Argument`]: the queue isn't open, or [`MAX_COUNT`](crate::MAX_COUNT) commands wait in it.
    pub fn came(&mut self, qid: u16) -> Result<(), Error> {
        // SAFETY: references.
        checked(unsafe { sys::nvmearb_board_came(&mut self.0, qid) })
    }

    /// `n` more commands wait in a queue, as after a doorbell write. An `n` of 0 changes nothing.
    ///
    /// [`Error::Argument`]: the queue isn't open, or more than [`MAX_COUNT`](crate::MAX_COUNT) commands would wait in
    /// it.
    pub fn came_n(&mut self, qid: u16, n: u16) -> Result<(), Error> {
        // SAFETY: references.
        checked(unsafe { sys::nvmearb_board_came_n(&mut self.0, qid, n) })
    }

    /// One waiting command left a queue without being picked, for example because it was aborted.
    ///
    /// [`Error::Argument`]: the queue isn't open, or no command waits in it.
    pub fn went(&mut self, qid: u16) -> Result<(), Error> {
        // SAFETY: references.
        checked(unsafe { sys::nvmearb_board_went(&mut self.0, qid) })
    }

    /// What [`Board::pick`] would pick.
    pub fn peek(&self) -> Option<Pick> {
        // SAFETY: references.
        sure(found(|pick| unsafe { sys::nvmearb_board_peek(&self.0, pick) })).as_ref().map(Pick::of)
    }

    /// Picks, and counts these commands as served and no longer as waiting. None if no command waits.
    pub fn pick(&mut self) -> Option<Pick> {
        // SAFETY: references.
        sure(found(|pick| unsafe { sys::nvmearb_board_pick(&mut self.0, pick) })).as_ref().map(Pick::of)
    }

    /// Picks at most `limit` commands: as [`Board::pick`], but `n` is the least of that `n` and `limit`, as
    /// [`Arbiter::pick_up_to`](crate::Arbiter::pick_up_to) tells. The rest of them still waits.
    ///
    /// [`Error::Argument`]: `limit` is 0.
    pub fn pick_up_to(&mut self, limit: u16) -> Result<Option<Pick>, Error> {
        // SAFETY: references.
        let told = found(|pick| unsafe { sys::nvmearb_board_pick_up_to(&mut self.0, limit, pick) });
        told.map(|pick| pick.as_ref().map(Pick::of))
    }

    /// Takes new settings. They start a new round; which queues were served last is kept, and the queues stay.
    pub fn set(&mut self, cdw11: u32) {
        // SAFETY: references.
        sure(checked(unsafe { sys::nvmearb_board_set(&mut self.0, cdw11) }));
    }
}

impl fmt::Debug for Board {
    fn fmt(&self, f: &mut fmt::Formatter<'_>) -> fmt::Result {
        f.debug_struct("Board").finish_non_exhaustive()
    }
}
