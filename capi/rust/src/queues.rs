// SPDX-License-Identifier: MIT
//! Iterators over the queues of a controller.
use crate::{Controller, Post, Seen, Slots, MAX_IO_QUEUES};
use core::cell::Cell;

/// The queues that had the last turn of a fetch and of a post. The admin queue has the first one.
pub(crate) struct Turns {
    fetch: Cell<u16>,
    post: u16,
}

impl Default for Turns {
    fn default() -> Turns {
        Turns { fetch: Cell::new(MAX_IO_QUEUES), post: MAX_IO_QUEUES }
    }
}

/// The submission queues that have an entry to fetch ([`Controller::to_fetch`]).
pub struct ToFetch<'a, S> {
    ctrl: &'a Controller<S>,
    first: Option<u16>,
}

/// The open submission queues ([`Controller::queues`]).
pub struct Queues<'a, S> {
    ctrl: &'a Controller<S>,
    qids: core::ops::RangeInclusive<u16>,
}

/// The completions that can be posted ([`Controller::posts`]).
pub struct Posts<'a, S> {
    ctrl: &'a mut Controller<S>,
    told: Option<u16>,
}

impl<S: Slots> Iterator for ToFetch<'_, S> {
    type Item = (u16, u16);

    fn next(&mut self) -> Option<(u16, u16)> {
        let turn = &self.ctrl.turns.fetch;
        let (qid, slot) = self.ctrl.next_fetch(turn.get())?;
        // (behind the last of them the first one comes again)
        if self.first == Some(qid) {
            return None;
        }
        self.first = self.first.or(Some(qid));
        turn.set(qid);
        Some((qid, slot))
    }
}

impl<S: Slots> Iterator for Queues<'_, S> {
    type Item = Seen;

    fn next(&mut self) -> Option<Seen> {
        let ctrl = self.ctrl;
        self.qids.find_map(|qid| ctrl.seen(qid))
    }
}

impl<S: Slots> Iterator for Posts<'_, S> {
    type Item = (u16, Post);

    fn next(&mut self) -> Option<(u16, Post)> {
        if let Some(cqid) = self.told {
            if let Some(post) = self.ctrl.post(cqid) {
                return Some((cqid, post));
            }
        }
        let cqid = self.ctrl.next_to_post(self.ctrl.turns.post)?;
        self.ctrl.turns.post = cqid;
        self.told = Some(cqid);
        Some((cqid, self.ctrl.post(cqid)?))
    }
}

impl<S: Slots> Controller<S> {
    /// The submission queues whose hosts submitted more than was fetched, and that have room for it: the identifier of
    /// each, and the slot that is fetched next. They take turns as those of [`Controller::next_fetch`], from behind the one
    /// that was told last, by this iterator or one before it. So `while let Some((qid, slot)) = ctrl.to_fetch().next()`
    /// fetches all, an entry of each queue after one of another, and queues share the slots where these are fewer than the
    /// depths together. A reset begins with the admin queue, and so does a controller of a snapshot.
    pub fn to_fetch(&self) -> ToFetch<'_, S> {
        ToFetch { ctrl: self, first: None }
    }

    /// The open submission queues, as the next pick is shown them.
    pub fn queues(&self) -> Queues<'_, S> {
        Queues { ctrl: self, qids: 0..=MAX_IO_QUEUES }
    }

    /// The completions that can be posted, each with the identifier of its completion queue: those of one queue after
    /// those of another. Each is posted once it is told, as by [`Controller::post`]. Queues take turns from behind the one
    /// of which this, or such an iterator before it, told the last completion; it needn't come to its end.
    pub fn posts(&mut self) -> Posts<'_, S> {
        Posts { ctrl: self, told: None }
    }
}
