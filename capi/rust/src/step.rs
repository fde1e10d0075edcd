// SPDX-License-Identifier: MIT
//! What a pick of a controller did.
use crate::{sys, Answer, Pick};

/// What a Create that made a queue asked for. After any other command all is 0.
#[derive(Clone, Copy, Debug, Default, PartialEq, Eq, Hash)]
pub struct Asked {
    /// PRP1: where the ring lies.
    pub address: u64,
    /// QSIZE: its slots less 1.
    pub qsize: u16,
    /// IV of a completion queue; 0 of a submission queue.
    pub vector: u16,
    /// IEN of a completion queue; false of a submission queue.
    pub interrupts: bool,
}

impl Asked {
    fn of(fields: &sys::nvmearb_asked) -> Asked {
        let sys::nvmearb_asked { address, qsize, vector, interrupts } = *fields;
        Asked { address, qsize, vector, interrupts: interrupts != 0 }
    }
}

/// What a call of [`Controller::pick`](crate::Controller::pick) did.
#[derive(Clone, Copy, Debug, PartialEq, Eq, Hash)]
#[non_exhaustive]
pub enum Step {
    /// Commands of an I/O queue were picked: [`Controller::take`](crate::Controller::take) gives them.
    Picked(Pick),
    /// A command of the admin queue was picked and carried out, and came to this. The caller ends a deletion
    /// ([`Verdict::BeginDelete`](crate::Verdict::BeginDelete), by [`Controller::finish`](crate::Controller::finish)),
    /// and keeps what a Create asked for that made a queue. Nothing else is left to do: its completion becomes ready by
    /// itself.
    CarriedOut(Answer, Asked),
    /// A command of the admin queue was picked that is the device's
    /// ([`Controller::own_opcode`](crate::Controller::own_opcode),
    /// [`Controller::own_feature`](crate::Controller::own_feature)): [`Controller::take`](crate::Controller::take) gives
    /// it.
    Passed(Pick),
    /// Nothing was picked: no command waits but in queues that are held.
    Idle,
    /// Nothing was picked: commands are to be taken first.
    Busy,
    /// Nothing was picked: the device has room for no command.
    NoRoom,
}

impl Step {
    pub(crate) fn of(fields: &sys::nvmearb_step) -> Step {
        match fields.kind {
            sys::NVMEARB_PICKED => Step::Picked(Pick::of(&fields.pick)),
            sys::NVMEARB_CARRIED_OUT => Step::CarriedOut(Answer::of(&fields.answer), Asked::of(&fields.asked)),
            sys::NVMEARB_PASSED => Step::Passed(Pick::of(&fields.pick)),
            kind => panic!("libnvmearb told a step of the kind {kind}, which can't be"),
        }
    }

    /// This step, or None where nothing was picked: `while let Some(step) = ctrl.pick(room)?.made()` goes on as
    /// long as something is.
    pub fn made(self) -> Option<Step> {
        match self {
            Step::Idle | Step::Busy | Step::NoRoom => None,
            made => Some(made),
        }
    }
}
