// Reads what a log says.
use crate::again::push_again;
use nvme_entry::{Cqe, Status};
use nvme_front::Event;
use std::alloc::{AllocError, Global};

/// The picks, as the queue and the number of its commands.
pub fn picks(alloc: Global, log: &[Event]) -> Result<Vec<(u16, u16)>, AllocError> {
    let mut all = Vec::new(alloc);
    for event in log {
        if let Event::Pick { pick, .. } = event {
            push_again(&mut all, (pick.qid, pick.n))?;
        }
    }
    Ok(all)
}

/// How many commands were fetched from a submission region.
pub fn fetched(log: &[Event], of: u8) -> usize {
    log.iter()
        .filter(|event| matches!(event, Event::Fetch { region, .. } if *region == of))
        .count()
}

/// How many completions were posted.
pub fn posted(log: &[Event]) -> usize {
    log.iter()
        .filter(|event| matches!(event, Event::Post { .. }))
        .count()
}

/// Whether a submission queue was created on a region.
pub fn was_opened(log: &[Event], of: u8) -> bool {
    log.iter().any(|event| matches!(event, Event::OpenSq { region, .. } if *region == of))
}

/// Whether the deletion of the submission queue on a region was finished.
pub fn was_closed(log: &[Event], of: u8) -> bool {
    log.iter().any(|event| matches!(event, Event::ClosedSq { region, .. } if *region == of))
}

/// The status of the completion of a place, where it was posted.
pub fn status_of(log: &[Event], of: u8, at: u32) -> Option<Status> {
    let cqe = completion_of(log, of, at)?;
    Some(cqe.status)
}

/// The completion of a place, where it was posted.
pub fn completion_of(log: &[Event], of: u8, at: u32) -> Option<Cqe> {
    for event in log {
        if let Event::Post {
            region,
            index,
            cqe,
            ..
        } = event
            && *region == of
            && *index == at
        {
            return Some(*cqe);
        }
    }
    None
}
