// The worked workloads, and changed ones.
pub use nvme_texts::{CREATED_ANEW, DELETE_THREE, EMPTY, FIVE_QUEUES, THOUSAND};
use std::alloc::{AllocError, Global};

/// A text in which the first text of each of these pairs is replaced by the second.
fn replaced(alloc: Global, text: &str, changes: &[(&str, &str)]) -> Result<String, AllocError> {
    let mut all = String::from_str(alloc, text)?;
    for (old, new) in changes {
        all = all.as_str().replace(alloc, *old, new)?;
    }
    Ok(all)
}

/// The same, made again where memory was refused.
pub fn changed(alloc: Global, text: &str, changes: &[(&str, &str)]) -> Result<String, AllocError> {
    if let Ok(all) = replaced(alloc, text, changes) {
        return Ok(all);
    }
    replaced(alloc, text, changes)
}

// A number as text, made again where memory was refused.
fn count_of(alloc: Global, count: u16) -> Result<String, AllocError> {
    if let Ok(text) = format!(in alloc; "count = {count}") {
        return Ok(text);
    }
    format!(in alloc; "count = {count}")
}

/// One I/O queue with `count` reads, in a ring of eight slots. The queue isn't deleted.
pub fn reads_of_one_queue(alloc: Global, count: u16) -> Result<String, AllocError> {
    let count = count_of(alloc, count)?;
    changed(
        alloc,
        DELETE_THREE,
        &[
            ("  { op = 0, cdw10 = 1 },\n", ""),
            ("count = 3", count.as_str()),
        ],
    )
}
