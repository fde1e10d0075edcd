// Calls that are made again where memory was refused, so that a test passes even if any one allocation fails.

use nvme_entry::{Cqe, Sqe};
use nvme_front::{AddError, Front};
use nvme_lane::{Drainer, GetEnd, LaneError, NoMemory, PutEnd, ring};
use nvme_pool::{FrontSeat, Lanes, PoolError, Worker, pool};
use std::alloc::{AllocError, Global};

/// Appends an item.
pub fn push_again<T: Copy>(all: &mut Vec<T>, item: T) -> Result<(), AllocError> {
    if all.push(item).is_err() {
        all.push(item)?;
    }
    Ok(())
}

/// Makes room for one more item.
pub fn reserve_again<T>(all: &mut Vec<T>) -> Result<(), AllocError> {
    if all.reserve(1).is_err() {
        all.reserve(1)?;
    }
    Ok(())
}

/// A list of these items.
pub fn list_again<T: Copy>(alloc: Global, items: &[T]) -> Result<Vec<T>, AllocError> {
    if let Ok(list) = Vec::from_slice(alloc, items) {
        return Ok(list);
    }
    Vec::from_slice(alloc, items)
}

/// An empty ring.
pub fn ring_again<T: Copy>(
    alloc: Global,
    address: u64,
    slots: u16,
) -> Result<(PutEnd<T>, GetEnd<T>), LaneError> {
    if let Ok(made) = ring(alloc, address, slots) {
        return Ok(made);
    }
    ring(alloc, address, slots)
}

/// A pool of this many workers.
pub fn pool_again(
    alloc: Global,
    workers: u8,
) -> Result<(Lanes, FrontSeat, Vec<Worker>), PoolError> {
    if let Ok(made) = pool(alloc, workers) {
        return Ok(made);
    }
    pool(alloc, workers)
}

/// Adds a submission region, and answers its number.
pub fn add_sq_again(front: &mut Front, end: GetEnd<Sqe>) -> Result<u8, AddError> {
    match front.add_sq_region(end) {
        Ok(number) => Ok(number),
        Err((AddError::NoMemory, back)) => front.add_sq_region(back).map_err(|refused| refused.0),
        Err((error, _)) => Err(error),
    }
}

/// Adds a completion region, and answers its number.
pub fn add_cq_again(front: &mut Front, end: PutEnd<Cqe>) -> Result<u8, AddError> {
    match front.add_cq_region(end) {
        Ok(number) => Ok(number),
        Err((AddError::NoMemory, back)) => front.add_cq_region(back).map_err(|refused| refused.0),
        Err((error, _)) => Err(error),
    }
}

/// Takes the next completion. True where one was found.
pub fn take_again(drainer: &mut Drainer<Cqe>) -> Result<bool, NoMemory> {
    if let Ok(took) = drainer.take() {
        return Ok(took);
    }
    drainer.take()
}
