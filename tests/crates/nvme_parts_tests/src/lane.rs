// Where an allocation is refused, these tests make the call again. So they pass even if any one allocation
// fails.

use nvme_lane::{
    Drainer, Feed, Feeder, Full, GetEnd, Lane, LaneError, NoMemory, PopPass, PushPass, PutEnd,
    beside, gather, lane, ring,
};
use std::alloc::{AllocError, Global};
use std::test::*;
use std::thread;
use std::thread::Threads;

// A ring whose size is allowed.
fn ring_again(
    alloc: Global,
    address: u64,
    slots: u16,
) -> Result<(PutEnd<u32>, GetEnd<u32>), AllocError> {
    if let Ok(made) = ring(alloc, address, slots) {
        return Ok(made);
    }
    ring(alloc, address, slots).map_err(|_| AllocError)
}

// The numbers below `count`.
fn numbers(alloc: Global, count: u32) -> Result<Vec<u32>, AllocError> {
    let mut all = Vec::new(alloc);
    for item in 0..count {
        if all.push(item).is_err() {
            all.push(item)?;
        }
    }
    Ok(all)
}

// Puts an item and gets one.
fn put_and_get(put: &mut PutEnd<u32>, get: &mut GetEnd<u32>, item: u32) -> Option<u32> {
    if put.put(item).is_err() {
        return None;
    }
    get.get()
}

#[test]
fn ring_of_two_a_thousand_times(rt: HostRuntime) -> Result<(), Fail> {
    let (mut put, mut get) = ring_again(rt.alloc(), 0x1000, 2)?;
    let mut equal = 0u32;
    for item in 0..1000 {
        if put_and_get(&mut put, &mut get, item) == Some(item) {
            equal = equal.wrapping_add(1);
        }
    }
    assert_eq!(rt; equal, 1000);
    assert_eq!(rt; beside(&mut put, &mut get), 0);
    assert_eq!(rt; (put.address(), put.slots()), (0x1000, 2));
    assert_eq!(rt; (get.address(), get.slots()), (0x1000, 2));
    Ok(())
}

// Whether a ring with this many slots is refused for its size.
fn is_ring_refused(alloc: Global, slots: u16) -> bool {
    matches!(ring::<u32>(alloc, 0, slots), Err(LaneError::Size))
}

#[test]
fn capacities(rt: HostRuntime) -> Result<(), Fail> {
    assert!(rt; is_ring_refused(rt.alloc(), 1));
    assert!(rt; is_ring_refused(rt.alloc(), 4097));
    let (put, _get) = ring_again(rt.alloc(), 0, 257)?;
    assert_eq!(rt; put.slots(), 257);
    Ok(())
}

#[test]
fn one_item_in_two_slots(rt: HostRuntime) -> Result<(), Fail> {
    let (mut put, mut get) = ring_again(rt.alloc(), 0, 2)?;
    let were_put = [put.put(5), put.put(6)];
    let got = [get.get(), get.get(), get.get()];
    assert_eq!(rt; were_put, [Ok(()), Err(Full(6))]);
    assert_eq!(rt; got, [Some(5), None, None]);
    Ok(())
}

#[test]
fn some_are_put_and_got_at_once(rt: HostRuntime) -> Result<(), Fail> {
    let (mut put, mut get) = ring_again(rt.alloc(), 0, 4)?;
    assert_eq!(rt; put.put_some(&[5, 6, 7, 8]), 3);
    assert_eq!(rt; put.put_some(&[8]), 0);
    let mut items = [0, 0];
    assert_eq!(rt; get.get_some(&mut items), 2);
    assert_eq!(rt; items, [5, 6]);
    assert_eq!(rt; get.get_some(&mut items), 1);
    assert_eq!(rt; items, [7, 6]);
    assert_eq!(rt; get.get_some(&mut items), 0);
    Ok(())
}

// A lane of one item, with one pass of each kind.
fn lane_again(
    alloc: Global,
) -> Result<(Lane<u32>, Vec<PushPass<u32>>, Vec<PopPass<u32>>), AllocError> {
    if let Ok(made) = lane(alloc, 1, 1, 1) {
        return Ok(made);
    }
    lane(alloc, 1, 1, 1).map_err(|_| AllocError)
}

// Whether a lane with this capacity and these numbers of passes is refused for its size.
fn is_lane_refused(alloc: Global, capacity: u16, pushers: u8, poppers: u8) -> bool {
    matches!(
        lane::<u32>(alloc, capacity, pushers, poppers),
        Err(LaneError::Size)
    )
}

#[test]
fn capacities_of_lanes(rt: HostRuntime) -> Result<(), Fail> {
    assert!(rt; is_lane_refused(rt.alloc(), 0, 1, 1));
    assert!(rt; is_lane_refused(rt.alloc(), 4, 9, 1));
    let (lane, mut pushes, mut pops) = lane_again(rt.alloc())?;
    let push = &mut pushes[0];
    let pop = &mut pops[0];
    let pushed = [lane.push(&rt, push, 5), lane.push(&rt, push, 6)];
    let popped = [lane.pop(&rt, pop), lane.pop(&rt, pop)];
    let last = lane.push(&rt, push, 7);
    let left = gather(&rt, lane, pushes, pops);
    assert_eq!(rt; pushed, [Ok(()), Err(Full(6))]);
    assert_eq!(rt; popped, [Some(5), None]);
    assert_eq!(rt; (last, left), (Ok(()), 1));
    Ok(())
}

// Steps a feeder until its script is sent.
fn feed_all(mut feeder: Feeder<u32>) -> Feeder<u32> {
    for _ in 0..u64::MAX {
        match feeder.step() {
            Feed::Put => {}
            Feed::Full => thread::yield_now(),
            Feed::Done => break,
        }
    }
    feeder
}

// Takes items until there are `count`. A call that was refused memory is made again.
fn drain_all(drainer: &mut Drainer<u32>, count: usize) {
    for _ in 0..u64::MAX {
        if drainer.items().len() >= count {
            break;
        }
        if drainer.take() == Ok(false) {
            thread::yield_now();
        }
    }
}

// The feeder moves to a thread of its own, and what the join returns still accounts for what it sent.
fn move_all<R: Threads>(
    rt: &R,
    feeder: Feeder<u32>,
    drainer: &mut Drainer<u32>,
) -> Result<Feeder<u32>, AllocError> {
    let count = feeder.script().len();
    let fed = thread::spawn(rt, move || feed_all(feeder))?;
    drain_all(drainer, count);
    Ok(fed.join(rt))
}

#[test]
fn two_threads_move_in_order(rt: HostRuntime) -> Result<(), Fail> {
    for slots in [2, 4096] {
        let (put, get) = ring_again(rt.alloc(), 0, slots)?;
        let mut drainer = Drainer::new(rt.alloc(), get);
        let feeder = Feeder::new(numbers(rt.alloc(), 100_000)?, put);
        let feeder = move_all(&rt, feeder, &mut drainer)?;
        assert_eq!(rt; feeder.count(), 100_000);
        assert!(rt; feeder.script() == drainer.items());
        let items = drainer.into_items();
        assert_eq!(rt; (items[0], items[99_999]), (0, 99_999));
    }
    Ok(())
}

#[test]
fn feeder_beside(rt: HostRuntime) -> Result<(), Fail> {
    let script = numbers(rt.alloc(), 3)?;
    let (put, mut get) = ring_again(rt.alloc(), 7, 8)?;
    let mut feeder = Feeder::new(script, put);
    let fed = [feeder.step(), feeder.step()];
    let found = feeder.beside(&mut get);
    let (count, address) = (feeder.count(), feeder.address());
    let length = feeder.into_script().len();
    assert_eq!(rt; fed, [Feed::Put, Feed::Put]);
    assert_eq!(rt; (found, count, address), (2, 2, 7));
    assert_eq!(rt; length, 3);
    Ok(())
}

#[test]
fn drainer_takes_what_was_next(rt: HostRuntime) -> Result<(), Fail> {
    let (mut put, get) = ring_again(rt.alloc(), 9, 8)?;
    let mut drainer = Drainer::new(rt.alloc(), get);
    let were_put = put.put(4).is_ok() && put.put(5).is_ok();
    let mut first = drainer.take();
    // Where the first call is refused memory, the second takes the item that was next.
    if first == Err(NoMemory) {
        first = drainer.take();
    }
    let taken = drainer.items().len();
    let (found, address) = (drainer.beside(&mut put), drainer.address());
    let later = [drainer.take(), drainer.take()];
    let items = drainer.into_items();
    assert!(rt; were_put);
    assert_eq!(rt; (first, taken), (Ok(true), 1));
    assert_eq!(rt; (found, address), (1, 9));
    assert_eq!(rt; later, [Ok(true), Ok(false)]);
    assert_eq!(rt; items.as_slice(), [4, 5].as_slice());
    Ok(())
}
