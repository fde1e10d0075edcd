// A front with its hosts, which are driven from one thread.

use crate::again::{add_cq_again, add_sq_again, list_again, reserve_again, ring_again, take_again};
use nvme_admin::Limits;
use nvme_arbiter::{Mechanism, Settings};
use nvme_entry::{Cqe, Namespaces, Sqe};
use nvme_front::{Event, Front, FrontConfig, FrontError, Step};
use nvme_lane::{Drainer, Feed, Feeder, NoMemory};
use nvme_pool::{FrontSeat, Lanes};
use std::alloc::Global;
use std::sync::Wait;
use std::test::Fail;

/// The address of the admin queue's submission region.
pub const ADMIN_SQ: u64 = 0x1000;

/// The address of the admin queue's completion region.
pub const ADMIN_CQ: u64 = 0x8000;

/// A front, a feeder for each of its submission regions, and a drainer for each of its completion regions. Its type
/// keeps that the hosts are the other ends of the front's rings, that both admin regions exist, and that the front's
/// seat had handed over no job when the front got it.
#[derive(Drop)]
pub struct Hosted {
    pub front: Front,
    pub feeders: Vec<Feeder<Sqe>>,
    pub drainers: Vec<Drainer<Cqe>>,
}

/// Round robin, with 16 queues of each kind and one namespace of 1,000 blocks.
pub fn config(settings: u32, max_events: u32) -> Result<FrontConfig, Fail> {
    let spaces = Namespaces::new(&[1000])?;
    Ok(FrontConfig {
        mechanism: Mechanism::RoundRobin,
        settings: Settings::from_cdw11(settings),
        limits: Limits { nsq: 16, ncq: 16 },
        spaces,
        max_events,
    })
}

// Adds a submission region, and gives the host's end of it with the host's script.
fn sq_region(
    alloc: Global,
    front: &mut Front,
    address: u64,
    slots: u16,
    script: &[Sqe],
) -> Result<Feeder<Sqe>, Fail> {
    let script = list_again(alloc, script)?;
    let (put, get) = ring_again(alloc, address, slots)?;
    add_sq_again(front, get)?;
    Ok(Feeder::new(script, put))
}

// Adds a completion region, and gives the host's end of it.
fn cq_region(
    alloc: Global,
    front: &mut Front,
    address: u64,
    slots: u16,
) -> Result<Drainer<Cqe>, Fail> {
    let (put, get) = ring_again(alloc, address, slots)?;
    add_cq_again(front, put)?;
    Ok(Drainer::new(alloc, get))
}

// Adds the admin regions, of these numbers of slots, and gives the hosts' ends of them.
fn admin_hosts(
    alloc: Global,
    front: &mut Front,
    sq_slots: u16,
    cq_slots: u16,
    script: &[Sqe],
) -> Result<(Vec<Feeder<Sqe>>, Vec<Drainer<Cqe>>), Fail> {
    let mut feeders = Vec::new(alloc);
    let mut drainers = Vec::new(alloc);
    reserve_again(&mut feeders)?;
    reserve_again(&mut drainers)?;
    let feeder = sq_region(alloc, front, ADMIN_SQ, sq_slots, script)?;
    feeders.push_reserved(feeder);
    let drainer = cq_region(alloc, front, ADMIN_CQ, cq_slots)?;
    drainers.push_reserved(drainer);
    Ok((feeders, drainers))
}

// Puts at most `most` entries, while the ring takes them. The answer is how many were put.
fn put_some(feeder: &mut Feeder<Sqe>, most: u16) -> u16 {
    for put in 0..most {
        if feeder.step() != Feed::Put {
            return put;
        }
    }
    most
}

// Takes at most `most` completions. The answer is how many were taken.
fn take_some(drainer: &mut Drainer<Cqe>, most: u16) -> Result<u16, NoMemory> {
    for took in 0..most {
        if !take_again(drainer)? {
            return Ok(took);
        }
    }
    Ok(most)
}

impl Hosted {
    /// A front with its admin regions, of these numbers of slots, and with a seat that has handed over no job.
    pub fn new(
        alloc: Global,
        config: FrontConfig,
        seat: FrontSeat,
        sq_slots: u16,
        cq_slots: u16,
        script: &[Sqe],
    ) -> Result<Hosted, Fail> {
        let mut front = Front::new(alloc, config, seat);
        match admin_hosts(alloc, &mut front, sq_slots, cq_slots, script) {
            Ok((feeders, drainers)) => Ok(Hosted {
                front,
                feeders,
                drainers,
            }),
            Err(fail) => {
                drop(front);
                Err(fail)
            }
        }
    }

    /// Adds a submission region, with the script of its host.
    pub fn add_sq(
        &mut self,
        alloc: Global,
        address: u64,
        slots: u16,
        script: &[Sqe],
    ) -> Result<(), Fail> {
        reserve_again(&mut self.feeders)?;
        let feeder = sq_region(alloc, &mut self.front, address, slots, script)?;
        self.feeders.push_reserved(feeder);
        Ok(())
    }

    /// Adds a completion region.
    pub fn add_cq(&mut self, alloc: Global, address: u64, slots: u16) -> Result<(), Fail> {
        reserve_again(&mut self.drainers)?;
        let drainer = cq_region(alloc, &mut self.front, address, slots)?;
        self.drainers.push_reserved(drainer);
        Ok(())
    }

    /// The host of a submission region submits at most `most` entries. The answer is how many it submitted.
    pub fn submit(&mut self, region: usize, most: u16) -> u16 {
        if region >= self.feeders.len() {
            return 0;
        }
        put_some(&mut self.feeders[region], most)
    }

    /// Each host submits at most `most` entries.
    pub fn submit_all(&mut self, most: u16) {
        for region in 0..self.feeders.len() {
            let _put = self.submit(region, most);
        }
    }

    /// The host of a completion region collects at most `most` completions. The answer is how many it collected.
    pub fn collect(&mut self, region: usize, most: u16) -> Result<u16, NoMemory> {
        if region >= self.drainers.len() {
            return Ok(0);
        }
        take_some(&mut self.drainers[region], most)
    }

    /// Each host collects what its ring holds.
    pub fn collect_all(&mut self) -> Result<(), NoMemory> {
        for region in 0..self.drainers.len() {
            self.collect(region, 256)?;
        }
        Ok(())
    }

    // One turn.
    fn turn_once<R: Wait>(&mut self, rt: &R, lanes: &Lanes) -> Result<Step, FrontError> {
        self.front.turn(rt, lanes)
    }

    /// Makes a turn. Where it is refused memory, another turn goes on with it.
    pub fn turn<R: Wait>(&mut self, rt: &R, lanes: &Lanes) -> Result<Step, FrontError> {
        match self.turn_once(rt, lanes) {
            Err(FrontError::NoMemory) => self.turn_once(rt, lanes),
            step => step,
        }
    }

    /// The front's log.
    pub fn log(&self) -> &[Event] {
        self.front.log()
    }

    /// Whether the front is clear.
    pub fn is_clear(&self) -> bool {
        self.front.is_clear()
    }

    /// Whether the front serves a submission region.
    pub fn is_serving(&self, region: u8) -> bool {
        self.front.is_serving(region)
    }
}
