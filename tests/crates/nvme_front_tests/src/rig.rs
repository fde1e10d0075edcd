// A front with its hosts and workers, which are driven from one thread.

use crate::again::{pool_again, reserve_again};
use crate::hosted::Hosted;
use nvme_entry::Sqe;
use nvme_front::{Event, FrontConfig, FrontError, Parts, SettleError, Settled, Step, settle};
use nvme_lane::{Feeder, NoMemory};
use nvme_pool::{Lanes, NoGate, Worked, Worker};
use std::alloc::Global;
use std::sync::Wait;
use std::test::Fail;

/// How many workers a rig has.
pub const WORKERS: u8 = 2;

/// A front with its hosts, and its workers. Its type keeps that the workers are those of the front's pool.
#[derive(Drop)]
pub struct Rig {
    hosted: Hosted,
    lanes: Lanes,
    workers: Vec<Worker>,
}

// Steps a worker until it finds nothing to do. The answer is how many commands it executed.
fn work_off<R: Wait>(rt: &R, lanes: &Lanes, worker: &mut Worker) -> u32 {
    for executed in 0..1000 {
        if worker.step(rt, lanes, &mut NoGate) != Worked::Did {
            return executed;
        }
    }
    1000
}

impl Rig {
    /// A front with its admin regions, of these numbers of slots.
    pub fn new(
        alloc: Global,
        config: FrontConfig,
        sq_slots: u16,
        cq_slots: u16,
        script: &[Sqe],
    ) -> Result<Rig, Fail> {
        let (lanes, seat, workers) = pool_again(alloc, WORKERS)?;
        let hosted = Hosted::new(alloc, config, seat, sq_slots, cq_slots, script)?;
        Ok(Rig {
            hosted,
            lanes,
            workers,
        })
    }

    /// Adds a submission region, with the script of its host.
    pub fn add_sq(
        &mut self,
        alloc: Global,
        address: u64,
        slots: u16,
        script: &[Sqe],
    ) -> Result<(), Fail> {
        self.hosted.add_sq(alloc, address, slots, script)
    }

    /// Adds a completion region.
    pub fn add_cq(&mut self, alloc: Global, address: u64, slots: u16) -> Result<(), Fail> {
        self.hosted.add_cq(alloc, address, slots)
    }

    /// The host of a submission region submits at most `most` entries. The answer is how many it submitted.
    pub fn submit(&mut self, region: usize, most: u16) -> u16 {
        self.hosted.submit(region, most)
    }

    /// Each host submits at most `most` entries.
    pub fn submit_all(&mut self, most: u16) {
        self.hosted.submit_all(most);
    }

    /// The host of a completion region collects at most `most` completions. The answer is how many it collected.
    pub fn collect(&mut self, region: usize, most: u16) -> Result<u16, NoMemory> {
        self.hosted.collect(region, most)
    }

    /// Each host collects what its ring holds.
    pub fn collect_all(&mut self) -> Result<(), NoMemory> {
        self.hosted.collect_all()
    }

    /// Makes a turn. Where it is refused memory, another turn goes on with it.
    pub fn turn<R: Wait>(&mut self, rt: &R) -> Result<Step, FrontError> {
        self.hosted.turn(rt, &self.lanes)
    }

    /// One worker executes what is there. The answer is how many commands it executed.
    pub fn work<R: Wait>(&mut self, rt: &R, worker: usize) -> u32 {
        if worker >= self.workers.len() {
            return 0;
        }
        work_off(rt, &self.lanes, &mut self.workers[worker])
    }

    /// Each worker executes what is there, the last one first. The answer is how many commands they executed.
    pub fn work_all<R: Wait>(&mut self, rt: &R) -> u32 {
        let mut executed = 0u32;
        for worker in 0..usize::from(WORKERS) {
            executed = executed.wrapping_add(self.work(rt, usize::from(WORKERS) - 1 - worker));
        }
        executed
    }

    /// Makes turns and steps the workers until they can do no more.
    pub fn run<R: Wait>(&mut self, rt: &R) -> Result<(), Fail> {
        for _ in 0..1000 {
            let step = self.turn(rt)?;
            let executed = self.work_all(rt);
            if executed == 0 && (step == Step::Idle || step == Step::Stalled) {
                return Ok(());
            }
        }
        Err("the front goes on and on".into())
    }

    /// Turns until a pick waits for free places, while no worker steps.
    pub fn run_until_stalled<R: Wait>(&mut self, rt: &R) -> Result<(), Fail> {
        for _ in 0..1000 {
            if self.turn(rt)? == Step::Stalled {
                return Ok(());
            }
        }
        Err("no pick waits".into())
    }

    /// Turns, executes and collects until no more can be done.
    pub fn run_and_collect<R: Wait>(&mut self, rt: &R) -> Result<(), Fail> {
        self.run(rt)?;
        self.collect_all()?;
        self.run(rt)?;
        self.collect_all()?;
        Ok(())
    }

    /// The front's log.
    pub fn log(&self) -> &[Event] {
        self.hosted.log()
    }

    /// Whether the front is clear.
    pub fn is_clear(&self) -> bool {
        self.hosted.is_clear()
    }

    /// Whether the front serves a submission region.
    pub fn is_serving(&self, region: u8) -> bool {
        self.hosted.is_serving(region)
    }

    /// The numbers of feeders and of drainers.
    pub fn hosts(&self) -> (usize, usize) {
        (self.hosted.feeders.len(), self.hosted.drainers.len())
    }

    /// Settles the front with its hosts and workers. Where that is refused memory, what came back is settled.
    pub fn settle<R: Wait>(self, rt: &R, alloc: Global) -> Result<Settled, (SettleError, Rig)> {
        match settle_once(rt, alloc, self) {
            Err((SettleError::NoMemory, back)) => settle_once(rt, alloc, back),
            settled => settled,
        }
    }

    /// Settles a rig after its play, unless that failed. A rig that isn't settled is dropped.
    pub fn settled<R: Wait>(
        self,
        rt: &R,
        alloc: Global,
        played: Result<(), Fail>,
    ) -> Result<Settled, Fail> {
        if let Err(fail) = played {
            drop(self);
            return Err(fail);
        }
        match self.settle(rt, alloc) {
            Ok(settled) => Ok(settled),
            Err((error, rig)) => {
                drop(rig);
                Err(error.into())
            }
        }
    }

    /// Settles a rig that is to be refused. The answer is the refusal, with the rig.
    pub fn refused<R: Wait>(self, rt: &R, alloc: Global) -> Result<(SettleError, Rig), Fail> {
        match self.settle(rt, alloc) {
            Ok(settled) => {
                drop(settled);
                Err("a command that rests was settled".into())
            }
            Err(refused) => Ok(refused),
        }
    }
}

// Settles a rig, by one call.
fn settle_once<R: Wait>(rt: &R, alloc: Global, rig: Rig) -> Result<Settled, (SettleError, Rig)> {
    match settle(rt, alloc, parts_of(rig)) {
        Ok(settled) => Ok(settled),
        Err((error, back)) => Err((error, rig_of(back))),
    }
}

/// Settles a front with its hosts and the workers of its pool.
pub fn settle_hosted<R: Wait>(
    rt: &R,
    alloc: Global,
    hosted: Hosted,
    lanes: Lanes,
    workers: Vec<Worker>,
) -> Result<Settled, Fail> {
    let rig = Rig {
        hosted,
        lanes,
        workers,
    };
    rig.settled(rt, alloc, Ok(()))
}

// The parts of a rig.
fn parts_of(rig: Rig) -> Parts {
    let Rig {
        hosted,
        lanes,
        workers,
    } = rig;
    let Hosted {
        front,
        feeders,
        drainers,
    } = hosted;
    Parts {
        front,
        feeders,
        drainers,
        lanes,
        workers,
    }
}

// The rig of parts that came back.
fn rig_of(parts: Parts) -> Rig {
    let Parts {
        front,
        feeders,
        drainers,
        lanes,
        workers,
    } = parts;
    let hosted = Hosted {
        front,
        feeders,
        drainers,
    };
    Rig {
        hosted,
        lanes,
        workers,
    }
}

// Exchanges two feeders with different addresses. `ArePaired` still holds, since neither has the address of the region
// at its new place.
fn exchange(feeders: &mut Vec<Feeder<Sqe>>) -> Result<(), Fail> {
    if feeders.len() != 2 {
        return Err("there are not two feeders".into());
    }
    let first = feeders.remove(0);
    if first.address() == feeders[0].address() {
        return Err("the feeders have one address".into());
    }
    reserve_again(feeders)?;
    feeders.push_reserved(first);
    Ok(())
}

// The rig of the parts that came back, with their feeders exchanged again.
fn exchanged_again(parts: Parts) -> Result<Rig, Fail> {
    let mut parts = parts;
    if let Err(fail) = exchange(&mut parts.feeders) {
        drop(parts);
        return Err(fail);
    }
    Ok(rig_of(parts))
}

/// Settles a front with two exchanged feeders. That is refused, and the rig comes back as it was.
pub fn settle_exchanged<R: Wait>(rt: &R, alloc: Global, rig: Rig) -> Result<Rig, Fail> {
    let mut parts = parts_of(rig);
    if let Err(fail) = exchange(&mut parts.feeders) {
        drop(parts);
        return Err(fail);
    }
    match settle(rt, alloc, parts) {
        Ok(settled) => {
            drop(settled);
            Err("exchanged feeders were settled".into())
        }
        Err((SettleError::Strangers, back)) => exchanged_again(back),
        Err((error, back)) => {
            drop(back);
            Err(error.into())
        }
    }
}
