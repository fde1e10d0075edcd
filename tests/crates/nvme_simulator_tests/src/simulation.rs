// Expected numbers are worked out by hand.

use nvme_arbiter::{Class, Mechanism, Seen, Settings};
use nvme_channels::Placement;
use nvme_load::{
    Arrivals, Closed, Distribution, Extent, Gap, Mean, Mix, Operation, Order, Places, Replay,
    Request, Service, Services,
};
use nvme_model::{Device, End, Model, Pauses, Queue};
use nvme_simulation::{Happening, Simulation};
use std::test::Fail;

const MICROSECOND: u64 = 1_000_000;

// What happened until all was over.
#[derive(Clone, Copy, Debug, PartialEq, Eq)]
struct Sums {
    picks: u64,
    commands: u64,
    // How many the numbers count.
    counted: u64,
    latencies: u64,
    // When the last one was done.
    end: u64,
}

// A queue of reads.
fn queue(class: Class, slots: u16, arrivals: Arrivals, time: Distribution) -> Result<Queue, Fail> {
    let places = Places::new(Extent::new(1_048_576, 8)?, Order::Uniform);
    let services = Services {
        read: Service { time, per_block: 0 },
        write: Service {
            time: Distribution::Fixed(1),
            per_block: 0,
        },
        flush: Distribution::Fixed(1),
    };
    let mix = Mix::new(1, 0, 0)?;
    Ok(Queue::new(class, slots, arrivals, mix, places, services)?)
}

// Weights 8:4:2 and a burst of 8.
fn model(queues: Vec<Queue>, device: Device, commands: u64, warm_up: u64) -> Result<Model, Fail> {
    let settings = Settings::from_cdw11(0x0703_0103);
    let end = End::after(commands)?;
    let mechanism = Mechanism::Weighted;
    Ok(Model::new(mechanism, settings, device, queues, 3, end, warm_up)?)
}

// Goes on until all is over.
fn run(simulation: &mut Simulation) -> Result<Sums, Fail> {
    let mut sums = Sums {
        picks: 0,
        commands: 0,
        counted: 0,
        latencies: 0,
        end: 0,
    };
    for _turn in 0..1_000_000u64 {
        match simulation.step()? {
            Happening::Finished { command, counts } => {
                let latency = command.times.latency();
                sums.commands = sums.commands.saturating_add(1);
                sums.counted = sums.counted.saturating_add(u64::from(counts));
                sums.latencies = sums.latencies.saturating_add(latency);
                sums.end = command.times.done;
            }
            Happening::Picked(_) => sums.picks = sums.picks.saturating_add(1),
            Happening::Over => break,
            _ => {}
        }
    }
    Ok(sums)
}

// Commands every 100 us, each of 80 us, on one channel: none waits.
#[test]
fn regular_commands_do_not_wait(rt: HostRuntime) -> Result<(), Fail> {
    let mut queues = Vec::new(rt.alloc());
    let arrivals = Arrivals::Regular(Gap::new(100 * MICROSECOND)?);
    let time = Distribution::Fixed(80 * MICROSECOND);
    queues.push(queue(Class::Low, 16, arrivals, time)?)?;
    let device = Device::new(1, 1, Placement::Pool, None)?;
    let mut simulation = Simulation::new(rt.alloc(), model(queues, device, 1_000, 100)?)?;
    assert!(rt; !simulation.picks());
    let waiting = Seen {
        qid: 1,
        class: Class::Low,
        count: 0,
    };
    assert_eq!(rt; simulation.seen(1), Some(waiting));
    assert_eq!(rt; simulation.seen(2), None);
    let sums = run(&mut simulation)?;
    let all = Sums {
        picks: 1_000,
        commands: 1_000,
        counted: 900,
        latencies: 80_000 * MICROSECOND,
        end: 100_080 * MICROSECOND,
    };
    assert_eq!(rt; sums, all);
    let occupancy = simulation.occupancy();
    assert_eq!(rt; (occupancy.came, occupancy.left), (1_000, 1_000));
    assert_eq!(rt; occupancy.area, u128::from(all.latencies));
    for channel in simulation.channels() {
        assert_eq!(rt; channel.busy, all.latencies);
    }
    Ok(())
}

// A host that has four commands out, and thinks for 20 us, over two channels of 80 us each and a ring of three slots, of
// which it fills two: two commands run, and the next two wait in the host.
#[test]
fn closed_host_waits_for_completions(rt: HostRuntime) -> Result<(), Fail> {
    let mut queues = Vec::new(rt.alloc());
    let arrivals = Arrivals::Closed(Closed::new(4, 20 * MICROSECOND)?);
    let time = Distribution::Fixed(80 * MICROSECOND);
    queues.push(queue(Class::Urgent, 3, arrivals, time)?)?;
    let device = Device::new(2, 2, Placement::Pool, None)?;
    let mut simulation = Simulation::new(rt.alloc(), model(queues, device, 8, 0)?)?;
    let sums = run(&mut simulation)?;
    assert_eq!(rt; sums.commands, 8);
    // (two each at 80 us, 160 us, 240 us and 320 us; they came at 0, 0, 100 us and 180 us)
    assert_eq!(rt; sums.end, 320 * MICROSECOND);
    assert_eq!(rt; sums.latencies, 2 * (80 + 160 + 140 + 140) * MICROSECOND);
    assert_eq!(rt; simulation.time(), 320 * MICROSECOND);
    Ok(())
}

// The channel pauses from 100 us on for 50 us: the command that comes then waits.
#[test]
fn paused_channel_starts_nothing(rt: HostRuntime) -> Result<(), Fail> {
    let mut queues = Vec::new(rt.alloc());
    let arrivals = Arrivals::Regular(Gap::new(110 * MICROSECOND)?);
    let time = Distribution::Fixed(10 * MICROSECOND);
    queues.push(queue(Class::High, 16, arrivals, time)?)?;
    let pauses = Pauses::new(100 * MICROSECOND, 50 * MICROSECOND)?;
    let device = Device::new(1, 1, Placement::Pool, Some(pauses))?;
    let mut simulation = Simulation::new(rt.alloc(), model(queues, device, 1, 0)?)?;
    let sums = run(&mut simulation)?;
    assert_eq!(rt; (sums.commands, sums.latencies), (1, 50 * MICROSECOND));
    Ok(())
}

// A read of a list.
fn listed(at: u64, block: u64) -> Request {
    Request {
        at,
        operation: Operation::Read,
        block,
        blocks: 8,
    }
}

// A list of three commands, two of them at one time, of 10 us each on a channel that pauses from 100 us on for 50 us: all is
// over then, though more could come.
#[test]
fn all_is_over_once_lists_have_ended(rt: HostRuntime) -> Result<(), Fail> {
    let mut queues = Vec::new(rt.alloc());
    let requests = vec![in rt.alloc(); listed(0, 0), listed(0, 8), listed(30 * MICROSECOND, 0)]?;
    let arrivals = Arrivals::Replay(Replay::new(1_048_576, requests)?);
    let time = Distribution::Fixed(10 * MICROSECOND);
    queues.push(queue(Class::High, 16, arrivals, time)?)?;
    let pauses = Pauses::new(100 * MICROSECOND, 50 * MICROSECOND)?;
    let device = Device::new(1, 1, Placement::Pool, Some(pauses))?;
    let mut simulation = Simulation::new(rt.alloc(), model(queues, device, 1_000, 0)?)?;
    let sums = run(&mut simulation)?;
    // (done at 10 us, 20 us and 40 us)
    assert_eq!(rt; (sums.commands, sums.latencies), (3, 40 * MICROSECOND));
    assert_eq!(rt; sums.end, 40 * MICROSECOND);
    assert_eq!(rt; simulation.time(), 150 * MICROSECOND);
    Ok(())
}

// A queue whose list has no command.
#[test]
fn an_empty_list_has_no_command(rt: HostRuntime) -> Result<(), Fail> {
    let mut queues = Vec::new(rt.alloc());
    let arrivals = Arrivals::Replay(Replay::empty(rt.alloc(), 1_048_576));
    queues.push(queue(Class::High, 16, arrivals, Distribution::Fixed(1))?)?;
    let device = Device::new(1, 1, Placement::Pool, None)?;
    let mut simulation = Simulation::new(rt.alloc(), model(queues, device, 1_000, 0)?)?;
    let sums = run(&mut simulation)?;
    assert_eq!(rt; (sums.commands, simulation.time()), (0, 0));
    Ok(())
}

// Three classes of exponential times: all that come are done.
#[test]
fn three_classes(rt: HostRuntime) -> Result<(), Fail> {
    let mut queues = Vec::new(rt.alloc());
    for class in [Class::High, Class::Medium, Class::Low] {
        let arrivals = Arrivals::Poisson(Mean::new(85_711_837)?);
        let time = Distribution::Exponential(Mean::new(80 * MICROSECOND)?);
        queues.push(queue(class, 1_024, arrivals, time)?)?;
    }
    let device = Device::new(4, 4, Placement::Pool, None)?;
    let mut simulation = Simulation::new(rt.alloc(), model(queues, device, 2_000, 0)?)?;
    let sums = run(&mut simulation)?;
    assert_eq!(rt; sums.commands, 2_000);
    assert_eq!(rt; simulation.occupancy().area, u128::from(sums.latencies));
    Ok(())
}
