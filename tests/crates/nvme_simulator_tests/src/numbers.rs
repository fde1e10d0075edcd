// A few commands whose numbers were worked out by hand.
use nvme_arbiter::{Class, Mechanism, Settings};
use nvme_channels::{Channel, Placement, Stripe};
use nvme_load::{
    Arrivals, Closed, Distribution, Extent, Mix, Operation, Order, Places, Service, Services,
};
use nvme_model::{Device, End, Finished, Model, Pauses, Queue, Times};
use nvme_numbers::{About, Numbers, log_header, log_line};
use std::alloc::Global;
use std::test::Fail;

const ABOUT: About<'static> = About {
    version: "0.2.0",
    digest: "0a1b",
    options: "--commands 3 --load 0.7",
};

const TEXT: &str = "\
nvmearb 0.2.0, seed 7, digest 0a1b
in place of what the file says: --commands 3 --load 0.7
3 commands from 1.000 us on, 11.000 us simulated, warm-up 1
2 channels, depth 4, pool
utilization: 20.456%
channels from 0 on: 36.367% 4.545%
weighted, burst 1, high 2, medium 1, low 1
Jain's index of IOPS: 0.6000
Jain's index of IOPS by weight: 1.0000
queue class     commands     share            IOPS    bytes/second
q1    high             2  66.6667%          200000       819200000
q2    low              1  33.3333%          100000               0
q3    urgent           0   0.0000%               0               0
all   urgent           0   0.0000%               0               0
all   high             2  66.6667%          200000       819200000
all   low              1  33.3333%          100000               0
all                    3 100.0000%          300000       819200000
latency in us
queue class            mean          p50          p95          p99        p99.9          max
q1    high            3.000        2.000        4.000        4.000        4.000        4.000
q2    low             4.500        4.500        4.500        4.500        4.500        4.500
q3    urgent              -
all   urgent              -
all   high            3.000        2.000        4.000        4.000        4.000        4.000
all   low             4.500        4.500        4.500        4.500        4.500        4.500
all                   3.500        4.000        4.500        4.500        4.500        4.500
its parts, mean in us
queue class            host  arbitration       device      service
q1    high            0.500        0.500        0.250        1.750
q2    low             0.000        3.500        0.000        1.000
q3    urgent              -
all   urgent              -
all   high            0.500        0.500        0.250        1.750
all   low             0.000        3.500        0.000        1.000
all                   0.333        1.500        0.167        1.500
fewer than 20 commands lie above p50, p95, p99, p99.9 of a row
";

const JSON: &str =
    "{\"form\":1,\"version\":\"0.2.0\",\"seed\":7,\"digest\":\"0a1b\",\"options\":\"--commands 3 --load 0.7\",\"warm_up\":1,\"began_ps\":1000000,\"end_ps\":11000000,\"mechanism\":\"weighted\",\"burst\":1,\"high\":2,\"medium\":1,\"low\":1,\"device\":{\"channels\":2,\"depth\":4,\"stripe_blocks\":null,\"pause_every_ps\":null,\"pause_length_ps\":null},\"utilization\":0.20456,\"channels\":[{\"busy_ps\":4000400,\"utilization\":0.36367},{\"busy_ps\":500000,\"utilization\":0.04545}],\"jain\":0.6000,\"jain_by_weight\":1.0000,\"queues\":[{\"queue\":1,\"class\":\"high\",\"commands\":2,\"share\":0.666667,\"iops\":200000,\"bytes_per_second\":819200000,\"latency_mean_ps\":3000000,\"latency_p50_ps\":2000000,\"latency_p95_ps\":4000000,\"latency_p99_ps\":4000000,\"latency_p999_ps\":4000000,\"latency_max_ps\":4000000,\"host_mean_ps\":500000,\"arbitration_mean_ps\":500000,\"device_mean_ps\":250000,\"service_mean_ps\":1750000,\"iops_fed\":500000,\"bytes_per_second_fed\":2048000000,\"fed_ps\":4000000,\"above_p50\":1,\"above_p95\":0,\"above_p99\":0,\"above_p999\":0},{\"queue\":2,\"class\":\"low\",\"commands\":1,\"share\":0.333333,\"iops\":100000,\"bytes_per_second\":0,\"latency_mean_ps\":4500400,\"latency_p50_ps\":4500400,\"latency_p95_ps\":4500400,\"latency_p99_ps\":4500400,\"latency_p999_ps\":4500400,\"latency_max_ps\":4500400,\"host_mean_ps\":0,\"arbitration_mean_ps\":3500000,\"device_mean_ps\":0,\"service_mean_ps\":1000400,\"iops_fed\":0,\"bytes_per_second_fed\":0,\"fed_ps\":4000000,\"above_p50\":0,\"above_p95\":0,\"above_p99\":0,\"above_p999\":0},{\"queue\":3,\"class\":\"urgent\",\"commands\":0,\"share\":0.000000,\"iops\":0,\"bytes_per_second\":0,\"latency_mean_ps\":null,\"latency_p50_ps\":null,\"latency_p95_ps\":null,\"latency_p99_ps\":null,\"latency_p999_ps\":null,\"latency_max_ps\":null,\"host_mean_ps\":null,\"arbitration_mean_ps\":null,\"device_mean_ps\":null,\"service_mean_ps\":null,\"iops_fed\":0,\"bytes_per_second_fed\":0,\"fed_ps\":4000000,\"above_p50\":null,\"above_p95\":null,\"above_p99\":null,\"above_p999\":null}],\"classes\":[{\"class\":\"urgent\",\"commands\":0,\"share\":0.000000,\"iops\":0,\"bytes_per_second\":0,\"latency_mean_ps\":null,\"latency_p50_ps\":null,\"latency_p95_ps\":null,\"latency_p99_ps\":null,\"latency_p999_ps\":null,\"latency_max_ps\":null,\"host_mean_ps\":null,\"arbitration_mean_ps\":null,\"device_mean_ps\":null,\"service_mean_ps\":null,\"iops_fed\":0,\"bytes_per_second_fed\":0,\"fed_ps\":4000000,\"above_p50\":null,\"above_p95\":null,\"above_p99\":null,\"above_p999\":null},{\"class\":\"high\",\"commands\":2,\"share\":0.666667,\"iops\":200000,\"bytes_per_second\":819200000,\"latency_mean_ps\":3000000,\"latency_p50_ps\":2000000,\"latency_p95_ps\":4000000,\"latency_p99_ps\":4000000,\"latency_p999_ps\":4000000,\"latency_max_ps\":4000000,\"host_mean_ps\":500000,\"arbitration_mean_ps\":500000,\"device_mean_ps\":250000,\"service_mean_ps\":1750000,\"iops_fed\":500000,\"bytes_per_second_fed\":2048000000,\"fed_ps\":4000000,\"above_p50\":1,\"above_p95\":0,\"above_p99\":0,\"above_p999\":0},{\"class\":\"low\",\"commands\":1,\"share\":0.333333,\"iops\":100000,\"bytes_per_second\":0,\"latency_mean_ps\":4500400,\"latency_p50_ps\":4500400,\"latency_p95_ps\":4500400,\"latency_p99_ps\":4500400,\"latency_p999_ps\":4500400,\"latency_max_ps\":4500400,\"host_mean_ps\":0,\"arbitration_mean_ps\":3500000,\"device_mean_ps\":0,\"service_mean_ps\":1000400,\"iops_fed\":0,\"bytes_per_second_fed\":0,\"fed_ps\":4000000,\"above_p50\":0,\"above_p95\":0,\"above_p99\":0,\"above_p999\":0}],\"all\":{\"commands\":3,\"share\":1.000000,\"iops\":300000,\"bytes_per_second\":819200000,\"latency_mean_ps\":3500133,\"latency_p50_ps\":4000000,\"latency_p95_ps\":4500400,\"latency_p99_ps\":4500400,\"latency_p999_ps\":4500400,\"latency_max_ps\":4500400,\"host_mean_ps\":333333,\"arbitration_mean_ps\":1500000,\"device_mean_ps\":166666,\"service_mean_ps\":1500133,\"iops_fed\":500000,\"bytes_per_second_fed\":2048000000,\"fed_ps\":4000000,\"above_p50\":1,\"above_p95\":0,\"above_p99\":0,\"above_p999\":0}}
";

const CSV: &str = "\
seed,version,digest,scope,name,class,commands,share,iops,bytes_per_second,latency_mean_ps,latency_p50_ps,latency_p95_ps,latency_p99_ps,latency_p999_ps,latency_max_ps,host_mean_ps,arbitration_mean_ps,device_mean_ps,service_mean_ps,utilization,jain,jain_by_weight,iops_fed,bytes_per_second_fed,fed_ps,above_p50,above_p95,above_p99,above_p999
7,0.2.0,0a1b,queue,1,high,2,0.666667,200000,819200000,3000000,2000000,4000000,4000000,4000000,4000000,500000,500000,250000,1750000,,,,500000,2048000000,4000000,1,0,0,0
7,0.2.0,0a1b,queue,2,low,1,0.333333,100000,0,4500400,4500400,4500400,4500400,4500400,4500400,0,3500000,0,1000400,,,,0,0,4000000,0,0,0,0
7,0.2.0,0a1b,queue,3,urgent,0,0.000000,0,0,,,,,,,,,,,,,,0,0,4000000,,,,
7,0.2.0,0a1b,class,urgent,urgent,0,0.000000,0,0,,,,,,,,,,,,,,0,0,4000000,,,,
7,0.2.0,0a1b,class,high,high,2,0.666667,200000,819200000,3000000,2000000,4000000,4000000,4000000,4000000,500000,500000,250000,1750000,,,,500000,2048000000,4000000,1,0,0,0
7,0.2.0,0a1b,class,low,low,1,0.333333,100000,0,4500400,4500400,4500400,4500400,4500400,4500400,0,3500000,0,1000400,,,,0,0,4000000,0,0,0,0
7,0.2.0,0a1b,all,all,,3,1.000000,300000,819200000,3500133,4000000,4500400,4500400,4500400,4500400,333333,1500000,166666,1500133,0.20456,0.6000,1.0000,500000,2048000000,4000000,1,0,0,0
";

const LOG: &str = "\
queue,number,operation,block,blocks,channel,came_ps,submitted_ps,picked_ps,started_ps,done_ps
1,1,write,8,8,1,2000000,3000000,3000000,3500000,4000000
1,0,read,0,8,0,1000000,1000000,2000000,2000000,5000000
2,0,flush,0,0,0,1500000,1500000,5000000,5000000,6000400
";

const NOTHING: &str = "\
nvmearb 0.2.0, seed 7, digest 0a1b
in place of what the file says: --commands 3 --load 0.7
0 commands, 0.000 us simulated
1 channel, depth 1, stripes of 8 blocks, pauses of 1.000 us every 2.000 us
utilization: -
channels from 0 on: -
round-robin, burst 1
Jain's index of IOPS: -
queue class     commands     share            IOPS    bytes/second
q1    medium           0         -               -               -
all   medium           0         -               -               -
all                    0         -               -               -
latency in us
queue class            mean          p50          p95          p99        p99.9          max
q1    medium              -
all   medium              -
all                       -
its parts, mean in us
queue class            host  arbitration       device      service
q1    medium              -
all   medium              -
all                       -
";

// A write, a read and a flush, in the order in which they end.
const FINISHED: [Finished; 3] = [
    Finished {
        queue: 1,
        number: 1,
        operation: Operation::Write,
        block: 8,
        blocks: 8,
        channel: 1,
        times: Times {
            came: 2_000_000,
            submitted: 3_000_000,
            picked: 3_000_000,
            started: 3_500_000,
            done: 4_000_000,
        },
    },
    Finished {
        queue: 1,
        number: 0,
        operation: Operation::Read,
        block: 0,
        blocks: 8,
        channel: 0,
        times: Times {
            came: 1_000_000,
            submitted: 1_000_000,
            picked: 2_000_000,
            started: 2_000_000,
            done: 5_000_000,
        },
    },
    Finished {
        queue: 2,
        number: 0,
        operation: Operation::Flush,
        block: 0,
        blocks: 0,
        channel: 0,
        times: Times {
            came: 1_500_000,
            submitted: 1_500_000,
            picked: 5_000_000,
            started: 5_000_000,
            done: 6_000_400,
        },
    },
];

// A channel that ran commands for so long.
fn channel(busy: u64) -> Channel {
    Channel {
        running: false,
        paused: false,
        ends: busy,
        busy,
    }
}

// A queue of a class. What its host does counts nothing here.
fn queue(class: Class) -> Result<Queue, Fail> {
    let service = Service {
        time: Distribution::Fixed(1),
        per_block: 0,
    };
    Ok(Queue::new(
        class,
        2,
        Arrivals::Closed(Closed::new(1, 0)?),
        Mix::new(1, 0, 0)?,
        Places::new(Extent::new(8, 8)?, Order::Uniform),
        Services {
            read: service,
            write: Service {
                time: Distribution::Fixed(1),
                per_block: 0,
            },
            flush: Distribution::Fixed(1),
        },
    )?)
}

// A model with queues of these classes.
fn model(
    alloc: Global,
    mechanism: Mechanism,
    device: Device,
    classes: &[Class],
    warm_up: u64,
) -> Result<Model, Fail> {
    let mut queues = Vec::new(alloc);
    for class in classes {
        queues.push(queue(*class)?)?;
    }
    Ok(Model::new(
        mechanism,
        Settings::from_cdw11(0x100_0000),
        device,
        queues,
        7,
        End::after(3)?,
        warm_up,
    )?)
}

// Three queues, and no numbers yet.
fn three_queues(alloc: Global) -> Result<Numbers, Fail> {
    let model = model(
        alloc,
        Mechanism::Weighted,
        Device::new(2, 4, Placement::Pool, None)?,
        &[Class::High, Class::Low, Class::Urgent],
        1,
    )?;
    Ok(Numbers::new(alloc, &model)?)
}

#[test]
fn three_commands(rt: HostRuntime) -> Result<(), Fail> {
    let mut numbers = three_queues(rt.alloc())?;
    // (one more command warmed up, and one comes later, when the second of these is done)
    for (count, at) in [(1, 500_000), (2, 1_000_000), (3, 1_500_000), (4, 2_000_000)] {
        numbers.come(count, at);
    }
    for finished in &FINISHED {
        numbers.end(finished);
        numbers.add(finished)?;
        numbers.come(5, 5_000_000);
    }
    let high = numbers.of_class(Class::High)?;
    assert_eq!(rt;
        (high.at(1), high.at(2)),
        (Some(2_000_000), Some(4_000_000))
    );
    assert_eq!(rt; high.count(), 2);
    let low = numbers.of_queue(2)?;
    assert_eq!(rt; (low.count(), low.longest()), (1, Some(4_500_400)));
    for number in [0, 3, 4] {
        assert_eq!(rt; numbers.of_queue(number)?.count(), 0);
    }
    let channels = [channel(4_000_400), channel(500_000)];
    let answer = numbers.answer(11_000_000, &channels, ABOUT)?;
    let mut text = Vec::new(rt.alloc());
    answer.write_text(&mut text)?;
    assert_eq!(rt; text.as_slice(), TEXT.as_bytes());
    let mut json = Vec::new(rt.alloc());
    answer.write_json(&mut json)?;
    assert_eq!(rt; json.as_slice(), JSON.as_bytes());
    let mut csv = Vec::new(rt.alloc());
    answer.write_csv(&mut csv)?;
    assert_eq!(rt; csv.as_slice(), CSV.as_bytes());
    Ok(())
}

#[test]
fn three_lines(rt: HostRuntime) -> Result<(), Fail> {
    let mut log = Vec::new(rt.alloc());
    log_header(&mut log)?;
    for finished in &FINISHED {
        log_line(finished, &mut log)?;
    }
    assert_eq!(rt; log.as_slice(), LOG.as_bytes());
    Ok(())
}

#[test]
fn no_command(rt: HostRuntime) -> Result<(), Fail> {
    let device = Device::new(
        1,
        1,
        Placement::Striped(Stripe::new(8)?),
        Some(Pauses::new(2_000_000, 1_000_000)?),
    )?;
    let model = model(
        rt.alloc(),
        Mechanism::RoundRobin,
        device,
        &[Class::Medium],
        0,
    )?;
    let channels = [channel(0)];
    let answer = Numbers::new(rt.alloc(), &model)?.answer(0, &channels, ABOUT)?;
    let mut text = Vec::new(rt.alloc());
    answer.write_text(&mut text)?;
    assert_eq!(rt; text.as_slice(), NOTHING.as_bytes());
    Ok(())
}

// A command of no queue of the model counts nowhere.
#[test]
fn no_such_queue(rt: HostRuntime) -> Result<(), Fail> {
    let mut numbers = three_queues(rt.alloc())?;
    for queue in [0, 4, u16::MAX] {
        let mut finished = FINISHED[0];
        finished.queue = queue;
        numbers.add(&finished)?;
    }
    let answer = numbers.answer(11_000_000, &[], ABOUT)?;
    assert_eq!(rt; answer.all.commands, 0);
    assert_eq!(rt; answer.began, None);
    assert_eq!(rt; answer.utilization(), None);
    Ok(())
}

// A command for which memory was refused counts nowhere.
#[test]
fn refused_memory_loses_nothing(rt: HostRuntime) -> Result<(), Fail> {
    let mut numbers = three_queues(rt.alloc())?;
    let mut taken = 0usize;
    for _ in 0..100 {
        for finished in &FINISHED {
            if numbers.add(finished).is_ok() {
                taken = taken.saturating_add(1);
            }
        }
    }
    let Ok(answer) = numbers.answer(11_000_000, &[], ABOUT) else {
        return Ok(());
    };
    assert_eq!(rt; answer.all.commands, taken);
    Ok(())
}
