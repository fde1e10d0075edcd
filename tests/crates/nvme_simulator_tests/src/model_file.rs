// Expected values are worked out by hand: 10^12 / 11667 = 85711837.2.., 80us are 80 * 10^6 picoseconds.
use nvme_arbiter::{Class, Mechanism};
use nvme_channels::Placement;
use nvme_load::{Arrivals, Distribution, Order};
use nvme_model::Model;
use nvme_model_file::{ModelFault, Told, model_in, simulation_in, sources_in};
use nvme_replay::{Form, Served, Speed, Wanted};
use std::process::Abort;
use std::test::Fail;

const WHOLE: &str = r#"version = 1
mechanism = "weighted"
burst = 8
weights = { high = 8, medium = 4, low = 2 }

[simulation]
seed = 3
commands = 1000000
warm_up = 50000

[device]
channels = 4
depth = 6
placing = "striped"
stripe = 16
size = 2048
read = "80us"
write = { exponential = "20us", per_block = "500ns" }
flush = { usual = "1ms", rare = "2.5ms", one_in = 20 }
pauses = { every = "500ms", for = "3ms" }

[[queue]]
class = "low"
slots = 64
arrivals = { poisson = 11667 }
mix = { read = 7, write = 3, flush = 1 }
blocks = 4
offsets = "sequential"
write = { quantiles = ["60us", "80us", "2ms"] }

[[queue]]
arrivals = { closed = 32, think = "10us" }

[[queue]]
arrivals = { every = "85us" }

[[queue]]
class = "urgent"
arrivals = { bursts = { poisson = "85.7us", on = "2ms", off = "3ms" } }
"#;

const LEAST: &str = "version = 1
device.read = \"1us\"
[[queue]]
arrivals.every = 3
";

// The model of a text that has no fault.
fn model_of(rt: &HostRuntime, text: &str) -> Result<Model, Fail> {
    match model_in(rt.alloc(), text.as_bytes()) {
        Ok(model) => Ok(model),
        Err(fault) => {
            let told = format!(in rt.alloc(); "{fault}")?;
            Err(Fail::new(told.as_str()))
        }
    }
}

#[test]
fn the_whole_is_read(rt: HostRuntime) -> Result<(), Fail> {
    let model = model_of(&rt, WHOLE)?;
    assert_eq!(rt; model.mechanism, Mechanism::Weighted);
    assert_eq!(rt; model.settings.to_cdw11(), 0x0703_0103);
    assert_eq!(rt; model.seed, 3);
    assert_eq!(rt; model.end.commands, 1_000_000);
    assert_eq!(rt; model.end.time, None);
    assert_eq!(rt; model.warm_up, 50_000);
    assert_eq!(rt; model.device.channels, 4);
    assert_eq!(rt; model.device.depth, 6);
    assert!(rt;
        matches!(&model.device.placement, Placement::Striped(stripe) if stripe.blocks == 16)
    );
    assert!(rt;
        matches!(&model.device.pauses, Some(pauses) if pauses.every == 500_000_000_000 && pauses.length == 3_000_000_000)
    );
    assert_eq!(rt; model.queues.len(), 4);
    let queue = &model.queues[0];
    assert_eq!(rt; queue.class, Class::Low);
    assert_eq!(rt; queue.slots, 64);
    assert!(rt;
        matches!(&queue.arrivals, Arrivals::Poisson(mean) if mean.picoseconds == 85_711_837)
    );
    assert_eq!(rt; queue.mix.read, 7);
    assert_eq!(rt; queue.mix.write, 3);
    assert_eq!(rt; queue.mix.flush, 1);
    assert_eq!(rt; queue.places.extent.size, 2_048);
    assert_eq!(rt; queue.places.extent.blocks, 4);
    assert_eq!(rt; queue.places.order, Order::Sequential);
    assert!(rt; matches!(&queue.services.read.time, Distribution::Fixed(80_000_000)));
    assert!(rt; matches!(&queue.services.write.time, Distribution::Quantiles(_)));
    assert!(rt;
        matches!(&queue.services.flush, Distribution::TwoPoints(points) if points.usual == 1_000_000_000 && points.rare == 2_500_000_000 && points.times == 1 && points.out_of == 20)
    );
    let queue = &model.queues[1];
    assert_eq!(rt; queue.class, Class::Medium);
    assert_eq!(rt; queue.slots, 1_024);
    assert!(rt;
        matches!(&queue.arrivals, Arrivals::Closed(host) if host.depth == 32 && host.think == 10_000_000)
    );
    assert_eq!(rt; queue.mix.read, 1);
    assert_eq!(rt; queue.mix.write, 0);
    assert_eq!(rt; queue.places.extent.blocks, 8);
    assert_eq!(rt; queue.places.order, Order::Uniform);
    assert!(rt;
        matches!(&queue.services.write.time, Distribution::Exponential(mean) if mean.picoseconds == 20_000_000)
    );
    assert_eq!(rt; queue.services.write.per_block, 500_000);
    assert!(rt;
        matches!(&model.queues[2].arrivals, Arrivals::Regular(gap) if gap.picoseconds == 85_000_000)
    );
    assert!(rt;
        matches!(&model.queues[3].arrivals, Arrivals::OnOff(phases) if phases.mean.picoseconds == 85_700_000 && phases.on == 2_000_000_000 && phases.off == 3_000_000_000)
    );
    Ok(())
}

#[test]
fn the_least_has_defaults(rt: HostRuntime) -> Result<(), Fail> {
    let model = model_of(&rt, LEAST)?;
    assert_eq!(rt; model.mechanism, Mechanism::RoundRobin);
    assert_eq!(rt; model.settings.to_cdw11(), 0);
    assert_eq!(rt; model.seed, 1);
    assert_eq!(rt; model.end.commands, 100_000);
    assert_eq!(rt; model.warm_up, 0);
    assert_eq!(rt; model.device.channels, 1);
    assert_eq!(rt; model.device.depth, 1);
    assert_eq!(rt; model.device.placement, Placement::Pool);
    assert_eq!(rt; model.device.pauses, None);
    assert_eq!(rt; model.queues.len(), 1);
    let queue = &model.queues[0];
    assert!(rt;
        matches!(&queue.arrivals, Arrivals::Regular(gap) if gap.picoseconds == 333_333_333_333)
    );
    assert_eq!(rt; queue.places.extent.size, 1_048_576);
    Ok(())
}

#[test]
fn simulation_files_are_told_from_others(rt: HostRuntime) -> Result<(), Fail> {
    let found = simulation_in(rt.alloc(), WHOLE.as_bytes())?;
    assert!(rt; found);
    let found = simulation_in(rt.alloc(), b"version = 1\n[[queue]]\n")?;
    assert!(rt; !found);
    let found = simulation_in(rt.alloc(), b"device = \n")?;
    assert!(rt; !found);
    Ok(())
}

// The first fault of a text, of its model or of what its queues replay.
fn fault_of(rt: &HostRuntime, text: &str) -> Option<ModelFault> {
    match model_in(rt.alloc(), text.as_bytes()) {
        Ok(_) => sources_in(rt.alloc(), text.as_bytes()).err(),
        Err(fault) => Some(fault),
    }
}

// What is told of the fault of a text.
fn told(rt: &HostRuntime, text: &str) -> Result<String, Fail> {
    match fault_of(rt, text) {
        None => Err(Fail::new("no fault")),
        Some(fault) => Ok(format!(in rt.alloc();
            "{told}",
            told = Told {
                file: "f",
                fault: &fault
            }
        )?),
    }
}

// That each line of a table tells a text, in which `|` stands for the end of a line, and behind ` => ` what is told of it
// behind a head.
fn are_told(rt: &HostRuntime, head: &str, table: &str) -> Result<(), Fail> {
    for line in table.lines() {
        let Some((text, expected)) = line.split_once(" => ") else {
            continue;
        };
        let text = text.replace(rt.alloc(), "|", "\n")?;
        let text = format!(in rt.alloc(); "{head}{text}\n")?;
        let told = told(rt, text.as_str())?;
        if told.as_str() != expected {
            return Err(Fail::new(told.as_str()));
        }
    }
    Ok(())
}

const FAULTS_OF_THE_FILE: &str = r#"
x = 1 => f:1:1: top: unknown key "x", expected one of version mechanism burst weights simulation device queue
versoin = 1 => f:1:1: top: unknown key "versoin", expected one of version mechanism burst weights simulation device queue; did you mean `version`?
[device] => f: top: version is missing, expected 1
version = 2 => f:1:11: top, version: found 2, expected 1
version = 1|mechanism = "weihgted" => f:2:13: top, mechanism: found "weihgted", expected "round-robin" or "weighted"; did you mean "weighted"?
version = 1|weights = { high = 2 } => f:2:1: top: weights have no effect under round robin: mechanism = "weighted" is missing
version = 1|mechanism = "weighted"|weights = { hihg = 2 } => f:3:13: top, weights: unknown key "hihg", expected one of high medium low; did you mean high?
version = 1|burst = 3 => f:2:9: top, burst: found 3, expected 1, 2, 4, 8, 16, 32, 64 or "none"
version = 1 => f: top: device is missing, expected a table [device]
version = 1|device = 3 => f:2:10: top, device: found 3, expected a table
"#;

const FAULTS_OF_THE_SIMULATION: &str = r#"
seeed = 3 => f:3:1: simulation: unknown key "seeed", expected one of seed commands time warm_up; did you mean `seed`?
seed = -1 => f:3:8: simulation, seed: found -1, expected a whole number from 0 to 9223372036854775807
commands = 0 => f:3:12: simulation, commands: found 0, expected a whole number from 1 to 100000000
commands = 5|time = "1s" => f:4:1: simulation, time: can't stand beside commands
time = 3 => f:3:8: simulation, time: found 3, expected a duration such as "80us"
"#;

const FAULTS_OF_THE_DEVICE: &str = r#"
chanels = 2 => f:3:1: device: unknown key "chanels", expected one of channels depth placing stripe size read write flush pauses; did you mean `channels`?
channels = 0 => f:3:12: device, channels: found 0, expected a whole number from 1 to 65535
depth = 4096 => f:3:9: device, depth: found 4096, expected a whole number from 1 to 4095
placing = "stripped" => f:3:11: device, placing: found "stripped", expected "pool" or "striped"; did you mean `striped`?
stripe = 8 => f:3:1: device, stripe: has no effect without placing = "striped"
size = 0 => f:3:8: device, size: found 0, expected a whole number from 1 to 9223372036854775807
read = 80 => f:3:8: device, read: found 80, expected a duration such as "80us", or a table
read = "80" => f:3:8: device, read: found "80", expected a number and a unit of ps, ns, us, ms or s, as in 80us or 1.5ms
read = { fixed = "1us", exponential = "1us" } => f:3:1: device, read: expected one of fixed, exponential, usual (with rare and one_in) and quantiles
read = { exponential = "0us" } => f:3:24: device, read, exponential: found "0us", expected a mean above 0
read = { usual = "1us", rare = "2us" } => f:3:1: device, read: one_in is missing, expected a whole number from 1 to 9223372036854775807
read = { quantiles = ["1us", 2] } => f:3:30: device, read, quantiles, item 2: found 2, expected a duration such as "80us"
read = { quantiles = ["2us", "1us"] } => f:3:22: device, read, quantiles: found an array, expected quantiles that don't fall: number 1, counted from 0, is below the one before it
flush = { fixed = "1us", per_block = "1ns" } => f:3:26: device, flush: unknown key "per_block", expected one of fixed exponential usual rare one_in quantiles
pauses = { every = "1ms", for = "2ms" } => f:3:33: device, pauses, for: found "2ms", expected pauses that are shorter than the time from one to the next
"#;

const FAULTS_OF_THE_QUEUES: &str = r#"
 => f: top: queue is missing, expected an array of 1 to 64 tables: queues are written [[queue]]
queue = [] => f:3:9: top, queue: found an empty array, expected 1 to 64 queues
queue = [3] => f:3:10: top, queue, item 1: found 3, expected a table
[queue] => f:3:2: top, queue: found a table, expected an array of 1 to 64 tables: queues are written [[queue]]
[[queue]] => f:3:1: queue 1: arrivals is missing, expected a table of poisson, every, closed, bursts or replay
"#;

const FAULTS_OF_A_QUEUE: &str = r#"
class = "high" => f:4:1: queue 1: classes have no effect under round robin: mechanism = "weighted" is missing
slots = 1 => f:4:9: queue 1, slots: found 1, expected a whole number from 2 to 4096
arrivals = 3 => f:4:12: queue 1, arrivals: found 3, expected a table
arrivals = { poisson = 0 } => f:4:24: queue 1, arrivals, poisson: found 0, expected a whole number from 1 to 1000000000000
arrivals = { poisson = true } => f:4:24: queue 1, arrivals, poisson: found true, expected commands a second as a whole number, or a duration such as "80us"
arrivals = { poisson = 5, think = "1us" } => f:4:1: queue 1, arrivals: expected one of poisson, every, closed (with think), bursts and replay
arrivals = { every = "0us" } => f:4:22: queue 1, arrivals, every: found "0us", expected a gap above 0
arrivals = { closed = 4097 } => f:4:23: queue 1, arrivals, closed: found 4097, expected a whole number from 1 to 4096
arrivals = { bursts = { poisson = 3, on = "0us", off = "1us" } } => f:4:43: queue 1, arrivals, bursts, on: found "0us", expected on phases longer than 0
arrivals = { every = 3 }|mix = { read = 0 } => f:5:7: queue 1, mix: found a table, expected a share of reads, writes or flushes above 0
arrivals = { every = 3 }|mix = { write = 1 } => f:3:1: queue 1: write is missing, expected how long it takes, of the queue or of the device
arrivals = { every = 3 }|blocks = 65537 => f:5:10: queue 1, blocks: found 65537, expected a whole number from 1 to 65536
arrivals = { every = 3 }|offsets = "sequental" => f:5:11: queue 1, offsets: found "sequental", expected "uniform" or "sequential"; did you mean `sequential`?
"#;

const FAULTS_OF_A_REPLAY: &str = r#"
arrivals = { poisson = 5, form = "csv" } => f:4:27: queue 1, arrivals: unknown key "form", expected one of poisson every closed think bursts replay
arrivals = { replay = "a", poisson = 5 } => f:4:28: queue 1, arrivals: unknown key "poisson", expected one of replay form speed queue
arrivals = { replay = 3, form = "msr" } => f:4:23: queue 1, arrivals, replay: found 3, expected the name of a file
arrivals = { replay = "a" } => f:4:1: queue 1, arrivals: form is missing, expected "csv", "msr", "alibaba", "blkparse" or "fio"
arrivals = { replay = "a", form = "alibab" } => f:4:35: queue 1, arrivals, form: found "alibab", expected "csv", "msr", "alibaba", "blkparse" or "fio"; did you mean `alibaba`?
arrivals = { replay = "a", form = "msr", speed = "0" } => f:4:50: queue 1, arrivals, speed: found "0", expected a number above 0, as 2 or "0.5"
arrivals = { replay = "a", form = "msr", speed = -2 } => f:4:50: queue 1, arrivals, speed: found -2, expected a number above 0, as 2 or "0.5"
arrivals = { replay = "a", form = "msr", queue = 2 } => f:4:42: queue 1, arrivals, queue: has no effect without form = "csv"
arrivals = { replay = "a", form = "csv", queue = 0 } => f:4:50: queue 1, arrivals, queue: found 0, expected a whole number from 1 to 65535
arrivals = { replay = "a", form = "msr" }|mix = { read = 1 } => f:5:1: queue 1, mix: can't stand beside replay
arrivals = { replay = "a", form = "msr" }|blocks = 8 => f:5:1: queue 1, blocks: can't stand beside replay
arrivals = { replay = "a", form = "msr" }|offsets = "uniform" => f:5:1: queue 1, offsets: can't stand beside replay
"#;

#[test]
fn faults_of_the_file(rt: HostRuntime) -> Result<(), Fail> {
    are_told(&rt, "", FAULTS_OF_THE_FILE)
}

#[test]
fn faults_of_the_simulation(rt: HostRuntime) -> Result<(), Fail> {
    are_told(&rt, "version = 1\n[simulation]\n", FAULTS_OF_THE_SIMULATION)
}

#[test]
fn faults_of_the_device(rt: HostRuntime) -> Result<(), Fail> {
    are_told(&rt, "version = 1\n[device]\n", FAULTS_OF_THE_DEVICE)
}

#[test]
fn faults_of_the_queues(rt: HostRuntime) -> Result<(), Fail> {
    are_told(
        &rt,
        "version = 1\ndevice.read = \"1us\"\n",
        FAULTS_OF_THE_QUEUES,
    )
}

#[test]
fn faults_of_a_queue(rt: HostRuntime) -> Result<(), Fail> {
    are_told(
        &rt,
        "version = 1\ndevice.read = \"1us\"\n[[queue]]\n",
        FAULTS_OF_A_QUEUE,
    )
}

#[test]
fn faults_of_a_replay(rt: HostRuntime) -> Result<(), Fail> {
    are_told(
        &rt,
        "version = 1\ndevice.read = \"1us\"\n[[queue]]\n",
        FAULTS_OF_A_REPLAY,
    )
}

const REPLAYS: &str = r#"version = 1
[device]
size = 64
read = "1us"
[[queue]]
arrivals = { poisson = 5 }
[[queue]]
arrivals = { replay = "a.csv", form = "csv", queue = 1, speed = 2 }
write = "2us"
[[queue]]
arrivals = { replay = "b", form = "csv", speed = "0.5" }
"#;

#[test]
fn replays_name_their_files(rt: HostRuntime) -> Result<(), Fail> {
    let model = model_of(&rt, REPLAYS)?;
    assert_eq!(rt; model.queues.len(), 3);
    for queue in [&model.queues[1], &model.queues[2]] {
        assert!(rt;
            matches!(&queue.arrivals, Arrivals::Replay(list) if list.size == 64 && list.ends_at(0))
        );
    }
    let Ok(sources) = sources_in(rt.alloc(), REPLAYS.as_bytes()) else {
        return Err(Fail::new("a fault"));
    };
    assert_eq!(rt; sources.len(), 2);
    let one = &sources[0];
    assert_eq!(rt;
        (one.file.as_str(), one.form, one.of),
        ("a.csv", Form::Csv, 1)
    );
    let served = Served {
        read: true,
        write: true,
        flush: false,
    };
    let wanted = Wanted {
        queue: 2,
        speed: Speed::whole(2).unwrap_or(Speed::SAME),
        size: 64,
        served,
    };
    assert_eq!(rt; one.wanted, wanted);
    let two = &sources[1];
    assert_eq!(rt; (two.file.as_str(), two.form, two.of), ("b", Form::Csv, 3));
    assert!(rt; !two.wanted.served.write);
    assert_eq!(rt; Some(two.wanted.speed), Speed::parse("0.5"));
    let Ok(none) = sources_in(rt.alloc(), WHOLE.as_bytes()) else {
        return Err(Fail::new("a fault"));
    };
    assert!(rt; none.is_empty());
    Ok(())
}

#[test]
fn faults_of_the_text(rt: HostRuntime) -> Result<(), Fail> {
    let Err(fault) = model_in(rt.alloc(), b"version = 1\n\xff") else {
        return Err(Fail::new("no fault"));
    };
    let text = format!(in rt.alloc();
        "{told}",
        told = Told {
            file: "f",
            fault: &fault
        }
    )?;
    assert_eq!(rt; text.as_str(), "f:2:1: expected UTF-8");
    let Err(ModelFault::NotToml(spot, _)) = model_in(rt.alloc(), b"version = 1\nseed = = 1") else {
        return Err(Fail::new("no fault"));
    };
    assert_eq!(rt; spot.line, 2);
    Ok(())
}
