// The digest of `abc` is that of FIPS 180-4. Loads, and the gaps that are scaled to them, are worked out by hand.
use nvme_arbiter::{Class, Mechanism, Pick, Seen, Settings};
use nvme_channels::Placement;
use nvme_load::{
    Arrivals, Closed, Distribution, Extent, Gap, Mean, Mix, Operation, Order, Phases, Places,
    Replay, Request, Service, Services,
};
use nvme_model::{Device, End, Model, Pauses, Queue};
use nvme_simulate::{
    Digest, Form, Listings, Load, LoadFault, Origin, OverrideFault, Overrides, Progress,
    ReplayError, SimulateFault, Source, Stream, Streams, cut_of, model_in, overload_of, put_pick,
    put_trace_head, simulate, sources_in,
};
use nvme_simulation::Picked;
use std::process::Abort;
use std::test::Fail;

const MICROSECOND: u64 = 1_000_000;

// The model at this load.
fn scaled(model: Model, load: Load) -> Result<Model, LoadFault> {
    let overrides = Overrides {
        seed: None,
        end: None,
        warm_up: None,
        load: Some(load),
    };
    overrides.applied(model)
}

// A queue of reads that take 100 us each.
fn queue(arrivals: Arrivals) -> Result<Queue, Fail> {
    let mix = Mix::new(1, 0, 0)?;
    let places = Places::new(Extent::new(1_024, 8)?, Order::Uniform);
    let read = Service {
        time: Distribution::Fixed(60 * MICROSECOND),
        per_block: 5 * MICROSECOND,
    };
    let write = Service {
        time: Distribution::Fixed(0),
        per_block: 0,
    };
    let services = Services {
        read,
        write,
        flush: Distribution::Fixed(0),
    };
    Ok(Queue::new(Class::High, 64, arrivals, mix, places, services)?)
}

// A device of two channels with a closed host, and with a queue of these arrivals.
fn model(rt: &HostRuntime, arrivals: Arrivals, pauses: Option<Pauses>) -> Result<Model, Fail> {
    let device = Device::new(2, 4, Placement::Pool, pauses)?;
    let mut queues = Vec::new(rt.alloc());
    queues.push(queue(Arrivals::Closed(Closed::new(8, 0)?))?)?;
    queues.push(queue(arrivals)?)?;
    let settings = Settings::from_cdw11(0x0703_0103);
    let end = End::after(10)?;
    Ok(Model::new(Mechanism::Weighted, settings, device, queues, 7, end, 0)?)
}

// What is told of a model's load, empty where it isn't too much.
fn told(rt: &HostRuntime, model: &Model) -> Result<String, Fail> {
    match overload_of(model) {
        Some(overload) => Ok(format!(in rt.alloc(); "{overload}")?),
        None => Ok(String::new(rt.alloc())),
    }
}

#[test]
fn loads_above_the_channels_are_told(rt: HostRuntime) -> Result<(), Fail> {
    let every = |gap: u64| -> Result<Arrivals, Fail> { Ok(Arrivals::Regular(Gap::new(gap)?)) };
    let two = model(&rt, every(50 * MICROSECOND)?, None)?;
    assert_eq!(rt; told(&rt, &two)?.as_str(), "");
    let more = model(&rt, every(40 * MICROSECOND)?, None)?;
    assert_eq!(rt;
        told(&rt, &more)?.as_str(),
        "queues 2: the offered load is 2.500 channels, and the device can do 2.000: ever more commands wait"
    );
    let pauses = Some(Pauses::new(4_000, 1_000)?);
    let paused = model(&rt, every(50 * MICROSECOND)?, pauses)?;
    assert_eq!(rt;
        told(&rt, &paused)?.as_str(),
        "queues 2: the offered load is 2.000 channels, and the device can do 1.500: ever more commands wait"
    );
    let phases = Phases::new(Mean::new(20 * MICROSECOND)?, 1_000, 1_000)?;
    let bursts = model(&rt, Arrivals::OnOff(phases), None)?;
    assert_eq!(rt;
        told(&rt, &bursts)?.as_str(),
        "queues 2: the offered load is 2.500 channels, and the device can do 2.000: ever more commands wait"
    );
    Ok(())
}

#[test]
fn loads_are_decimals(rt: HostRuntime) -> Result<(), Fail> {
    for (text, millionths) in [
        ("1", 1_000_000),
        ("0.7", 700_000),
        ("00.75", 750_000),
        ("0.000001", 1),
        ("4.000000", 4_000_000),
    ] {
        assert_eq!(rt; Load::new(text)?.millionths, millionths);
    }
    for text in [
        "",
        ".5",
        "1.",
        "0.1234567",
        "-1",
        "+1",
        "1e0",
        "0.5.0",
        "0x1",
        " 1",
    ] {
        assert!(rt; matches!(Load::new(text), Err(LoadFault::Digits)), "{text}");
    }
    for text in ["0", "0.000000", "4.000001", "5", "99999999999999999999"] {
        assert!(rt; matches!(Load::new(text), Err(LoadFault::Range)), "{text}");
    }
    Ok(())
}

// What arrivals say: their kind, and three numbers at most.
fn shape_of(arrivals: &Arrivals) -> (&'static str, u64, u64, u64) {
    match arrivals {
        Arrivals::Poisson(mean) => ("poisson", mean.picoseconds, 0, 0),
        Arrivals::Regular(gap) => ("every", gap.picoseconds, 0, 0),
        Arrivals::OnOff(phases) => ("bursts", phases.mean.picoseconds, phases.on, phases.off),
        Arrivals::Closed(host) => ("closed", u64::from(host.depth), host.think, 0),
        Arrivals::Replay(list) => ("replay", list.size, list.requests.len() as u64, 0),
    }
}

// What the arrivals of the second queue of a model say, once it is scaled to a load. Those of the first one, which is closed,
// stay.
fn shape_at<R: Abort>(
    rt: &R,
    load: &str,
    model: Model,
) -> Result<(&'static str, u64, u64, u64), Fail> {
    let model = scaled(model, Load::new(load)?)?;
    let (Some(closed), Some(open)) = (model.queues.first(), model.queues.get(1)) else {
        return Err(Fail::new("two queues"));
    };
    assert_eq!(rt; shape_of(&closed.arrivals), ("closed", 8, 0, 0));
    assert_eq!(rt; open.slots, 64);
    Ok(shape_of(&open.arrivals))
}

// Reads of 100 us ask for 2 channels where one comes each 50 us.
#[test]
fn gaps_are_scaled_to_a_load(rt: HostRuntime) -> Result<(), Fail> {
    let regular = |gap: u64| -> Result<Arrivals, Fail> { Ok(Arrivals::Regular(Gap::new(gap)?)) };
    for (load, gap) in [
        ("1", 50_000_000),
        ("0.5", 100_000_000),
        ("0.7", 71_428_571),
        ("4", 12_500_000),
    ] {
        let two = model(&rt, regular(50 * MICROSECOND)?, None)?;
        assert_eq!(rt; shape_at(&rt, load, two)?, ("every", gap, 0, 0));
    }
    let pauses = Some(Pauses::new(4_000, 1_000)?);
    let paused = model(&rt, regular(50 * MICROSECOND)?, pauses)?;
    assert_eq!(rt; shape_at(&rt, "1", paused)?, ("every", 66_666_667, 0, 0));
    let mean = Mean::new(500 * MICROSECOND)?;
    let slow = model(&rt, Arrivals::Poisson(mean), None)?;
    assert_eq!(rt; shape_at(&rt, "0.8", slow)?, ("poisson", 62_500_000, 0, 0));
    let phases = Phases::new(Mean::new(50 * MICROSECOND)?, 1_000, 3_000)?;
    let bursts = model(&rt, Arrivals::OnOff(phases), None)?;
    assert_eq!(rt;
        shape_at(&rt, "0.5", bursts)?,
        ("bursts", 25 * MICROSECOND, 1_000, 3_000)
    );
    Ok(())
}

// A list keeps its times, and is no part of the load.
#[test]
fn lists_stay_at_any_load(rt: HostRuntime) -> Result<(), Fail> {
    let request = Request {
        at: 7,
        operation: Operation::Read,
        block: 0,
        blocks: 8,
    };
    let list = Replay::new(1_024, vec![in rt.alloc(); request]?)?;
    let mut model = model(&rt, Arrivals::Regular(Gap::new(50 * MICROSECOND)?), None)?;
    model.queues.push(queue(Arrivals::Replay(list))?)?;
    let model = scaled(model, Load::new("0.5")?)?;
    let (Some(open), Some(listed)) = (model.queues.get(1), model.queues.get(2)) else {
        return Err(Fail::new("three queues"));
    };
    assert_eq!(rt;
        shape_of(&open.arrivals),
        ("every", 100 * MICROSECOND, 0, 0)
    );
    assert_eq!(rt; shape_of(&listed.arrivals), ("replay", 1_024, 1, 0));
    assert_eq!(rt; listed.arrivals.request(0), Some(request));
    Ok(())
}

#[test]
fn what_cant_be_scaled_is_refused(rt: HostRuntime) -> Result<(), Fail> {
    let load = Load::new("0.000001")?;
    let closed = model(&rt, Arrivals::Closed(Closed::new(1, 0)?), None)?;
    assert!(rt; matches!(scaled(closed, load), Err(LoadFault::NoOpenQueue)));
    let list = Replay::empty(rt.alloc(), 1_024);
    let listed = model(&rt, Arrivals::Replay(list), None)?;
    assert!(rt; matches!(scaled(listed, load), Err(LoadFault::NoOpenQueue)));
    let mut idle = model(&rt, Arrivals::Regular(Gap::new(1)?), None)?;
    for queue in idle.queues.iter_mut() {
        queue.mix = Mix::new(0, 0, 1)?;
    }
    assert!(rt; matches!(scaled(idle, load), Err(LoadFault::NoService)));
    let mut queues = Vec::new(rt.alloc());
    queues.push(queue(Arrivals::Regular(Gap::new(1)?))?)?;
    queues.push(queue(Arrivals::Poisson(Mean::new(1 << 57)?))?)?;
    let device = Device::new(2, 4, Placement::Pool, None)?;
    let settings = Settings::from_cdw11(0x0703_0103);
    let end = End::after(10)?;
    let long = Model::new(Mechanism::Weighted, settings, device, queues, 7, end, 0)?;
    assert!(rt; matches!(scaled(long, load), Err(LoadFault::LongGap(2))));
    Ok(())
}

#[test]
fn options_stand_in_place_of_the_file(rt: HostRuntime) -> Result<(), Fail> {
    let poisson = Arrivals::Poisson(Mean::new(MICROSECOND)?);
    let overrides = match Overrides::new(Some(9), None, Some("30s"), None, Some("0.5")) {
        Ok(overrides) => overrides,
        Err(_) => return Err(Fail::new("refused")),
    };
    let changed = overrides.applied(model(&rt, poisson, None)?)?;
    assert_eq!(rt; changed.seed, 9);
    assert_eq!(rt; changed.end, End::at(30_000_000_000_000));
    assert_eq!(rt; changed.warm_up, 0);
    let shape = changed.queues.get(1).map(|queue| shape_of(&queue.arrivals));
    assert_eq!(rt; shape, Some(("poisson", 100 * MICROSECOND, 0, 0)));
    let both = Overrides::new(None, Some(1), Some("30s"), None, None);
    assert!(rt; matches!(both, Err(OverrideFault::TwoEnds)));
    assert!(rt;
        matches!(
            Overrides::new(None, Some(0), None, None, None),
            Err(OverrideFault::Commands(_))
        )
    );
    assert!(rt;
        matches!(
            Overrides::new(None, None, Some("30"), None, None),
            Err(OverrideFault::Time(_))
        )
    );
    assert!(rt;
        matches!(
            Overrides::new(None, None, None, None, Some("none")),
            Err(OverrideFault::Load(LoadFault::Digits))
        )
    );
    Ok(())
}

#[test]
fn a_pick_has_its_line(rt: HostRuntime) -> Result<(), Fail> {
    let pick = Pick {
        qid: 2,
        n: 3,
        fresh: true,
    };
    let picked = Picked {
        at: 17,
        room: 4,
        pick,
    };
    let seen = Seen {
        qid: 2,
        class: Class::High,
        count: 5,
    };
    let poisson = Arrivals::Poisson(Mean::new(MICROSECOND)?);
    let mut trace = Vec::new(rt.alloc());
    assert!(rt; put_trace_head(&model(&rt, poisson, None)?, &mut trace).is_ok());
    assert!(rt; put_pick(&picked, &[seen], &mut trace).is_ok());
    assert_eq!(rt;
        trace.as_slice(),
        b"{\"version\":1,\"mechanism\":\"weighted\",\"cdw11\":117637379}\n{\"pick\":2,\"n\":3,\"room\":4,\"fresh\":true,\"seen\":[[2,\"high\",5]],\"x_ps\":17}\n".as_slice()
    );
    Ok(())
}

#[test]
fn progress_is_a_line(rt: HostRuntime) -> Result<(), Fail> {
    let mut terminal = Vec::new(rt.alloc());
    let mut progress = Progress::new(Some(&mut terminal), End::after(50_000)?);
    for time in 0..40_000u64 {
        progress.add(time);
    }
    progress.clear();
    assert_eq!(rt;
        terminal.as_slice(),
        b"\r20000 of 50000 commands\r40000 of 50000 commands\r\x1b[K".as_slice()
    );
    Ok(())
}

// Of three commands in a list beside a closed host.
#[test]
fn replays_are_cut(rt: HostRuntime) -> Result<(), Fail> {
    let mut requests = Vec::new(rt.alloc());
    for at in [0, 5, 9] {
        requests.push(Request {
            at,
            operation: Operation::Read,
            block: 0,
            blocks: 8,
        })?;
    }
    let list = Replay::new(1_024, requests)?;
    let model = model(&rt, Arrivals::Replay(list), None)?;
    assert!(rt; cut_of(&model, None).is_none());
    assert!(rt; cut_of(&model, Some(End::after(3)?)).is_none());
    assert!(rt; cut_of(&model, Some(End::at(7))).is_none());
    let Some(cut) = cut_of(&model, Some(End::after(2)?)) else {
        return Err(Fail::new("not cut"));
    };
    assert_eq!(rt;
        format!(in rt.alloc(); "{cut}")?.as_str(),
        "the simulation ends after 2 commands: at least 1 of the 3 in the replayed files are left out"
    );
    Ok(())
}

// The options of a line that change a model whose seed is 7, and which ends after 10 commands.
#[test]
fn options_that_change_a_file_are_told(rt: HostRuntime) -> Result<(), Fail> {
    let alloc = rt.alloc();
    let model = model(&rt, Arrivals::Regular(Gap::new(MICROSECOND)?), None)?;
    let rows = [
        (Overrides::new(Some(7), Some(10), None, Some(0), None)?, ""),
        (
            Overrides::new(Some(8), Some(9), None, Some(1), Some("0.70"))?,
            "--seed 8 --commands 9 --warm-up 1 --load 0.7",
        ),
        (
            Overrides::new(None, None, Some("1.5us"), None, Some("1"))?,
            "--time 1500000ps --load 1",
        ),
        (
            Overrides::new(None, None, None, None, Some("0.000001"))?,
            "--load 0.000001",
        ),
        (
            Overrides::new(None, None, None, None, Some("2.05"))?,
            "--load 2.05",
        ),
    ];
    for (overrides, told) in rows {
        assert_eq!(rt; overrides.changes(alloc, &model)?.as_str(), told);
    }
    Ok(())
}

#[test]
fn a_digest_is_that_of_its_text(rt: HostRuntime) -> Result<(), Fail> {
    assert_eq!(rt;
        Digest::of(b"abc").as_str(),
        "ba7816bf8f01cfea414140de5dae2223b00361a396177a9cb410ff61f20015ad"
    );
    Ok(())
}

#[test]
fn a_model_is_simulated(rt: HostRuntime) -> Result<(), Fail> {
    let arrivals = Arrivals::Regular(Gap::new(MICROSECOND)?);
    let end = End::after(10)?;
    let mut trace = Vec::new(rt.alloc());
    let mut output = Vec::new(rt.alloc());
    let mut chart = Vec::new(rt.alloc());
    let mut streams = Streams {
        log: None::<&mut [u8]>,
        trace: Some(&mut trace),
        progress: Progress::new(None::<&mut [u8]>, end),
    };
    let model = model(&rt, arrivals, None)?;
    let origin = Origin {
        digest: Digest::of(b""),
        options: String::new(rt.alloc()),
    };
    let mut picture = Some(&mut chart);
    let done = simulate(
        rt.alloc(),
        model,
        &origin,
        Form::Csv,
        &mut streams,
        &mut output,
        &mut picture,
    );
    assert!(rt; done.is_ok());
    assert!(rt; trace.as_slice().starts_with(b"{\"version\":1,"));
    assert!(rt; chart.as_slice().starts_with(b"<svg "));
    assert!(rt; chart.as_slice().ends_with(b"</svg>\n"));
    Ok(())
}

// A queue that replays a file at twice its speed.
const REPLAY: &str = "version = 1
device.read = \"1us\"
[[queue]]
arrivals = { replay = \"a.csv\", form = \"msr\", speed = 2 }
";

// The model of this file, and what its queues replay.
fn replaying(rt: &HostRuntime) -> Result<(Model, Vec<Source>), Fail> {
    let model = model_in(rt.alloc(), REPLAY.as_bytes());
    let sources = sources_in(rt.alloc(), REPLAY.as_bytes());
    match (model, sources) {
        (Ok(model), Ok(sources)) => Ok((model, sources)),
        _ => Err(Fail::new("a fault")),
    }
}

// Two reads, of which the second one comes 4 us behind the first one in the file, and so 2 us behind it here.
#[test]
fn a_file_is_replayed(rt: HostRuntime) -> Result<(), Fail> {
    let (model, sources) = replaying(&rt)?;
    let mut listings = Listings::new(rt.alloc());
    let unread = listings.put_into(rt.alloc(), &sources, model);
    assert!(rt;
        matches!(unread, Err(fault) if fault.file == "a.csv" && fault.error == ReplayError::Unread)
    );
    for source in &sources {
        assert!(rt; !listings.has(source));
        let bytes = b"7,a,0,Read,0,512,1\n47,a,0,Read,512,1024,1\n";
        assert!(rt; listings.read(rt.alloc(), source, bytes).is_ok());
        assert!(rt; listings.has(source));
    }
    let (model, sources) = replaying(&rt)?;
    let Ok(model) = listings.put_into(rt.alloc(), &sources, model) else {
        return Err(Fail::new("no list"));
    };
    assert!(rt; overload_of(&model).is_none());
    let mut log = Vec::new(rt.alloc());
    let mut output = Vec::new(rt.alloc());
    let mut streams = Streams {
        log: Some(&mut log),
        trace: None::<Vec<u8>>,
        progress: Progress::new(None::<Vec<u8>>, model.end),
    };
    let origin = Origin {
        digest: Digest::of(b""),
        options: String::new(rt.alloc()),
    };
    let done = simulate(
        rt.alloc(),
        model,
        &origin,
        Form::Text,
        &mut streams,
        &mut output,
        &mut None::<Vec<u8>>,
    );
    assert!(rt; done.is_ok());
    let lines =
        b"queue,number,operation,block,blocks,channel,came_ps,submitted_ps,picked_ps,started_ps,done_ps
1,0,read,0,1,0,0,0,0,0,1000000
1,1,read,1,2,0,2000000,2000000,2000000,2000000,3000000
";
    assert_eq!(rt; log.as_slice(), lines.as_slice());
    Ok(())
}

#[test]
fn a_log_that_fails_is_told(rt: HostRuntime) -> Result<(), Fail> {
    let arrivals = Arrivals::Regular(Gap::new(MICROSECOND)?);
    let end = End::after(10)?;
    let mut room = [0; 4];
    let mut output = Vec::new(rt.alloc());
    let mut streams = Streams {
        log: Some(room.as_mut_slice()),
        trace: None::<Vec<u8>>,
        progress: Progress::new(None::<Vec<u8>>, end),
    };
    let model = model(&rt, arrivals, None)?;
    let origin = Origin {
        digest: Digest::of(b""),
        options: String::new(rt.alloc()),
    };
    let done = simulate(
        rt.alloc(),
        model,
        &origin,
        Form::Text,
        &mut streams,
        &mut output,
        &mut None::<Vec<u8>>,
    );
    assert!(rt; matches!(done, Err(SimulateFault::Write(Stream::Log))));
    assert!(rt; output.is_empty());
    Ok(())
}
