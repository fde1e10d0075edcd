// Means and widths are worked out by hand, with quantiles of a printed table of Student's t.
use nvme_points::{Estimate, Sweep, SweepFault, axes_of, estimate_of};
use nvme_simulate::{Digest, Form, Listings, Origin, Overrides, Source, sources_in};
use nvme_sweep::{CommandWords, Style, look_at_lines, put_answer, put_commands};
use std::alloc::Global;
use std::process::Abort;
use std::test::Fail;
use std::thread::Threads;

const FILE: &str = r#"version = 1
mechanism = "weighted"
weights = { high = 4, medium = 2, low = 1 }
[simulation]
seed = 3
commands = 20
[device]
channels = 1
read = "100us"
[[queue]]
class = "high"
arrivals = { every = "150us" }
[[queue]]
class = "low"
arrivals = { every = "1ms" }
"#;

// The origin of an answer whose file is this text.
fn origin(alloc: Global, text: &[u8]) -> Origin {
    Origin {
        digest: Digest::of(text),
        options: String::new(alloc),
    }
}

// The sweep of words over a text, whose queues replay these files.
fn sweep_over<'a>(
    alloc: Global,
    words: &[&'a str],
    listings: Listings,
    text: &'a str,
) -> Result<Sweep<'a>, SweepFault<'a>> {
    let Ok(overrides) = Overrides::new(None, None, None, None, None) else {
        return Err(SweepFault::NotToml);
    };
    let sweep = Sweep {
        axes: axes_of(alloc, words)?,
        seeds: 1,
        overrides,
        listings,
        text,
        drawn: None,
    };
    let _ = sweep.look(alloc)?;
    Ok(sweep)
}

// The sweep of words over the file.
fn sweep_of<'a>(alloc: Global, words: &[&'a str]) -> Result<Sweep<'a>, SweepFault<'a>> {
    sweep_over(alloc, words, Listings::new(alloc), FILE)
}

// What is told of words that are refused, empty of others.
fn refused(rt: &HostRuntime, words: &[&str]) -> Result<String, Fail> {
    match sweep_of(rt.alloc(), words) {
        Ok(_) => Ok(String::new(rt.alloc())),
        Err(fault) => Ok(format!(in rt.alloc(); "{fault}")?),
    }
}

#[test]
fn the_last_key_is_the_fastest(rt: HostRuntime) -> Result<(), Fail> {
    let words = ["weights=8:4:2,1:1:1", "load=0.50,0.7"];
    let Ok(sweep) = sweep_of(rt.alloc(), &words) else {
        return Err(Fail::new("refused"));
    };
    let words = CommandWords {
        file: "a b.toml",
        seed: Some(7),
        commands: None,
        time: None,
        warm_up: None,
        load: None,
        seeds: None,
        jobs: Some(2),
        format: "csv",
        has_head: true,
    };
    let mut lines = Vec::new(rt.alloc());
    assert!(rt; put_commands(rt.alloc(), &sweep, &words, &mut lines).is_ok());
    assert_eq!(rt;
        lines.as_slice(),
        b"nvmearb simulate 'a b.toml' --sweep weights=8:4:2 --sweep load=0.50 --seed 7 --jobs 2 --format csv
nvmearb simulate 'a b.toml' --sweep weights=8:4:2 --sweep load=0.7 --seed 7 --jobs 2 --format csv --no-head
nvmearb simulate 'a b.toml' --sweep weights=1:1:1 --sweep load=0.50 --seed 7 --jobs 2 --format csv --no-head
nvmearb simulate 'a b.toml' --sweep weights=1:1:1 --sweep load=0.7 --seed 7 --jobs 2 --format csv --no-head
"
            .as_slice()
    );
    Ok(())
}

#[test]
fn bad_words_are_refused(rt: HostRuntime) -> Result<(), Fail> {
    let rows = [
        (
            "burst",
            "--sweep \"burst\": expected a key and its values, as burst=1,8",
        ),
        (
            "=1",
            "--sweep \"=1\": expected a key and its values, as burst=1,8",
        ),
        (
            "burst=",
            "--sweep \"burst=\": expected values of letters, digits and . _ - : +",
        ),
        (
            "burst=1,,2",
            "--sweep \"burst=1,,2\": expected values of letters, digits and . _ - : +",
        ),
        (
            "queue.3.class=low",
            "--sweep queue.3.class: the file has no table for such a key",
        ),
        (
            "queue.0.class=low",
            "--sweep queue.0.class: the file has no table for such a key",
        ),
        (
            "weights=8:4",
            "--sweep weights=8:4: expected three weights, as 8:4:2, or a number of 63 bits",
        ),
        (
            "load=0,7",
            "--sweep load=0: expected a load above 0 and at most 4",
        ),
        (
            "load=0.7,4.1",
            "--sweep load=4.1: expected a load above 0 and at most 4",
        ),
        (
            "load=high",
            "--sweep load=high: expected digits, or digits, a point and one to six digits, as 0.7",
        ),
        (
            "load.high=1",
            "--sweep load.high: the file has no table for such a key",
        ),
    ];
    for (words, told) in rows {
        assert_eq!(rt; refused(&rt, &[words])?.as_str(), told);
    }
    assert_eq!(rt;
        refused(&rt, &["burst=1", "burst=2"])?.as_str(),
        "--sweep burst: the key is swept twice"
    );
    assert_eq!(rt;
        refused(&rt, &["burst=8,1,none,1"])?.as_str(),
        "--sweep burst: the value 1 is there twice"
    );
    assert_eq!(rt; refused(&rt, &["load=0.5,0.50"])?.as_str(), "");
    assert_eq!(rt; refused(&rt, &["queue.2.class=low,urgent"])?.as_str(), "");
    Ok(())
}

// The answer of a sweep on so many threads, and behind it the picture.
fn answer_on<R: AllocGlobal + Threads + Sync + Abort>(
    rt: &R,
    sweep: &Sweep,
    jobs: usize,
    form: Form,
) -> Result<Vec<u8>, Fail> {
    let style = Style {
        form,
        has_head: true,
        origin: origin(rt.alloc(), b""),
        jobs,
    };
    let (mut answer, mut svg) = (Vec::new(rt.alloc()), Vec::new(rt.alloc()));
    let mut chart = Some(&mut svg);
    let terminal = None::<Vec<u8>>;
    let done = put_answer(
        rt,
        rt.alloc(),
        sweep,
        &style,
        terminal,
        &mut answer,
        &mut chart,
    );
    assert!(rt; done.is_ok());
    answer.extend_from_slice(svg.as_slice())?;
    Ok(answer)
}

#[test]
fn answers_are_the_same_on_any_number_of_threads(rt: HostRuntime) -> Result<(), Fail> {
    let words = ["load=0.5,0.9", "device.channels=1,2,3"];
    let Ok(mut sweep) = sweep_of(rt.alloc(), &words) else {
        return Err(Fail::new("refused"));
    };
    sweep.seeds = 3;
    for form in [Form::Text, Form::Json, Form::Csv] {
        let alone = answer_on(&rt, &sweep, 1, form)?;
        for jobs in [2, 5, 64] {
            let answer = answer_on(&rt, &sweep, jobs, form)?;
            assert_eq!(rt; answer.as_slice(), alone.as_slice());
        }
    }
    Ok(())
}

#[test]
fn eight_lines_are_told_apart(rt: HostRuntime) -> Result<(), Fail> {
    let alloc = rt.alloc();
    let eight = ["burst=1,2,4,8", "weights=8:4:2,1:1:1", "device.depth=1,2,4"];
    let Ok(sweep) = sweep_of(alloc, &eight) else {
        return Err(Fail::new("refused"));
    };
    assert!(rt; look_at_lines(alloc, &sweep).is_ok());
    let Ok(sweep) = sweep_of(
        alloc,
        &["device.channels=1,2,3", "burst=1,2,4", "device.depth=4"],
    ) else {
        return Err(Fail::new("refused"));
    };
    let Err(fault) = look_at_lines(alloc, &sweep) else {
        return Err(Fail::new("nine lines"));
    };
    assert_eq!(rt;
        format!(in alloc; "{fault}")?.as_str(),
        "--chart: expected at most 8 combinations of the keys before the last one, found 9"
    );
    Ok(())
}

// Both classes are drawn at both values, the high one at 100 us, which nothing delays.
#[test]
fn a_sweep_is_drawn(rt: HostRuntime) -> Result<(), Fail> {
    let Ok(sweep) = sweep_of(rt.alloc(), &["device.channels=1,2"]) else {
        return Err(Fail::new("refused"));
    };
    let style = Style {
        form: Form::Csv,
        has_head: true,
        origin: origin(rt.alloc(), b"abc"),
        jobs: 1,
    };
    let (mut output, mut svg) = (Vec::new(rt.alloc()), Vec::new(rt.alloc()));
    let mut chart = Some(&mut svg);
    let (alloc, terminal) = (rt.alloc(), None::<Vec<u8>>);
    let done = put_answer(
        &rt,
        alloc,
        &sweep,
        &style,
        terminal,
        &mut output,
        &mut chart,
    );
    assert!(rt; done.is_ok());
    let text = std::str::from_utf8(svg.as_slice()).unwrap_or("");
    for part in [
        ">Latency of each class over device.channels</text>",
        "<title>device.channels=2 high: 100.000 us</title>",
        "<title>low</title>",
        ", digest ba7816bf8f01cfea414140de5dae2223b00361a396177a9cb410ff61f20015ad</text>",
    ] {
        assert!(rt; text.contains(part));
    }
    Ok(())
}

#[test]
fn widths_are_those_of_student(rt: HostRuntime) -> Result<(), Fail> {
    let whole = |mean: u128, half: u128| -> Estimate {
        Estimate {
            mean: Some(mean),
            half: Some(half),
        }
    };
    // (the deviation is 1000 times the root of 2, and 12.706205 of it divided by the root of 2 are 12706.2)
    assert_eq!(rt; estimate_of(&[1_000, 3_000], 2), whole(2_000, 12_706));
    // (the deviation is the root of 13 times 1000, and 4.302653 of it divided by the root of 3 are 8956.7)
    assert_eq!(rt; estimate_of(&[2_000, 4_000, 9_000], 3), whole(5_000, 8_956));
    assert_eq!(rt; estimate_of(&[7, 7, 7], 3), whole(7, 0));
    assert_eq!(rt; estimate_of(&[7], 1).half, None);
    assert_eq!(rt; estimate_of(&[7], 2).mean, None);
    assert_eq!(rt; estimate_of(&[], 0).mean, None);
    Ok(())
}

const REPLAY: &str = r#"version = 1
device.read = "1us"
[[queue]]
arrivals = { replay = "a", form = "msr" }
"#;

// The files that a text replays, each of one read.
fn listings_of(alloc: Global, text: &str) -> Listings {
    let mut listings = Listings::new(alloc);
    let sources: Vec<Source> = match sources_in(alloc, text.as_bytes()) {
        Ok(sources) => sources,
        Err(_) => Vec::new(alloc),
    };
    for source in &sources {
        let _ = listings.read(alloc, source, b"1,a,0,Read,0,512,1\n");
    }
    listings
}

#[test]
fn replays_are_swept(rt: HostRuntime) -> Result<(), Fail> {
    let alloc = rt.alloc();
    for (words, told) in [
        ("queue.1.arrivals.speed=1,2,0.5", ""),
        ("device.size=8", ""),
        (
            "load=0.5",
            "--sweep load=0.5: no queue is open: there is nothing to scale",
        ),
        (
            "queue.1.arrivals.speed=0",
            "queue.1.arrivals.speed=0: queue 1, arrivals, speed: found 0, expected a number above 0, as 2 or \"0.5\"",
        ),
        (
            "queue.1.arrivals.replay=b",
            "queue.1.arrivals.replay=b: b: expected the file, the form and the queue that the simulation file says",
        ),
        (
            "queue.1.arrivals.form=fio",
            "queue.1.arrivals.form=fio: a: expected the file, the form and the queue that the simulation file says",
        ),
    ] {
        let listings = listings_of(alloc, REPLAY);
        let found = match sweep_over(alloc, &[words], listings, REPLAY) {
            Ok(_) => String::new(alloc),
            Err(fault) => format!(in alloc; "{fault}")?,
        };
        assert_eq!(rt; found.as_str(), told);
    }
    Ok(())
}

#[test]
fn runs_are_counted_on_a_terminal(rt: HostRuntime) -> Result<(), Fail> {
    let Ok(sweep) = sweep_of(rt.alloc(), &["burst=1,2"]) else {
        return Err(Fail::new("refused"));
    };
    let style = Style {
        form: Form::Csv,
        has_head: true,
        origin: origin(rt.alloc(), b""),
        jobs: 2,
    };
    let (mut terminal, mut answer) = (Vec::new(rt.alloc()), Vec::new(rt.alloc()));
    let shown = Some(&mut terminal);
    let done = put_answer(
        &rt,
        rt.alloc(),
        &sweep,
        &style,
        shown,
        &mut answer,
        &mut None::<Vec<u8>>,
    );
    assert!(rt; done.is_ok());
    assert!(rt; terminal.starts_with(b"\r"));
    assert!(rt; terminal.ends_with(b" of 2 runs\r\x1b[K"));
    Ok(())
}
