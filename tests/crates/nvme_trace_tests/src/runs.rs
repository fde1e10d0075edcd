// Logs of random runs, whose traces are lawful.
use arrayvec::ArrayVec;
use nvme_arbiter::{Arbiter, Class, Mechanism, QUEUE_LIMIT, Seen, Settings, is_observation};
use nvme_log::{Event, Listed};
use nvme_texts::Takes;
use nvme_trace::{Checked, check};
use nvme_tracer::{WriteFault, write_trace};
use std::alloc::{AllocError, Global};
use std::test::*;

// Numbers that look random (a linear congruential generator).
#[derive(Clone, Copy)]
struct Random(u64);

impl Random {
    // A number below a bound.
    fn below(&mut self, bound: u16) -> u16 {
        self.0 = self
            .0
            .wrapping_mul(6_364_136_223_846_793_005)
            .wrapping_add(1_442_695_040_888_963_407);
        ((self.0 >> 33) % u64::from(bound.max(1))) as u16
    }
}

// Some open queues.
fn seen_by(random: &mut Random) -> ArrayVec<Seen, QUEUE_LIMIT> {
    let mut seen = ArrayVec::new();
    for qid in 0..17 {
        if random.below(3) == 0 {
            continue;
        }
        let class = match (qid, qid % 4) {
            (0, _) => Class::Admin,
            (_, 0) => Class::Urgent,
            (_, 1) => Class::High,
            (_, 2) => Class::Medium,
            (_, _) => Class::Low,
        };
        let full = random.below(5) == 0;
        let count = if full { random.below(256) } else { 0 };
        if seen.try_push(Seen { qid, class, count }).is_err() {
            break;
        }
    }
    seen
}

/// The log of a random run of this many events.
pub fn random_log(
    alloc: Global,
    mechanism: Mechanism,
    settings: Settings,
    seed: u64,
    events: u32,
) -> Result<Vec<Event>, Fail> {
    let mut random = Random(seed);
    let mut arbiter = Arbiter::new(mechanism, settings);
    let mut log = Vec::new(alloc);
    for _ in 0..events {
        if random.below(20) == 0 {
            let high = u32::from(random.below(4)) << 24;
            let settings = Settings::from_cdw11(high + u32::from(random.below(1_024)));
            arbiter.set(settings);
            log.push(Event::SetArbitration { settings })?;
        }
        let seen = seen_by(&mut random);
        if !is_observation(&seen) {
            continue;
        }
        if let Some(pick) = arbiter.pick(&seen) {
            let seen = Listed::of(alloc, &seen)?;
            log.push(Event::Pick { seen, pick })?;
        }
        log.push(Event::OpenCq { qid: 1, region: 1 })?;
    }
    Ok(log)
}

#[test]
fn random_runs(rt: HostRuntime) -> Result<(), Fail> {
    for (mechanism, cdw11) in [
        (Mechanism::RoundRobin, 1),
        (Mechanism::RoundRobin, 7),
        (Mechanism::Weighted, 0),
        (Mechanism::Weighted, 0x0301_0002),
    ] {
        let settings = Settings::from_cdw11(cdw11);
        let log = random_log(rt.alloc(), mechanism, settings, u64::from(cdw11), 300)?;
        let mut picks = 0u64;
        for event in &log {
            if let Event::Pick { .. } = event {
                picks = picks.saturating_add(1);
            }
        }
        let mut text = Vec::new(rt.alloc());
        assert_eq!(rt;
            write_trace(mechanism, settings, log.as_slice(), &mut text),
            Ok(())
        );
        assert!(rt; picks > 150);
        assert_eq!(rt;
            check(rt.alloc(), text.as_slice()),
            Ok(Checked::Lawful { picks })
        );
    }
    Ok(())
}

// A log with a pick, a change of the settings and an event that no trace tells.
fn small_log(alloc: Global) -> Result<Vec<Event>, AllocError> {
    let queues = [
        (0, Class::Admin, 0),
        (1, Class::High, 5),
        (16, Class::Low, 255),
    ];
    let queues = queues.map(|(qid, class, count)| Seen { qid, class, count });
    let pick = nvme_arbiter::Pick {
        qid: 1,
        n: 2,
        fresh: true,
    };
    let settings = Settings::from_cdw11(33_554_690);
    let seen = Listed::of(alloc, &queues)?;
    Ok(vec![in alloc;
        Event::Pick { seen, pick },
        Event::OpenCq { qid: 1, region: 1 },
        Event::SetArbitration { settings },
    ]?)
}

const SMALL_TRACE: &str = "{\"version\":1,\"mechanism\":\"weighted\",\"cdw11\":50397185}
{\"pick\":1,\"n\":2,\"fresh\":true,\"seen\":[[0,\"admin\",0],[1,\"high\",5],[16,\"low\",255]]}
{\"set\":33554690}
";

#[test]
fn trace_text(rt: HostRuntime) -> Result<(), Fail> {
    let log = small_log(rt.alloc())?;
    let mut text = Vec::new(rt.alloc());
    let first = Settings::from_cdw11(50_397_185);
    assert_eq!(rt;
        write_trace(Mechanism::Weighted, first, log.as_slice(), &mut text),
        Ok(())
    );
    assert_eq!(rt; text.as_slice(), SMALL_TRACE.as_bytes());
    Ok(())
}

#[test]
fn writer_fails(rt: HostRuntime) -> Result<(), Fail> {
    let log = small_log(rt.alloc())?;
    let first = Settings::from_cdw11(50_397_185);
    for room in 0..SMALL_TRACE.len() {
        let mut output = Takes {
            taken: Vec::new(rt.alloc()),
            room,
            fails: room % 2 == 0,
        };
        assert_eq!(rt;
            write_trace(Mechanism::Weighted, first, log.as_slice(), &mut output),
            Err(WriteFault)
        );
        assert_eq!(rt; output.taken.as_slice(), &SMALL_TRACE.as_bytes()[..room]);
    }
    Ok(())
}
