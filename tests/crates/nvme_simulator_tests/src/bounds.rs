// Bounds on waits for arbitration, worked out by hand.
use nvme_arbiter::{ByClass, Class, Mechanism, Settings};
use nvme_bounds::{Queues, time_behind};
use nvme_simulate::{Digest, Form, Origin, Progress, Streams, model_in, simulate_bounded};
use std::process::Abort;
use std::test::Fail;

// Weights 8, 4 and 2, burst 8.
const CDW11: u32 = 0x0703_0103;

// A queue of each level, and so many urgent ones.
fn levels(mechanism: Mechanism, urgent: u16) -> Queues {
    Queues {
        mechanism,
        settings: Settings::from_cdw11(CDW11),
        counts: ByClass {
            admin: 0,
            urgent,
            high: 1,
            medium: 1,
            low: 1,
        },
    }
}

// A low queue that has used up its credit waits for 8 + 4 commands of this round and as many of the next one, a medium queue
// for 8 + 2 and then 8, and a high queue for 4 + 2.
#[test]
fn levels_wait_for_two_rounds(rt: HostRuntime) {
    let queues = levels(Mechanism::Weighted, 0);
    assert_eq!(rt; queues.most_before(1, Class::Low), Some(24));
    assert_eq!(rt; queues.most_before(1, Class::Medium), Some(18));
    assert_eq!(rt; queues.most_before(1, Class::High), Some(6));
    assert_eq!(rt; queues.most_before(1, Class::Admin), None);
}

// The two other urgent queues have a turn each, of 8 commands where there is room.
#[test]
fn urgent_queues_take_turns(rt: HostRuntime) {
    let queues = levels(Mechanism::Weighted, 3);
    assert_eq!(rt; queues.most_before(1, Class::Urgent), Some(2));
    assert_eq!(rt; queues.most_before(256, Class::Urgent), Some(16));
    assert_eq!(rt; queues.most_before(1, Class::Low), None);
    let all = levels(Mechanism::RoundRobin, 3);
    assert_eq!(rt; all.most_before(1, Class::Low), Some(5));
    assert_eq!(rt; all.most_before(256, Class::Low), Some(40));
}

// Four at a time: the first 24 ends take six services, and the next one a seventh.
#[test]
fn ends_come_four_at_a_time(rt: HostRuntime) {
    assert_eq!(rt; time_behind(24, 4, 80), 560);
    assert_eq!(rt; time_behind(23, 4, 80), 480);
    assert_eq!(rt; time_behind(0, 4, 80), 80);
    assert_eq!(rt; time_behind(0, 1, 0), 0);
}

// Two hosts that always have two commands out, over a device of one command at a time.
const TURNS: &[u8] = b"version = 1
mechanism = \"round-robin\"
simulation.commands = 10
device.read = \"100us\"
[[queue]]
arrivals = { closed = 2 }
[[queue]]
class = \"low\"
arrivals = { closed = 2 }
";

// What is written of them in a form.
fn told(rt: &HostRuntime, form: Form) -> Result<Vec<u8>, Fail> {
    let Ok(model) = model_in(rt.alloc(), TURNS) else {
        return Err(Fail::new("a fault"));
    };
    let mut output = Vec::new(rt.alloc());
    let mut streams = Streams {
        log: None::<Vec<u8>>,
        trace: None::<Vec<u8>>,
        progress: Progress::new(None::<Vec<u8>>, model.end),
    };
    let origin = Origin {
        digest: Digest::of(TURNS),
        options: String::new(rt.alloc()),
    };
    let done = simulate_bounded(
        rt.alloc(),
        model,
        &origin,
        form,
        &mut streams,
        &mut output,
        &mut None::<Vec<u8>>,
    );
    match done {
        Ok(()) => Ok(output),
        Err(_) => Err(Fail::new("no answer")),
    }
}

// The queues are picked in turn, each 100 us one. So the second command of the first queue, which is its next one from time 0
// on, is picked at 200 us. The first command of the second queue waits for 100 us, and its second one from 100 to 300.
#[test]
fn a_bound_is_reached(rt: HostRuntime) -> Result<(), Fail> {
    let text = told(&rt, Form::Text)?;
    let table =
        b"wait for arbitration as the next command of its queue, in us; no service is longer than 100.000
queue class            seen        bound  picks before
q1    medium        200.000      200.000             1
q2    low           200.000      200.000             1
";
    assert!(rt; text.as_slice().ends_with(table.as_slice()));
    let object = told(&rt, Form::Json)?;
    let key =
        b",\"bounds\":{\"service_max_ps\":100000000,\"queues\":[{\"queue\":1,\"class\":\"medium\",\"wait_max_ps\":200000000,\"bound_ps\":200000000,\"picks_before\":1,\"no_bound\":null},{\"queue\":2,\"class\":\"low\",\"wait_max_ps\":200000000,\"bound_ps\":200000000,\"picks_before\":1,\"no_bound\":null}]}}\n";
    assert!(rt; object.as_slice().ends_with(key.as_slice()));
    let lines = told(&rt, Form::Csv)?;
    assert!(rt; lines.as_slice().starts_with(b"seed,version,"));
    Ok(())
}
