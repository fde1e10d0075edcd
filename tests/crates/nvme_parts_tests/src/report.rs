use nvme_arbiter::{Class, Pick};
use nvme_entry::{Cqe, Sqe, Status};
use nvme_front::{Event, Listed, Sent, Settled};
use nvme_report::{Mode, report};
use nvme_texts::{DELETE_THREE_REPORT, Takes, TakesOne};
use std::alloc::{AllocError, Global};
use std::process::Abort;
use std::test::Fail;

// The Post of a place's completion.
fn answered(region: u8, index: u32, status: Status) -> Event {
    let cqe = Cqe {
        dw0: 0,
        sqhd: 0,
        sqid: u16::from(region),
        cid: 0,
        phase: true,
        status,
    };
    Event::Post {
        cq_region: region,
        region,
        index,
        cqe,
    }
}

// A pick of one command.
fn picked(alloc: Global, qid: u16) -> Result<Event, AllocError> {
    let pick = Pick {
        qid,
        n: 1,
        fresh: false,
    };
    let seen = Listed::of(alloc, &[])?;
    Ok(Event::Pick { seen, pick })
}

// The Fetch of an entry of zeros.
fn fetched(region: u8, index: u32) -> Event {
    Event::Fetch {
        region,
        index,
        entry: Sqe::default(),
    }
}

// Adds the events of queue 1: three commands are fetched and one is picked, and then it is deleted.
fn delete_queue(alloc: Global, log: &mut Vec<Event>) -> Result<(), AllocError> {
    for index in 0..3 {
        log.push(fetched(1, index))?;
    }
    log.push(picked(alloc, 1)?)?;
    log.push(picked(alloc, 0)?)?;
    log.push(Event::Closing { qid: 1, region: 1 })?;
    for index in 1..3 {
        log.push(Event::Abort { region: 1, index })?;
    }
    log.push(answered(1, 2, Status::ABORTED_BY_DELETION))?;
    log.push(answered(1, 0, Status::SUCCESS))?;
    log.push(answered(1, 1, Status::ABORTED_BY_DELETION))?;
    log.push(Event::ClosedSq { qid: 1, region: 1 })?;
    Ok(())
}

// Adds the events of queue 0 and, among them, those of queue 1.
fn add_events(alloc: Global, log: &mut Vec<Event>) -> Result<(), AllocError> {
    for index in 0..3 {
        log.push(fetched(0, index))?;
    }
    log.push(picked(alloc, 0)?)?;
    log.push(answered(0, 0, Status::SUCCESS))?;
    log.push(picked(alloc, 0)?)?;
    log.push(Event::OpenSq {
        qid: 1,
        region: 1,
        cqid: 1,
        class: Class::Urgent,
    })?;
    log.push(answered(0, 1, Status::SUCCESS))?;
    delete_queue(alloc, log)?;
    log.push(answered(0, 2, Status::SUCCESS))?;
    Ok(())
}

// The log of two queues of three commands each. The deletion of queue 1 aborts two of its commands.
fn log_of_deletion(alloc: Global) -> Result<Vec<Event>, AllocError> {
    let mut log = Vec::new(alloc);
    add_events(alloc, &mut log)?;
    Ok(log)
}

// Whether a log posts a completion for a place.
fn is_answered(log: &[Event], region: u8, index: u32) -> bool {
    for event in log {
        if let Event::Post {
            region: of,
            index: number,
            ..
        } = event
        {
            if *of == region && *number == index {
                return true;
            }
        }
    }
    false
}

// Whether no place of a log has two completions.
fn is_posted_once(log: &[Event]) -> bool {
    let [event, rest @ ..] = log else {
        return true;
    };
    if let Event::Post { region, index, .. } = event {
        if is_answered(rest, *region, *index) {
            return false;
        }
    }
    is_posted_once(rest)
}

// The completions that a log posts to a completion region.
fn posted_to(alloc: Global, log: &[Event], region: u8) -> Result<Vec<Cqe>, AllocError> {
    let mut cqes = Vec::new(alloc);
    for event in log {
        if let Event::Post { cq_region, cqe, .. } = event {
            if *cq_region == region {
                cqes.push(*cqe)?;
            }
        }
    }
    Ok(cqes)
}

// Adds what the hosts of two regions of each kind submitted and collected.
fn add_hosts(
    alloc: Global,
    log: &[Event],
    sent: &mut Vec<Sent>,
    collected: &mut Vec<Vec<Cqe>>,
) -> Result<(), AllocError> {
    for region in 0..2 {
        let script = vec![in alloc; Sqe::default(); 3]?;
        sent.push(Sent { script, count: 3 })?;
        collected.push(posted_to(alloc, log, region)?)?;
    }
    Ok(())
}

// What settling them leaves.
fn deletion(alloc: Global) -> Result<Settled, AllocError> {
    let log = log_of_deletion(alloc)?;
    let mut sent = Vec::new(alloc);
    let mut collected = Vec::new(alloc);
    let added = add_hosts(alloc, log.as_slice(), &mut sent, &mut collected);
    if added.is_err() || !is_posted_once(log.as_slice()) {
        return Err(AllocError);
    }
    Ok(Settled {
        log,
        sent,
        collected,
    })
}

#[test]
fn report_of_a_deletion(rt: HostRuntime) -> Result<(), Fail> {
    let settled = deletion(rt.alloc())?;
    let mut output = Vec::new(rt.alloc());
    assert_eq!(rt; report(&settled, Mode::Loaded, &mut output), Ok(()));
    assert_eq!(rt; output.as_slice(), DELETE_THREE_REPORT.as_bytes());
    Ok(())
}

#[test]
fn report_of_nothing(rt: HostRuntime) -> Result<(), Fail> {
    let alloc = rt.alloc();
    let settled = Settled {
        log: Vec::new(alloc),
        sent: vec![in alloc;
            Sent {
                script: Vec::new(alloc),
                count: 0
            },
        ]?,
        collected: vec![in alloc; Vec::new(alloc)]?,
    };
    let mut output = Vec::new(alloc);
    assert_eq!(rt; report(&settled, Mode::Live, &mut output), Ok(()));
    let text =
        "live\nsq 0 script 0 submitted 0 fetched 0 picked 0 aborted 0\ncq 0 collected 0\nend\n";
    assert_eq!(rt; output.as_slice(), text.as_bytes());
    Ok(())
}

// A report over a writer with room for `room` bytes, which then fails or answers 0. The first bytes of the report were
// written. The answer is whether that was all of it.
fn is_written(rt: &impl Abort, alloc: Global, settled: &Settled, room: usize, fails: bool) -> bool {
    let mut output = Takes {
        taken: Vec::new(alloc),
        room,
        fails,
    };
    let written = report(settled, Mode::Loaded, &mut output);
    assert_eq!(rt;
        Some(output.taken.as_slice()),
        DELETE_THREE_REPORT.as_bytes().get(..room)
    );
    written == Ok(())
}

#[test]
fn writer_takes_a_part(rt: HostRuntime) -> Result<(), Fail> {
    let settled = deletion(rt.alloc())?;
    let whole = DELETE_THREE_REPORT.len();
    for room in 0..whole {
        for fails in [true, false] {
            let all = is_written(&rt, rt.alloc(), &settled, room, fails);
            assert!(rt; !all, "with room for {room}");
        }
    }
    assert!(rt; is_written(&rt, rt.alloc(), &settled, whole, true));
    Ok(())
}

#[test]
fn writer_takes_one_byte_at_a_time(rt: HostRuntime) -> Result<(), Fail> {
    let settled = deletion(rt.alloc())?;
    let mut output = TakesOne {
        taken: Vec::new(rt.alloc()),
    };
    assert_eq!(rt; report(&settled, Mode::Loaded, &mut output), Ok(()));
    assert_eq!(rt; output.taken.as_slice(), DELETE_THREE_REPORT.as_bytes());
    Ok(())
}
