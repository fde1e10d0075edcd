// Writers and readers that fail, and the refusals of a run in their order.
use crate::again::{page, run_again, taken, told_again};
use crate::fakes::{Endless, Fails, FailsAt, Takes, TakesOne};
use crate::reports::EMPTY_REPORT;
use crate::workloads::{EMPTY, THOUSAND};
use nvme_front::FrontError;
use nvme_sim::{InputError, Mode, RunError};
use nvme_workload::{Key, WorkloadError};
use std::alloc::{AllocError, Global};
use std::io::Read;
use std::process::Abort;
use std::sync::Wait;
use std::test::*;
use std::thread::Threads;

#[test]
fn writer_and_reader_fail(rt: HostRuntime) -> Result<(), Fail> {
    let taken_of_run = page(rt.alloc())?;
    let mut writer = Takes {
        taken: taken_of_run,
        room: 10,
        fails: true,
    };
    let ran = run_again(&rt, rt.alloc(), EMPTY, Mode::Loaded, 2, &mut writer);
    assert_eq!(rt; ran, Err(RunError::Write));
    assert_eq!(rt; writer.taken.as_slice(), b"loaded\nsq ".as_slice());
    let abc = taken(rt.alloc(), b"abc".as_slice())?;
    assert_eq!(rt; abc.as_slice(), b"abc".as_slice());
    assert_eq!(rt; taken(rt.alloc(), Endless).err(), Some(InputError::TooLong));
    assert_eq!(rt; taken(rt.alloc(), Fails).err(), Some(InputError::Read));
    Ok(())
}

// A run over a writer with room for `room` bytes, which then fails or answers 0, ends as wanted. The first bytes of its
// report were written.
fn run_into<R: Threads + Wait + Sync + Abort>(
    rt: &R,
    alloc: Global,
    room: usize,
    fails: bool,
    want: Result<(), RunError>,
) -> Result<(), Fail> {
    let mut writer = Takes {
        taken: page(alloc)?,
        room,
        fails,
    };
    let ran = run_again(rt, alloc, EMPTY, Mode::Loaded, 2, &mut writer);
    assert_eq!(rt; ran, want, "with room for {room}");
    assert_eq!(rt;
        Some(writer.taken.as_slice()),
        EMPTY_REPORT.as_bytes().get(..room)
    );
    Ok(())
}

#[test]
fn writer_takes_a_part(rt: HostRuntime) -> Result<(), Fail> {
    for room in 0..83 {
        run_into(&rt, rt.alloc(), room, true, Err(RunError::Write))?;
    }
    run_into(&rt, rt.alloc(), 83, true, Ok(()))?;
    run_into(&rt, rt.alloc(), 0, false, Err(RunError::Write))
}

#[test]
fn writer_takes_one_byte_at_a_time(rt: HostRuntime) -> Result<(), Fail> {
    let mut writer = TakesOne {
        taken: page(rt.alloc())?,
    };
    let ran = run_again(&rt, rt.alloc(), EMPTY, Mode::Loaded, 2, &mut writer);
    assert_eq!(rt; ran, Ok(()));
    assert_eq!(rt; writer.taken.as_slice(), EMPTY_REPORT.as_bytes());
    Ok(())
}

const LOADED: [&str; 4] = ["nvmearb", "loaded", "--workers", "2"];

// The program with this input, and an output with room for a number of bytes, ends with this status and this line.
fn run_fails<I: Read + Copy + Drop, R: Threads + Wait + Sync + Abort>(
    rt: &R,
    alloc: Global,
    input: I,
    room: usize,
    status: u8,
    fault: &str,
) -> Result<(), Fail> {
    let mut output = Takes {
        taken: page(alloc)?,
        room,
        fails: true,
    };
    let (ended, errors) = told_again(rt, alloc, &LOADED, input, &mut output)?;
    assert_eq!(rt; errors.as_slice(), fault.as_bytes());
    assert_eq!(rt; (ended, output.taken.len()), (status, room), "{fault}");
    Ok(())
}

#[test]
fn streams_of_a_run_fail(rt: HostRuntime) -> Result<(), Fail> {
    run_fails(
        &rt,
        rt.alloc(),
        EMPTY.as_bytes(),
        10,
        3,
        "nvmearb: write failed\n",
    )?;
    run_fails(&rt, rt.alloc(), Fails, 0, 3, "nvmearb: read failed\n")?;
    run_fails(&rt, rt.alloc(), Endless, 0, 1, "nvmearb: input too long\n")
}

// A run is refused with this error, and nothing is written.
fn is_refused<R: Threads + Wait + Sync + Abort>(
    rt: &R,
    alloc: Global,
    text: &str,
    workers: u8,
    error: RunError,
) {
    let mut output = Vec::new(alloc);
    let ran = run_again(rt, alloc, text, Mode::Loaded, workers, &mut output);
    assert_eq!(rt; ran, Err(error));
    assert!(rt; output.is_empty());
}

#[test]
fn refusals_in_order(rt: HostRuntime) -> Result<(), Fail> {
    let missing = WorkloadError::Missing(Key::Mechanism);
    is_refused(&rt, rt.alloc(), "", 0, RunError::Workers);
    is_refused(&rt, rt.alloc(), EMPTY, 9, RunError::Workers);
    is_refused(&rt, rt.alloc(), "", 8, RunError::Workload(missing));
    is_refused(&rt, rt.alloc(), THOUSAND, 0, RunError::Workers);
    is_refused(&rt, rt.alloc(), THOUSAND, 1, RunError::TooLong(1));
    Ok(())
}

// The text of a refusal, made again where memory was refused.
fn words_of(alloc: Global, error: RunError) -> Result<String, AllocError> {
    if let Ok(words) = format!(in alloc; "{error}") {
        return Ok(words);
    }
    format!(in alloc; "{error}")
}

#[test]
fn words_of_refusals(rt: HostRuntime) -> Result<(), Fail> {
    let limit = RunError::Workload(WorkloadError::Limit);
    let repeated = RunError::Workload(WorkloadError::Repeated);
    let all = [
        (RunError::Workers, "workers"),
        (limit, "workload: W6 over a limit"),
        (repeated, "workload: W7 repeated address"),
        (RunError::TooLong(16), "script too long for ring 16"),
        (RunError::NoMemory, "out of memory"),
        (RunError::Front(FrontError::LogFull), "front"),
        (RunError::GaveUp, "gave up"),
        (RunError::Write, "write failed"),
    ];
    for (error, words) in all {
        assert_eq!(rt; words_of(rt.alloc(), error)?.as_str(), words);
    }
    Ok(())
}

// The words that read a trace.
const READERS: [&[&str]; 4] = [
    &["nvmearb", "check"],
    &["nvmearb", "chart", "-"],
    &["nvmearb", "stats"],
    &["nvmearb", "stats", "-", "--format", "json"],
];

// Weighted, burst 2, High 4, Medium 2, Low 1; then burst 4, High 3, Medium 1, Low 2.
const CHANGED: &str = "{\"version\":1,\"mechanism\":\"weighted\",\"cdw11\":50397185}
{\"pick\":0,\"n\":1,\"fresh\":false,\"seen\":[[0,\"admin\",1],[1,\"high\",5],[4,\"low\",5]]}
{\"pick\":1,\"n\":2,\"fresh\":false,\"seen\":[[0,\"admin\",0],[1,\"high\",5],[4,\"low\",5]]}
{\"set\":33554690}
{\"pick\":1,\"n\":3,\"fresh\":false,\"seen\":[[0,\"admin\",0],[1,\"high\",3],[4,\"low\",5]]}
";

#[test]
fn streams_of_a_trace_fail(rt: HostRuntime) -> Result<(), Fail> {
    let alloc = rt.alloc();
    for words in READERS {
        let reader = FailsAt {
            text: CHANGED.as_bytes(),
            reads: 0,
            fails_at: 12,
        };
        let mut output = page(alloc)?;
        let (status, errors) = told_again(&rt, alloc, words, reader, &mut output)?;
        assert_eq!(rt; errors.as_slice(), b"nvmearb: read failed\n".as_slice());
        assert_eq!(rt; (output.len(), status), (0, 3));
        let mut output = Takes {
            taken: page(alloc)?,
            room: 3,
            fails: true,
        };
        let (status, errors) = told_again(&rt, alloc, words, CHANGED.as_bytes(), &mut output)?;
        assert_eq!(rt; errors.as_slice(), b"nvmearb: write failed\n".as_slice());
        assert_eq!(rt; (output.taken.len(), status), (3, 3));
    }
    Ok(())
}
