// Runs of the stored workloads, by their reports.
use crate::again::{report_again, run_again};
use crate::reports::*;
use crate::workloads::*;
use nvme_sim::{Mode, RunError};
use std::alloc::Global;
use std::process::Abort;
use std::sync::Wait;
use std::test::*;
use std::thread::Threads;

// A loaded run writes this report, with one worker, with two and with eight.
fn loads<R: Threads + Wait + Sync + Abort>(
    rt: &R,
    alloc: Global,
    text: &str,
    want: &str,
) -> Result<(), Fail> {
    for workers in [1, 2, 8] {
        let report = report_again(rt, alloc, text, Mode::Loaded, workers)?;
        assert_eq!(rt;
            report.as_slice(),
            want.as_bytes(),
            "with {workers} workers"
        );
    }
    Ok(())
}

#[test]
fn five_queues_weighted(rt: HostRuntime) -> Result<(), Fail> {
    loads(&rt, rt.alloc(), FIVE_QUEUES, FIVE_QUEUES_REPORT)
}

#[test]
fn empty_workload(rt: HostRuntime) -> Result<(), Fail> {
    loads(&rt, rt.alloc(), EMPTY, EMPTY_REPORT)
}

#[test]
fn delete_with_three_waiting(rt: HostRuntime) -> Result<(), Fail> {
    loads(&rt, rt.alloc(), DELETE_THREE, DELETE_THREE_REPORT)
}

// The same with these admin commands instead of the Delete.
fn loads_instead<R: Threads + Wait + Sync + Abort>(
    rt: &R,
    alloc: Global,
    commands: &str,
    want: &str,
) -> Result<(), Fail> {
    let text = changed(
        alloc,
        DELETE_THREE,
        &[("  { op = 0, cdw10 = 1 },\n", commands)],
    )?;
    loads(rt, alloc, text.as_str(), want)
}

#[test]
fn abort_one_of_three(rt: HostRuntime) -> Result<(), Fail> {
    let twice = "  { op = 8, cdw10 = 0x00010001 },\n  { op = 8, cdw10 = 0x00010001 },\n";
    loads_instead(&rt, rt.alloc(), twice, ABORT_ONE_REPORT)
}

#[test]
fn abort_finds_nothing(rt: HostRuntime) -> Result<(), Fail> {
    // Of the admin queue, of a queue that isn't open, of a command that was picked, and a fused one.
    let commands = "  { op = 8 },
  { op = 8, cdw10 = 9 },
  { op = 8, cdw10 = 1 },
  { op = 8, flags = 1, cdw10 = 0x00020001 },
";
    loads_instead(&rt, rt.alloc(), commands, ABORT_NONE_REPORT)
}

#[test]
fn delete_after_a_burst_of_two(rt: HostRuntime) -> Result<(), Fail> {
    let text = changed(
        rt.alloc(),
        DELETE_THREE,
        &[("arbitration = 0", "arbitration = 1")],
    )?;
    loads(&rt, rt.alloc(), text.as_str(), BURST_OF_TWO_REPORT)
}

#[test]
fn queue_created_anew(rt: HostRuntime) -> Result<(), Fail> {
    loads(&rt, rt.alloc(), CREATED_ANEW, CREATED_ANEW_REPORT)
}

#[test]
fn thousand_through_two_slots(rt: HostRuntime) -> Result<(), Fail> {
    let want = report_of_reads(rt.alloc(), "live", 1000)?;
    for workers in [1, 2, 8] {
        let report = report_again(&rt, rt.alloc(), THOUSAND, Mode::Live, workers)?;
        assert_eq!(rt;
            report.as_slice(),
            want.as_bytes(),
            "with {workers} workers"
        );
    }
    Ok(())
}

// A run of one queue with this many reads does them all.
fn reads_all<R: Threads + Wait + Sync + Abort>(
    rt: &R,
    alloc: Global,
    mode: Mode,
    count: u16,
) -> Result<(), Fail> {
    let name = match mode {
        Mode::Loaded => "loaded",
        Mode::Live => "live",
    };
    let text = reads_of_one_queue(alloc, count)?;
    let want = report_of_reads(alloc, name, count)?;
    let report = report_again(rt, alloc, text.as_str(), mode, 2)?;
    assert_eq!(rt;
        report.as_slice(),
        want.as_bytes(),
        "{name} with {count} reads"
    );
    Ok(())
}

#[test]
fn script_fits_the_ring(rt: HostRuntime) -> Result<(), Fail> {
    reads_all(&rt, rt.alloc(), Mode::Loaded, 7)?;
    reads_all(&rt, rt.alloc(), Mode::Live, 7)?;
    reads_all(&rt, rt.alloc(), Mode::Live, 8)?;
    let text = reads_of_one_queue(rt.alloc(), 8)?;
    let mut output = Vec::new(rt.alloc());
    let ran = run_again(&rt, rt.alloc(), text.as_str(), Mode::Loaded, 2, &mut output);
    assert_eq!(rt; ran, Err(RunError::TooLong(1)));
    assert!(rt; output.is_empty());
    Ok(())
}
