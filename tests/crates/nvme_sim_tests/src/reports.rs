// The reports that runs of the worked workloads must write.
pub use nvme_texts::DELETE_THREE_REPORT;
use std::alloc::{AllocError, Global};

/// The report of five queues under weighted round robin.
pub const FIVE_QUEUES_REPORT: &str = "loaded
pick q0 1
pick q0 1
pick q0 1
pick q0 1
pick q0 1
pick q1 2
pick q2 2
pick q3 2
pick q4 1
pick q1 2 fresh
pick q2 2
pick q3 2
pick q4 1
pick q1 1 fresh
pick q2 1
pick q3 1
pick q4 1
pick q4 1 fresh
pick q4 1 fresh
sq 0 script 5 submitted 5 fetched 5 picked 5 aborted 0
sq 1 script 5 submitted 5 fetched 5 picked 5 aborted 0
sq 2 script 5 submitted 5 fetched 5 picked 5 aborted 0
sq 3 script 5 submitted 5 fetched 5 picked 5 aborted 0
sq 4 script 5 submitted 5 fetched 5 picked 5 aborted 0
cq 0 collected 5
cq 1 collected 20
cmd 0.0 0/00 00000000
cmd 0.1 0/00 00000000
cmd 0.2 0/00 00000000
cmd 0.3 0/00 00000000
cmd 0.4 0/00 00000000
cmd 1.0 0/00 00000000
cmd 1.1 0/00 00000000
cmd 1.2 0/00 00000000
cmd 1.3 0/00 00000000
cmd 1.4 0/00 00000000
cmd 2.0 0/00 00000000
cmd 2.1 0/00 00000000
cmd 2.2 0/00 00000000
cmd 2.3 0/00 00000000
cmd 2.4 0/00 00000000
cmd 3.0 0/00 00000000
cmd 3.1 0/00 00000000
cmd 3.2 0/00 00000000
cmd 3.3 0/00 00000000
cmd 3.4 0/00 00000000
cmd 4.0 0/00 00000000
cmd 4.1 0/00 00000000
cmd 4.2 0/00 00000000
cmd 4.3 0/00 00000000
cmd 4.4 0/80 00000000
end
";

/// The report of the admin queue alone.
pub const EMPTY_REPORT: &str = "loaded
sq 0 script 0 submitted 0 fetched 0 picked 0 aborted 0
cq 0 collected 0
end
";

/// The same with a burst of two.
pub const BURST_OF_TWO_REPORT: &str = "loaded
pick q0 1
pick q0 1
pick q1 2
pick q0 1
sq 0 script 3 submitted 3 fetched 3 picked 3 aborted 0
sq 1 script 3 submitted 3 fetched 3 picked 2 aborted 1
cq 0 collected 3
cq 1 collected 3
cmd 0.0 0/00 00000000
cmd 0.1 0/00 00000000
cmd 0.2 0/00 00000000
cmd 1.0 0/00 00000000
cmd 1.1 0/00 00000000
cmd 1.2 0/08 00000000
end
";

/// The report of a queue that is deleted and created again.
pub const CREATED_ANEW_REPORT: &str = "loaded
pick q0 1
pick q0 1
pick q1 1
pick q0 1
pick q0 1
pick q1 1
pick q1 1
sq 0 script 4 submitted 4 fetched 4 picked 4 aborted 0
sq 1 script 3 submitted 3 fetched 3 picked 1 aborted 2
sq 2 script 2 submitted 2 fetched 2 picked 2 aborted 0
cq 0 collected 4
cq 1 collected 5
cmd 0.0 0/00 00000000
cmd 0.1 0/00 00000000
cmd 0.2 0/00 00000000
cmd 0.3 0/00 00000000
cmd 1.0 0/00 00000000
cmd 1.1 0/08 00000000
cmd 1.2 0/08 00000000
cmd 2.0 0/00 00000000
cmd 2.1 0/00 00000000
end
";

/// The report of three commands of which an Abort takes the second.
pub const ABORT_ONE_REPORT: &str = "loaded
pick q0 1
pick q0 1
pick q1 1
pick q0 1
pick q1 1
pick q0 1
sq 0 script 4 submitted 4 fetched 4 picked 4 aborted 0
sq 1 script 3 submitted 3 fetched 3 picked 2 aborted 1
cq 0 collected 4
cq 1 collected 3
cmd 0.0 0/00 00000000
cmd 0.1 0/00 00000000
cmd 0.2 0/00 00000000
cmd 0.3 0/00 00000001
cmd 1.0 0/00 00000000
cmd 1.1 0/07 00000000
cmd 1.2 0/00 00000000
end
";

/// The report of Aborts that find nothing.
pub const ABORT_NONE_REPORT: &str = "loaded
pick q0 1
pick q0 1
pick q1 1
pick q0 1
pick q1 1
pick q0 1
pick q1 1
pick q0 1
pick q0 1
sq 0 script 6 submitted 6 fetched 6 picked 6 aborted 0
sq 1 script 3 submitted 3 fetched 3 picked 3 aborted 0
cq 0 collected 6
cq 1 collected 3
cmd 0.0 0/00 00000000
cmd 0.1 0/00 00000000
cmd 0.2 0/00 00000001
cmd 0.3 0/00 00000001
cmd 0.4 0/00 00000001
cmd 0.5 0/02 00000000
cmd 1.0 0/00 00000000
cmd 1.1 0/00 00000000
cmd 1.2 0/00 00000000
end
";

// Appends a line `count` times.
fn push_lines(text: &mut String, line: &str, count: u16) -> Result<(), AllocError> {
    for _ in 0..count {
        text.push_str(line)?;
    }
    Ok(())
}

// Appends the lines of the first `count` commands of a region, each with success.
fn push_done(text: &mut String, alloc: Global, region: u8, count: u16) -> Result<(), AllocError> {
    for index in 0..count {
        let line = format!(in alloc; "cmd {region}.{index} 0/00 00000000\n")?;
        text.push_str(line.as_str())?;
    }
    Ok(())
}

// The lines that count the commands and the completions of two queues.
fn counts_of(alloc: Global, count: u16) -> Result<String, AllocError> {
    format!(in alloc;
        "sq 0 script 2 submitted 2 fetched 2 picked 2 aborted 0
sq 1 script {count} submitted {count} fetched {count} picked {count} aborted 0
cq 0 collected 2
cq 1 collected {count}
"
    )
}

// The report of `count` reads of queue 1, each picked by itself and done.
fn of_reads(alloc: Global, mode: &str, count: u16) -> Result<String, AllocError> {
    let mut text = String::from_str(alloc, mode)?;
    text.push_str("\n")?;
    push_lines(&mut text, "pick q0 1\n", 2)?;
    push_lines(&mut text, "pick q1 1\n", count)?;
    text.push_str(counts_of(alloc, count)?.as_str())?;
    push_done(&mut text, alloc, 0, 2)?;
    push_done(&mut text, alloc, 1, count)?;
    text.push_str("end\n")?;
    Ok(text)
}

/// The same, made again where memory was refused.
pub fn report_of_reads(alloc: Global, mode: &str, count: u16) -> Result<String, AllocError> {
    if let Ok(text) = of_reads(alloc, mode, count) {
        return Ok(text);
    }
    of_reads(alloc, mode, count)
}
