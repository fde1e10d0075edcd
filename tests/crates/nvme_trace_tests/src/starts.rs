// Traces that begin in the middle: their heads tell what the arbiter kept.
use nvme_trace::{Basis, check, check_all, check_by};
use std::alloc::Global;
use std::test::*;

// Burst 2, High 4, Medium 2, Low 1.
const SETTINGS: &str = "\"cdw11\":50397185";

const WEIGHTED: &str = "\"version\":1,\"mechanism\":\"weighted\"";

// Two queues of High, and one of each other level.
const SEEN: &str = "\"seen\":[[1,\"high\",3],[2,\"high\",5],[3,\"medium\",5],[4,\"low\",5]]";

// A trace of one pick of SEEN, as the profile judges it.
fn judged(alloc: Global, state: &str, pick: &str) -> Result<String, Fail> {
    let text = format!(in alloc; "{{{WEIGHTED},{SETTINGS}{state}}}\n{{{pick},{SEEN}}}\n")?;
    match check(alloc, text.as_bytes()) {
        Ok(checked) => Ok(checked.to_string(alloc)?),
        Err(error) => Ok(error.to_string(alloc)?),
    }
}

// As the specification alone judges it.
fn judged_by_rules(alloc: Global, state: &str, pick: &str) -> Result<String, Fail> {
    let text = format!(in alloc; "{{{WEIGHTED},{SETTINGS}{state}}}\n{{{pick},{SEEN}}}\n")?;
    match check_by(alloc, Basis::Specification, text.as_bytes()) {
        Ok(checked) => Ok(checked.to_string(alloc)?),
        Err(error) => Ok(error.to_string(alloc)?),
    }
}

// The states and the picks that follow: the next queue of its level, within what is left of its weight.
const FOLLOWING: [(&str, &str); 7] = [
    ("", "\"pick\":1,\"n\":2,\"fresh\":false"),
    (
        ",\"last\":{\"high\":1,\"medium\":3,\"low\":4},\"used\":{\"high\":2}",
        "\"pick\":2,\"n\":2,\"fresh\":false",
    ),
    (
        ",\"last\":{\"high\":1},\"used\":{\"high\":3}",
        "\"pick\":2,\"n\":1,\"fresh\":false",
    ),
    (
        ",\"last\":{\"high\":2},\"used\":{\"high\":4}",
        "\"pick\":3,\"n\":2,\"fresh\":false",
    ),
    (
        ",\"used\":{\"low\":1,\"medium\":2,\"high\":4},\"last\":{\"high\":2,\"medium\":3,\"low\":4}",
        "\"pick\":1,\"n\":2,\"fresh\":true",
    ),
    (
        ",\"last\":{\"high\":64},\"used\":{}",
        "\"pick\":1,\"n\":2,\"fresh\":true",
    ),
    (
        ",\"x_time\":5,\"last\":{\"admin\":0,\"urgent\":9}",
        "\"pick\":1,\"n\":2,\"fresh\":false",
    ),
];

#[test]
fn picks_follow_a_state(rt: HostRuntime) -> Result<(), Fail> {
    for (state, pick) in FOLLOWING {
        assert_eq!(rt;
            judged(rt.alloc(), state, pick)?.as_str(),
            "lawful: 1 pick",
            "at {state}"
        );
        assert_eq!(rt;
            judged_by_rules(rt.alloc(), state, pick)?.as_str(),
            "lawful: 1 pick",
            "at {state}"
        );
    }
    Ok(())
}

#[test]
fn picks_differ_after_a_state(rt: HostRuntime) -> Result<(), Fail> {
    let state = ",\"last\":{\"high\":1,\"medium\":3,\"low\":4},\"used\":{\"high\":3}";
    let told = judged(rt.alloc(), state, "\"pick\":2,\"n\":2,\"fresh\":false")?;
    assert!(rt;
        told.as_str().starts_with(
            "differs: line 2\npicked: q2 2\nexpected: q2 1\nwhy: case 3, the first level that is ready and has credit\nserved last: admin none, urgent none, high q1, medium q3, low q4\nused in the round: high 3 of 4, medium 0 of 2, low 0 of 1\nnumber: n is the least of burst 2, credit 1, waiting 5\n"
        ),
        "{told}"
    );
    let told = judged_by_rules(rt.alloc(), state, "\"pick\":2,\"n\":2")?;
    assert!(rt;
        told.as_str().starts_with(
            "unlawful: line 2\npicked: q2 2\nrule: no more commands of a level are picked in a round than its weight\nnumber: n is from 1 to the least of burst 2, waiting 5, weight left 1\n"
        ),
        "{told}"
    );
    Ok(())
}

// Whether queue 2 waited at the pick of queue 1 before the trace isn't told.
#[test]
fn nobody_is_told_to_wait(rt: HostRuntime) -> Result<(), Fail> {
    let state = ",\"last\":{\"high\":1},\"used\":{\"high\":3}";
    assert_eq!(rt;
        judged_by_rules(rt.alloc(), state, "\"pick\":1,\"n\":1")?.as_str(),
        "lawful: 1 pick"
    );
    Ok(())
}

// Round robin, burst 1.
const ROUND: &str = "{\"version\":1,\"mechanism\":\"round-robin\",\"cdw11\":0,\"last\":{\"all\":2}}
{\"pick\":5,\"n\":1,\"fresh\":false,\"seen\":[[0,\"admin\",1],[1,\"low\",1],[2,\"low\",1],[5,\"low\",1]]}
{\"pick\":0,\"n\":1,\"fresh\":false,\"seen\":[[0,\"admin\",1],[1,\"low\",1],[2,\"low\",1],[5,\"low\",1]]}
{\"pick\":2,\"n\":1,\"fresh\":false,\"seen\":[[0,\"admin\",1],[1,\"low\",1],[2,\"low\",1],[5,\"low\",1]]}
";

#[test]
fn all_picks_follow_a_state(rt: HostRuntime) -> Result<(), Fail> {
    let alloc = rt.alloc();
    let told = match check_all(alloc, ROUND.as_bytes()) {
        Ok(survey) => survey.to_string(alloc)?,
        Err(error) => error.to_string(alloc)?,
    };
    assert!(rt;
        told.as_str().starts_with(
            "differs: 1 of 3 picks\nanother queue: 1\n\ndiffers: line 4\npicked: q2 1\nexpected: q1 1\n"
        ),
        "{told}"
    );
    Ok(())
}

// New settings start a round, and who was served last is kept over them.
#[test]
fn settings_change_after_a_state(rt: HostRuntime) -> Result<(), Fail> {
    let alloc = rt.alloc();
    let text = format!(in alloc;
        "{{{WEIGHTED},{SETTINGS},\"last\":{{\"high\":1}},\"used\":{{\"high\":4}}}}\n{{\"set\":50397185}}\n{{\"pick\":2,\"n\":2,\"fresh\":false,{SEEN}}}\n"
    )?;
    let told = match check(alloc, text.as_bytes()) {
        Ok(checked) => checked.to_string(alloc)?,
        Err(error) => error.to_string(alloc)?,
    };
    assert_eq!(rt; told.as_str(), "lawful: 1 pick");
    Ok(())
}
