// Worked traces.
use nvme_arbiter::{Class, Mechanism, Pick, Settings};
use nvme_trace::{Basis, Checked, Finding, Head, Judge, TraceEvent, check, check_all, check_by};
use std::alloc::Global;
use std::test::*;

/// Weighted, burst 2, High 4, Medium 2, Low 1; then burst 4, High 3, Medium 1, Low 2.
pub const CHANGED: &str = "{\"version\":1,\"mechanism\":\"weighted\",\"cdw11\":50397185}
{\"pick\":0,\"n\":1,\"fresh\":false,\"seen\":[[0,\"admin\",1],[1,\"high\",5],[4,\"low\",5]]}
{\"pick\":1,\"n\":2,\"fresh\":false,\"seen\":[[0,\"admin\",0],[1,\"high\",5],[4,\"low\",5]]}
{\"set\":33554690}
{\"pick\":1,\"n\":3,\"fresh\":false,\"seen\":[[0,\"admin\",0],[1,\"high\",3],[4,\"low\",5]]}
";

// The first pick after the change takes from the credit that the pick before it left.
const OLD_CREDIT: &str = "{\"version\":1,\"mechanism\":\"weighted\",\"cdw11\":50397185}
{\"pick\":1,\"n\":2,\"fresh\":false,\"seen\":[[1,\"high\",5]]}
{\"set\":33554690}
{\"pick\":1,\"n\":1,\"fresh\":false,\"seen\":[[1,\"high\",3]]}
";

// A round starts, and the pick doesn't say so.
const NOT_FRESH: &str = "{\"version\":1,\"mechanism\":\"weighted\",\"cdw11\":0}
{\"pick\":4,\"n\":1,\"fresh\":false,\"seen\":[[4,\"low\",5]]}
{\"pick\":4,\"n\":1,\"fresh\":false,\"seen\":[[4,\"low\",4]]}
";

// The text of a check's answer.
fn answer(alloc: Global, text: &str) -> Result<String, Fail> {
    let checked = match check(alloc, text.as_bytes()) {
        Ok(checked) => checked,
        Err(error) => return Ok(error.to_string(alloc)?),
    };
    Ok(checked.to_string(alloc)?)
}

// The text of the answer of a check by the specification.
fn answer_by_rules(alloc: Global, text: &str) -> Result<String, Fail> {
    let checked = match check_by(alloc, Basis::Specification, text.as_bytes()) {
        Ok(checked) => checked,
        Err(error) => return Ok(error.to_string(alloc)?),
    };
    Ok(checked.to_string(alloc)?)
}

#[test]
fn lawful_texts(rt: HostRuntime) -> Result<(), Fail> {
    let alloc = rt.alloc();
    let head = "{\"version\":1,\"mechanism\":\"round-robin\",\"cdw11\":0}";
    let spaced = " { \"cdw11\" : 0 , \"version\" : 1 , \"mechanism\" : \"round-robin\" } \r\n";
    assert_eq!(rt; answer(alloc, CHANGED)?.as_str(), "lawful: 3 picks");
    assert_eq!(rt; answer(alloc, head)?.as_str(), "lawful: 0 picks");
    assert_eq!(rt; answer(alloc, spaced)?.as_str(), "lawful: 0 picks");
    Ok(())
}

#[test]
fn texts_that_differ(rt: HostRuntime) -> Result<(), Fail> {
    let alloc = rt.alloc();
    let sixth =
        "{\"pick\":1,\"n\":2,\"fresh\":false,\"seen\":[[0,\"admin\",0],[1,\"high\",2],[4,\"low\",5]]}";
    let text = format!(in alloc; "{CHANGED}{sixth}")?;
    assert_eq!(rt;
        answer(alloc, text.as_str())?.as_str(),
        "differs: line 6\npicked: q1 2\nexpected: q4 2\nwhy: case 3, the first level that is ready and has credit\nserved last: admin q0, urgent none, high q1, medium none, low none\nused in the round: high 3 of 3, medium 0 of 1, low 0 of 2\nnumber: n is the least of burst 4, credit 2, waiting 5\nsettings: burst 4, high 3, medium 1, low 2\nline: {\"pick\":1,\"n\":2,\"fresh\":false,\"seen\":[[0,\"admin\",0],[1,\"high\",2],[4,\"low\",5]]}"
    );
    assert_eq!(rt;
        answer(alloc, OLD_CREDIT)?.as_str(),
        "differs: line 4\npicked: q1 1\nexpected: q1 3\nwhy: case 3, the first level that is ready and has credit\nserved last: admin none, urgent none, high q1, medium none, low none\nused in the round: high 0 of 3, medium 0 of 1, low 0 of 2\nnumber: n is the least of burst 4, credit 3, waiting 3\nsettings: burst 4, high 3, medium 1, low 2\nline: {\"pick\":1,\"n\":1,\"fresh\":false,\"seen\":[[1,\"high\",3]]}"
    );
    assert_eq!(rt;
        answer(alloc, NOT_FRESH)?.as_str(),
        "differs: line 3\npicked: q4 1\nexpected: q4 1 fresh\nfresh: yes: no ready level has credit left, so a round starts\nwhy: case 4, no ready level has credit, so a round starts\nserved last: admin none, urgent none, high none, medium none, low q4\nused in the round: high 0 of 1, medium 0 of 1, low 1 of 1\nnumber: n is the least of burst 1, credit 1, waiting 4\nsettings: burst 1, high 1, medium 1, low 1\nline: {\"pick\":4,\"n\":1,\"fresh\":false,\"seen\":[[4,\"low\",4]]}"
    );
    Ok(())
}

#[test]
fn cases(rt: HostRuntime) -> Result<(), Fail> {
    let alloc = rt.alloc();
    let head = "{\"version\":1,\"mechanism\":\"weighted\",\"cdw11\":0}";
    for (seen, lawful, number) in [
        (
            "[[0,\"admin\",3],[1,\"urgent\",1]]",
            "expected: q0 1\nwhy: case 1, the admin queue is ready",
            "\nnumber: n is 1, one command of the admin queue",
        ),
        (
            "[[1,\"urgent\",1],[2,\"high\",9]]",
            "expected: q1 1\nwhy: case 2, an urgent queue is ready",
            "\nnumber: n is the least of burst 1, waiting 1",
        ),
        (
            "[[1,\"urgent\",0]]",
            "expected: none\nwhy: nothing is ready",
            "",
        ),
        ("[]", "expected: none\nwhy: nothing is ready", ""),
    ] {
        let line = format!(in alloc; "{{\"pick\":9,\"n\":1,\"fresh\":true,\"seen\":{seen}}}")?;
        let text = format!(in alloc; "{head}\n{line}\n")?;
        let want = format!(in alloc;
            "differs: line 2\npicked: q9 1 fresh\n{lawful}\nserved last: admin none, urgent none, high none, medium none, low none\nused in the round: high 0 of 1, medium 0 of 1, low 0 of 1{number}\nsettings: burst 1, high 1, medium 1, low 1\nline: {line}"
        )?;
        assert_eq!(rt; answer(alloc, text.as_str())?.as_str(), want.as_str());
    }
    Ok(())
}

#[test]
fn numbers_under_round_robin(rt: HostRuntime) -> Result<(), Fail> {
    let alloc = rt.alloc();
    for (cdw11, number, settings) in [
        (0, "1\nwhy", "burst 1, waiting 7\nsettings: burst 1"),
        (2, "4\nwhy", "burst 4, waiting 7\nsettings: burst 4"),
        (7, "7\nwhy", "waiting 7\nsettings: no burst limit"),
    ] {
        let line = "{\"pick\":2,\"n\":1,\"fresh\":false,\"seen\":[[1,\"low\",7],[2,\"low\",1]]}";
        let text = format!(in alloc;
            "{{\"version\":1,\"mechanism\":\"round-robin\",\"cdw11\":{cdw11}}}\n{line}\n"
        )?;
        let want = format!(in alloc;
            "differs: line 2\npicked: q2 1\nexpected: q1 {number}: round robin, the next ready queue after the latest pick\nserved last: of all none\nnumber: n is the least of {settings}\nline: {line}"
        )?;
        assert_eq!(rt; answer(alloc, text.as_str())?.as_str(), want.as_str());
    }
    Ok(())
}

// Burst 2, High 4, Medium 2, Low 1. The second pick takes one command too few, and all after it are judged from there on:
// the third is right, the fourth is of a queue that has no turn, and takes more than its level has, the fifth starts a
// round without need, and at the last nothing is ready.
const SOME_DIFFER: &str = "{\"version\":1,\"mechanism\":\"weighted\",\"cdw11\":50397185}
{\"pick\":1,\"n\":2,\"fresh\":false,\"seen\":[[1,\"high\",9],[4,\"low\",5]]}
{\"pick\":1,\"n\":1,\"fresh\":false,\"seen\":[[1,\"high\",7],[4,\"low\",5]]}
{\"pick\":1,\"n\":1,\"fresh\":false,\"seen\":[[1,\"high\",6],[4,\"low\",5]]}
{\"pick\":9,\"n\":65535,\"fresh\":false,\"seen\":[[1,\"high\",5],[4,\"low\",5]]}
{\"pick\":4,\"n\":1,\"fresh\":true,\"seen\":[[1,\"high\",5],[4,\"low\",5]]}

{\"pick\":4,\"n\":65535,\"fresh\":false,\"seen\":[[4,\"low\",0]]}
";

// The text of a survey.
fn survey(alloc: Global, text: &str) -> Result<String, Fail> {
    match check_all(alloc, text.as_bytes()) {
        Ok(survey) => Ok(survey.to_string(alloc)?),
        Err(error) => Ok(error.to_string(alloc)?),
    }
}

#[test]
fn all_that_differ(rt: HostRuntime) -> Result<(), Fail> {
    let alloc = rt.alloc();
    let told = survey(alloc, SOME_DIFFER)?;
    assert!(rt;
        told.as_str().starts_with(
            "differs: 4 of 6 picks\nnothing is ready: 1\nanother queue: 1\nanother number: 1\nfresh or not: 1\n\ndiffers: line 3\npicked: q1 1\nexpected: q1 2\n"
        )
    );
    for part in [
        "\n\ndiffers: line 5\npicked: q9 65535\nexpected: q4 1\n",
        "\n\ndiffers: line 6\npicked: q4 1 fresh\nexpected: q4 1\nfresh: no: the level has credit left, so the round goes on\nwhy: case 3, ",
        "\n\ndiffers: line 8\npicked: q4 65535\nexpected: none\nwhy: nothing is ready\n",
        "line: {\"pick\":4,\"n\":65535,\"fresh\":false,\"seen\":[[4,\"low\",0]]}",
    ] {
        assert!(rt; told.as_str().contains(part), "no {part} in {told}");
    }
    assert_eq!(rt; survey(alloc, CHANGED)?.as_str(), "differs: 0 of 3 picks");
    let faulty = format!(in alloc; "{SOME_DIFFER}{{\"pick\":1}}")?;
    assert_eq!(rt;
        survey(alloc, faulty.as_str())?.as_str(),
        "trace: line 9: missing n: wanted a whole number from 0 to 65535"
    );
    Ok(())
}

#[test]
fn ten_are_told(rt: HostRuntime) -> Result<(), Fail> {
    let alloc = rt.alloc();
    let mut text = String::new(alloc);
    text.push_str("{\"version\":1,\"mechanism\":\"round-robin\",\"cdw11\":0}\n")?;
    for _ in 0..25 {
        text.push_str("{\"pick\":1,\"n\":2,\"fresh\":false,\"seen\":[[1,\"low\",9]]}\n")?;
    }
    let told = survey(alloc, text.as_str())?;
    assert!(rt;
        told.as_str()
            .starts_with("differs: 25 of 25 picks\nanother number: 25\n")
    );
    for line in 2..12 {
        let head = format!(in alloc; "\n\ndiffers: line {line}\n")?;
        assert!(rt;
            told.as_str().contains(head.as_str()),
            "no {head} in {told}"
        );
    }
    assert!(rt; !told.as_str().contains("differs: line 12"));
    Ok(())
}

// Burst 2, High 4, Medium 2, Low 1. The first round, and one after a change of the settings, begins by itself, so that a
// pick may say that it starts it.
const FRESH_AT_FIRST: &str = "{\"version\":1,\"mechanism\":\"weighted\",\"cdw11\":50397185}
{\"pick\":0,\"n\":1,\"fresh\":true,\"seen\":[[0,\"admin\",1],[1,\"high\",5],[4,\"low\",5]]}
{\"pick\":1,\"n\":2,\"fresh\":true,\"seen\":[[0,\"admin\",0],[1,\"high\",5],[4,\"low\",5]]}
{\"set\":33554690}
{\"pick\":1,\"n\":3,\"fresh\":true,\"seen\":[[0,\"admin\",0],[1,\"high\",3],[4,\"low\",5]]}
";

#[test]
fn first_rounds_begin_by_themselves(rt: HostRuntime) -> Result<(), Fail> {
    let alloc = rt.alloc();
    assert_eq!(rt; answer(alloc, FRESH_AT_FIRST)?.as_str(), "lawful: 3 picks");
    assert_eq!(rt;
        survey(alloc, FRESH_AT_FIRST)?.as_str(),
        "differs: 0 of 3 picks"
    );
    assert_eq!(rt;
        answer_by_rules(alloc, FRESH_AT_FIRST)?.as_str(),
        "lawful: 3 picks"
    );
    for (pick, picked, reason) in [
        (
            "{\"pick\":4,\"n\":2,\"fresh\":true,\"seen\":[[4,\"low\",5]]}",
            "q4 2 fresh\nexpected: q4 2",
            "no: the level has credit left, so the round goes on",
        ),
        (
            "{\"pick\":1,\"n\":3,\"fresh\":false,\"seen\":[[1,\"high\",3]]}",
            "q1 3\nexpected: q1 3 fresh",
            "yes: no ready level has credit left, so a round starts",
        ),
        (
            "{\"pick\":0,\"n\":1,\"fresh\":true,\"seen\":[[0,\"admin\",1]]}",
            "q0 1 fresh\nexpected: q0 1",
            "no: no pick of the admin queue or of an urgent one starts a round",
        ),
    ] {
        let text = format!(in alloc; "{FRESH_AT_FIRST}{pick}\n")?;
        let want = format!(in alloc; "differs: line 6\npicked: {picked}\nfresh: {reason}\nwhy: ")?;
        let told = answer(alloc, text.as_str())?;
        assert!(rt; told.as_str().starts_with(want.as_str()), "{told}");
    }
    Ok(())
}

#[test]
fn round_robin_has_no_rounds(rt: HostRuntime) -> Result<(), Fail> {
    let alloc = rt.alloc();
    let text =
        "{\"version\":1,\"mechanism\":\"round-robin\",\"cdw11\":0}\n{\"pick\":1,\"n\":1,\"fresh\":true,\"seen\":[[1,\"low\",7]]}\n";
    let told = answer(alloc, text)?;
    assert!(rt;
        told.as_str().starts_with(
            "differs: line 2\npicked: q1 1 fresh\nexpected: q1 1\nfresh: no: round robin has no rounds\nwhy: "
        ),
        "{told}"
    );
    Ok(())
}

// Burst 2, High 4, Medium 2, Low 1: the levels in turn, a command at a time, and without the field `fresh`. The profile
// would take two commands of High.
const IN_TURN: &str = "{\"version\":1,\"mechanism\":\"weighted\",\"cdw11\":50397185}
{\"pick\":1,\"n\":1,\"seen\":[[1,\"high\",5],[4,\"low\",5]]}
{\"pick\":4,\"n\":1,\"seen\":[[1,\"high\",4],[4,\"low\",5]]}
{\"pick\":1,\"n\":2,\"fresh\":true,\"seen\":[[1,\"high\",4],[4,\"low\",4]]}
";

#[test]
fn texts_by_rules(rt: HostRuntime) -> Result<(), Fail> {
    let alloc = rt.alloc();
    assert_eq!(rt;
        answer_by_rules(alloc, CHANGED)?.as_str(),
        "lawful: 3 picks"
    );
    assert_eq!(rt;
        answer_by_rules(alloc, NOT_FRESH)?.as_str(),
        "lawful: 2 picks"
    );
    assert_eq!(rt;
        answer_by_rules(alloc, IN_TURN)?.as_str(),
        "lawful: 3 picks"
    );
    assert_eq!(rt;
        answer(alloc, IN_TURN)?.as_str(),
        "trace: line 2: missing fresh: wanted true or false; with --spec it may be left out"
    );
    for (last, picked, rule, number) in [
        (
            "{\"pick\":4,\"n\":1,\"seen\":[[1,\"high\",2],[4,\"low\",4]]}",
            "q4 1",
            "no more commands of a level are picked in a round than its weight",
            "\nnumber: nothing, since its level has no weight left",
        ),
        (
            "{\"pick\":1,\"n\":3,\"seen\":[[1,\"high\",9]]}",
            "q1 3",
            "a pick takes no more commands than the Arbitration Burst",
            "\nnumber: n is from 1 to the least of burst 2, waiting 9, weight left 1",
        ),
        (
            "{\"pick\":1,\"n\":1,\"fresh\":true,\"seen\":[[1,\"high\",0]]}",
            "q1 1 fresh",
            "a pick takes at least one command, and only such as wait in its queue",
            "\nnumber: nothing, since nothing waits in q1",
        ),
        (
            "{\"pick\":2,\"n\":1,\"seen\":[[1,\"high\",0]]}",
            "q2 1",
            "a pick takes at least one command, and only such as wait in its queue",
            "\nnumber: nothing, since q2 isn't seen",
        ),
        (
            "{\"pick\":1,\"n\":1,\"seen\":[[0,\"admin\",1],[1,\"high\",1]]}",
            "q1 1",
            "no queue of a higher strict priority class is ready: admin, then urgent, then the weighted levels",
            "",
        ),
    ] {
        let text = format!(in alloc; "{IN_TURN}{last}\n")?;
        let want = format!(in alloc;
            "unlawful: line 5\npicked: {picked}\nrule: {rule}{number}\nsettings: burst 2, high 4, medium 2, low 1\nline: {last}"
        )?;
        assert_eq!(rt;
            answer_by_rules(alloc, text.as_str())?.as_str(),
            want.as_str()
        );
    }
    Ok(())
}

#[test]
fn turns_by_rules(rt: HostRuntime) -> Result<(), Fail> {
    let alloc = rt.alloc();
    let text =
        "{\"version\":1,\"mechanism\":\"round-robin\",\"cdw11\":0}\n{\"pick\":2,\"n\":1,\"seen\":[[1,\"low\",1],[2,\"low\",2]]}\n{\"pick\":2,\"n\":1,\"seen\":[[1,\"low\",1],[2,\"low\",1]]}\n";
    assert_eq!(rt;
        answer_by_rules(alloc, text)?.as_str(),
        "unlawful: line 3\npicked: q2 1\nrule: no queue is picked twice while another of its class or level, or of all under round robin, is ready throughout\nsettings: burst 1\nline: {\"pick\":2,\"n\":1,\"seen\":[[1,\"low\",1],[2,\"low\",1]]}"
    );
    Ok(())
}

// The traces of these tests go on from the changed settings: burst 4, High 3, Medium 1, Low 2. High is used up, so the next
// pick is of the low q4, and takes the least of burst 4, credit 2, what waits and the room that the line tells.
#[test]
fn picks_within_a_room(rt: HostRuntime) -> Result<(), Fail> {
    let alloc = rt.alloc();
    for (lines, picks) in [
        (
            "{\"pick\":4,\"n\":1,\"room\":1,\"fresh\":false,\"seen\":[[0,\"admin\",0],[1,\"high\",2],[4,\"low\",5]]}",
            4,
        ),
        (
            "{\"pick\":4,\"n\":2,\"room\":2,\"fresh\":false,\"seen\":[[0,\"admin\",0],[1,\"high\",2],[4,\"low\",5]]}",
            4,
        ),
        (
            "{\"pick\":4,\"n\":2,\"room\":65535,\"fresh\":false,\"seen\":[[0,\"admin\",0],[1,\"high\",2],[4,\"low\",5]]}",
            4,
        ),
        // What there was no room for stays of the credit.
        (
            "{\"pick\":4,\"n\":1,\"room\":1,\"fresh\":false,\"seen\":[[0,\"admin\",0],[1,\"high\",2],[4,\"low\",5]]}\n{\"pick\":4,\"n\":1,\"fresh\":false,\"seen\":[[0,\"admin\",0],[1,\"high\",2],[4,\"low\",4]]}",
            5,
        ),
    ] {
        let text = format!(in alloc; "{CHANGED}{lines}\n")?;
        let lawful = format!(in alloc; "lawful: {picks} picks")?;
        let told = format!(in alloc; "differs: 0 of {picks} picks")?;
        assert_eq!(rt;
            answer(alloc, text.as_str())?.as_str(),
            lawful.as_str(),
            "at {lines}"
        );
        assert_eq!(rt;
            survey(alloc, text.as_str())?.as_str(),
            told.as_str(),
            "at {lines}"
        );
        assert_eq!(rt;
            answer_by_rules(alloc, text.as_str())?.as_str(),
            lawful.as_str(),
            "at {lines}"
        );
    }
    Ok(())
}

#[test]
fn picks_beside_a_room(rt: HostRuntime) -> Result<(), Fail> {
    let alloc = rt.alloc();
    for (line, picked, expected, least) in [
        // too few without a room
        (
            "{\"pick\":4,\"n\":1,\"fresh\":false,\"seen\":[[0,\"admin\",0],[1,\"high\",2],[4,\"low\",5]]}",
            1,
            2,
            "burst 4, credit 2, waiting 5",
        ),
        // fewer than there is room for
        (
            "{\"pick\":4,\"n\":1,\"room\":3,\"fresh\":false,\"seen\":[[0,\"admin\",0],[1,\"high\",2],[4,\"low\",5]]}",
            1,
            2,
            "burst 4, credit 2, room 3, waiting 5",
        ),
        // more than there is room for
        (
            "{\"pick\":4,\"n\":2,\"room\":1,\"fresh\":false,\"seen\":[[0,\"admin\",0],[1,\"high\",2],[4,\"low\",5]]}",
            2,
            1,
            "burst 4, credit 2, room 1, waiting 5",
        ),
        // as many as there is room for, and more than the credit
        (
            "{\"pick\":4,\"n\":3,\"room\":3,\"fresh\":false,\"seen\":[[0,\"admin\",0],[1,\"high\",2],[4,\"low\",5]]}",
            3,
            2,
            "burst 4, credit 2, room 3, waiting 5",
        ),
    ] {
        let text = format!(in alloc; "{CHANGED}{line}\n")?;
        let want = format!(in alloc;
            "differs: line 6\npicked: q4 {picked}\nexpected: q4 {expected}\nwhy: case 3, the first level that is ready and has credit\nserved last: admin q0, urgent none, high q1, medium none, low none\nused in the round: high 3 of 3, medium 0 of 1, low 0 of 2\nnumber: n is the least of {least}\nsettings: burst 4, high 3, medium 1, low 2\nline: {line}"
        )?;
        let told = format!(in alloc; "differs: 1 of 4 picks\nanother number: 1\n\n{want}")?;
        assert_eq!(rt; answer(alloc, text.as_str())?.as_str(), want.as_str());
        assert_eq!(rt; survey(alloc, text.as_str())?.as_str(), told.as_str());
    }
    Ok(())
}

// The specification knows no room, so that a pick may take more or fewer. The line is read, and its faults told.
#[test]
fn rooms_by_rules(rt: HostRuntime) -> Result<(), Fail> {
    let alloc = rt.alloc();
    for (line, told) in [
        (
            "{\"pick\":4,\"n\":1,\"room\":3,\"fresh\":false,\"seen\":[[0,\"admin\",0],[1,\"high\",2],[4,\"low\",5]]}",
            "lawful: 4 picks",
        ),
        (
            "{\"pick\":4,\"n\":2,\"room\":1,\"seen\":[[4,\"low\",5]]}",
            "lawful: 4 picks",
        ),
        (
            "{\"pick\":4,\"n\":1,\"room\":0,\"seen\":[[4,\"low\",5]]}",
            "trace: line 6: bad room: found 0, wanted a whole number from 1 to 65535; without a limit leave it out",
        ),
        (
            "{\"pick\":4,\"n\":3,\"room\":3,\"seen\":[[4,\"low\",5]]}",
            "unlawful: line 6\npicked: q4 3\nrule: no more commands of a level are picked in a round than its weight\nnumber: n is from 1 to the least of burst 4, waiting 5, weight left 2\nsettings: burst 4, high 3, medium 1, low 2\nline: {\"pick\":4,\"n\":3,\"room\":3,\"seen\":[[4,\"low\",5]]}",
        ),
    ] {
        let text = format!(in alloc; "{CHANGED}{line}\n")?;
        assert_eq!(rt;
            answer_by_rules(alloc, text.as_str())?.as_str(),
            told,
            "at {line}"
        );
    }
    Ok(())
}

#[test]
fn rooms_under_round_robin(rt: HostRuntime) -> Result<(), Fail> {
    let alloc = rt.alloc();
    for (cdw11, least) in [
        (2, "burst 4, room 3, waiting 7\nsettings: burst 4"),
        (7, "room 3, waiting 7\nsettings: no burst limit"),
    ] {
        let head = format!(in alloc;
            "{{\"version\":1,\"mechanism\":\"round-robin\",\"cdw11\":{cdw11}}}\n"
        )?;
        let rest = "\"room\":3,\"fresh\":false,\"seen\":[[1,\"low\",7]]}";
        let lawful = format!(in alloc; "{head}{{\"pick\":1,\"n\":3,{rest}")?;
        let few = format!(in alloc; "{head}{{\"pick\":1,\"n\":2,{rest}")?;
        let want = format!(in alloc;
            "differs: line 2\npicked: q1 2\nexpected: q1 3\nwhy: round robin, the next ready queue after the latest pick\nserved last: of all none\nnumber: n is the least of {least}\nline: {{\"pick\":1,\"n\":2,{rest}"
        )?;
        assert_eq!(rt; answer(alloc, lawful.as_str())?.as_str(), "lawful: 1 pick");
        assert_eq!(rt; answer(alloc, few.as_str())?.as_str(), want.as_str());
    }
    Ok(())
}

// Within a room, too, a pick may say that it starts the first round.
#[test]
fn first_rounds_begin_by_themselves_within_a_room(rt: HostRuntime) -> Result<(), Fail> {
    let alloc = rt.alloc();
    let head = "{\"version\":1,\"mechanism\":\"weighted\",\"cdw11\":50397185}";
    for fresh in ["true", "false"] {
        let text = format!(in alloc;
            "{head}\n{{\"pick\":1,\"n\":1,\"room\":1,\"fresh\":{fresh},\"seen\":[[1,\"high\",5]]}}\n"
        )?;
        assert_eq!(rt; answer(alloc, text.as_str())?.as_str(), "lawful: 1 pick");
    }
    Ok(())
}
