// A judge of whole controllers, over a small log.
use nvme_audit::{Breach, Completion, Event, Judge, Rule, Start, Tells, Verdict};
use nvme_entry::{AdminCommand, Status};
use std::test::Fail;

const START: Start = Start {
    tells: Tells {
        tails: true,
        heads: true,
        posts: true,
    },
    asqs: 3,
    acqs: 3,
};

fn fetch(sq: u16, slot: u16, cid: u16, command: AdminCommand) -> Event {
    Event::Fetch {
        sq,
        slot: Some(slot),
        cid,
        command,
    }
}

fn post(cq: u16, slot: u16, sq: u16, cid: u16, sqhd: u16) -> Event {
    let completion = Completion {
        sq,
        cid,
        sqhd: Some(sqhd),
        phase: Some(true),
        status: Status::SUCCESS,
        dw0: None,
    };
    Event::Post {
        cq,
        slot: Some(slot),
        completion,
    }
}

// Makes completion queue 1 of 2 slots and submission queue 1 of 3, and fetches commands 7 and 8 of it.
fn opening() -> [Event; 11] {
    let cq = AdminCommand::CreateCq {
        qid: 1,
        qsize: 1,
        prp1: 0,
        pc: true,
    };
    let sq = AdminCommand::CreateSq {
        qid: 1,
        qsize: 2,
        prp1: 0,
        cqid: 1,
        qprio: 0,
        pc: true,
    };
    [
        Event::Tail { sq: 0, slot: 1 },
        fetch(0, 0, 10, cq),
        post(0, 0, 0, 10, 1),
        Event::Head { cq: 0, slot: 1 },
        Event::Tail { sq: 0, slot: 2 },
        fetch(0, 1, 11, sq),
        post(0, 1, 0, 11, 2),
        Event::Head { cq: 0, slot: 2 },
        Event::Tail { sq: 1, slot: 2 },
        fetch(1, 0, 7, AdminCommand::Other),
        fetch(1, 1, 8, AdminCommand::Other),
    ]
}

#[test]
fn each_event_is_judged(rt: HostRuntime) -> Result<(), Fail> {
    let mut judge = Judge::new(rt.alloc(), START);
    for event in &opening() {
        assert_eq!(rt; judge.judge(event)?, Verdict::Kept);
    }
    let other = judge.judge(&post(1, 0, 1, 9, 2))?;
    assert_eq!(rt; other, Verdict::Broken(Rule::Life));
    let own = judge.judge(&post(1, 0, 1, 8, 2))?;
    assert_eq!(rt; own, Verdict::Kept);
    let full = judge.judge(&post(1, 1, 1, 7, 2))?;
    assert_eq!(rt; full, Verdict::Broken(Rule::CqFull));
    let beyond = judge.judge(&Event::Head { cq: 1, slot: 2 })?;
    assert_eq!(rt; beyond, Verdict::Host(Breach::HeadRange));
    let after = judge.judge(&post(1, 0, 1, 9, 0))?;
    assert_eq!(rt; after, Verdict::Kept);
    Ok(())
}

#[test]
fn run_ends_at_the_first_broken_rule(rt: HostRuntime) -> Result<(), Fail> {
    let mut judge = Judge::new(rt.alloc(), START);
    assert_eq!(rt; judge.judge_run(&opening())?, None);
    let answers = [post(1, 0, 1, 8, 2), post(1, 1, 1, 8, 2)];
    let twice = judge.judge_run(&answers)?;
    assert_eq!(rt; twice, Some((1, Rule::CqFull)));
    let released = [Event::Head { cq: 1, slot: 1 }, post(1, 1, 1, 8, 2)];
    let twice = judge.judge_run(&released)?;
    assert_eq!(rt; twice, Some((1, Rule::Life)));
    Ok(())
}

#[test]
fn statuses_are_judged(rt: HostRuntime) -> Result<(), Fail> {
    let mut judge = Judge::new(rt.alloc(), START);
    assert_eq!(rt; judge.judge_run(&opening())?, None);
    let deletion = [
        Event::Tail { sq: 0, slot: 3 },
        fetch(0, 2, 12, AdminCommand::DeleteCq { qid: 1 }),
        post(0, 2, 0, 12, 3),
    ];
    let in_use = judge.judge_run(&deletion)?;
    assert_eq!(rt; in_use, Some((2, Rule::StatusDelete)));
    Ok(())
}
