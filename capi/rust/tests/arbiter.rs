// SPDX-License-Identifier: MIT
//! The arbiter and the board: worked runs of the specification's rules, and what is refused.
use nvmearb::Priority::{Admin, High, Low, Medium, Urgent};
use nvmearb::{Arbiter, Board, Error, Mechanism, Pick, Priority, Seen, MAX_COUNT, MAX_QUEUES};

fn seen<const N: usize>(queues: [(u16, Priority, u16); N]) -> [Seen; N] {
    queues.map(|(qid, priority, count)| Seen { qid, priority, count })
}

fn pick((qid, n, fresh): (u16, u16, bool)) -> Pick {
    Pick { qid, n, fresh }
}

/// Lets an arbiter pick, and compares with the picks that are wanted. Picked commands wait no more.
fn plays(arbiter: &mut Arbiter, seen: &mut [Seen], want: &[(u16, u16, bool)]) {
    for want in want.iter().copied().map(pick) {
        assert_eq!(arbiter.peek(seen), Ok(Some(want)));
        assert_eq!(arbiter.pick(seen), Ok(Some(want)));
        seen.iter_mut().filter(|queue| queue.qid == want.qid).for_each(|queue| queue.count -= want.n);
    }
}

#[test]
fn round_robin_serves_all_in_turn() {
    let mut arbiter = Arbiter::new(Mechanism::RoundRobin, 0);
    let mut queues = seen([(0, Admin, 2), (1, High, 5), (2, Low, 0), (3, Medium, 1)]);
    let order = [0, 1, 3, 0, 1, 1, 1, 1].map(|qid| (qid, 1, false));
    plays(&mut arbiter, &mut queues, &order);
    assert_eq!(arbiter.pick(&queues), Ok(None));
    assert_eq!(arbiter.peek(&[]), Ok(None));
}

#[test]
fn weighted_rounds_and_urgent() {
    let mut arbiter = Arbiter::new(Mechanism::Weighted, 0x0301_0001);
    let mut queues = seen([(1, High, 5), (2, High, 5), (3, Medium, 5), (4, Low, 5), (5, Urgent, 0)]);
    plays(&mut arbiter, &mut queues, &[(1, 2, false), (2, 2, false)]);
    let mut other = arbiter.clone();
    let mut same = queues;
    plays(&mut other, &mut same, &[(3, 2, false), (4, 1, false), (1, 2, true)]);
    queues[4].count = 3;
    plays(&mut arbiter, &mut queues, &[(5, 2, false), (5, 1, false), (3, 2, false), (4, 1, false), (1, 2, true)]);
}

#[test]
fn settings_start_a_round() {
    let mut arbiter = Arbiter::new(Mechanism::Weighted, 0);
    let mut queues = seen([(1, High, 9), (2, High, 9)]);
    plays(&mut arbiter, &mut queues, &[(1, 1, false)]);
    arbiter.set(1);
    plays(&mut arbiter, &mut queues, &[(2, 1, false), (1, 1, true)]);
}

#[test]
fn arbiter_refuses_what_cannot_be_seen() {
    let mut arbiter = Arbiter::new(Mechanism::Weighted, 0);
    let bad = [
        [(1, High, 1), (1, High, 1)],
        [(2, High, 1), (1, High, 1)],
        [(0, High, 1), (1, High, 1)],
        [(1, Admin, 1), (2, High, 1)],
        [(1, High, 1), (65, High, 1)],
        [(1, High, MAX_COUNT + 1), (2, High, 1)],
    ];
    for queues in bad.map(seen) {
        assert_eq!(arbiter.peek(&queues), Err(Error::Argument));
        assert_eq!(arbiter.pick(&queues), Err(Error::Argument));
    }
    let many: Vec<Seen> =
        (0..=MAX_QUEUES as u16).map(|qid| seen([(qid, if qid == 0 { Admin } else { Low }, 1)])[0]).collect();
    assert_eq!(arbiter.pick(&many), Err(Error::Argument));
    assert_eq!(arbiter.pick(&many[..MAX_QUEUES]), Ok(Some(pick((0, 1, false)))));
}

#[test]
fn board_keeps_what_waits() {
    let mut board = Board::new(Mechanism::Weighted, 0x0301_0001);
    assert_eq!(board.open(0, Admin), Ok(()));
    for (qid, priority) in [(1, High), (2, High), (3, Medium), (4, Low)] {
        assert_eq!(board.open(qid, priority), Ok(()));
        assert_eq!(board.came_n(qid, 4), Ok(()));
        assert_eq!(board.came(qid), Ok(()));
    }
    let rounds =
        [(1, 2, false), (2, 2, false), (3, 2, false), (4, 1, false), (1, 2, true), (2, 2, false), (3, 2, false)];
    for want in rounds.map(pick) {
        assert_eq!(board.peek(), Some(want));
        assert_eq!(board.pick(), Some(want));
    }
    assert_eq!(board.came(0), Ok(()));
    assert_eq!(board.pick(), Some(pick((0, 1, false))));
    board.set(0);
    assert_eq!(board.clone().pick(), board.pick());
}

#[test]
fn limits_cut_picks() {
    let mut arbiter = Arbiter::new(Mechanism::Weighted, 0x0301_0003);
    let mut board = Board::new(Mechanism::Weighted, 0x0301_0003);
    let queues = seen([(1, High, 9), (2, Medium, 9)]);
    for queue in queues {
        assert_eq!((board.open(queue.qid, queue.priority), board.came_n(queue.qid, queue.count)), (Ok(()), Ok(())));
    }
    assert_eq!(arbiter.pick_up_to(&queues, 0), Err(Error::Argument));
    assert_eq!(board.pick_up_to(0), Err(Error::Argument));
    for want in [(1, 1, false), (1, 2, false)].map(pick) {
        assert_eq!(arbiter.pick_up_to(&queues, want.n), Ok(Some(want)));
        assert_eq!(board.pick_up_to(want.n), Ok(Some(want)));
    }
    assert_eq!(arbiter.pick_up_to(&queues, 9), Ok(Some(pick((1, 1, false))))); // the rest of its weight
    assert_eq!(arbiter.pick_up_to(&queues, 9), Ok(Some(pick((2, 2, false)))));
    assert_eq!(arbiter.pick_up_to(&[], 1), Ok(None));
    assert_eq!(board.close(1).and(board.close(2)).and(board.pick_up_to(1)), Ok(None));
}

#[test]
fn board_refuses() {
    let mut board = Board::new(Mechanism::RoundRobin, 0);
    for (qid, priority) in [(0, High), (1, Admin), (65, High)] {
        assert_eq!(board.open(qid, priority), Err(Error::Argument));
    }
    assert_eq!(board.open(1, High), Ok(()));
    assert_eq!(board.open(1, High), Err(Error::Argument));
    assert_eq!((board.came(2), board.came_n(2, 0), board.went(2)), refused());
    assert_eq!((board.went(1), board.pick(), board.peek()), (Err(Error::Argument), None, None));
    assert_eq!(board.came_n(1, MAX_COUNT + 1), Err(Error::Argument));
    assert_eq!(board.came_n(1, MAX_COUNT), Ok(()));
    assert_eq!((board.came(1), board.came_n(1, 1), board.close(2)), refused());
    assert_eq!((board.came_n(1, 0), board.went(1), board.came(1)), (Ok(()), Ok(()), Ok(())));
    assert_eq!(board.close(1), Ok(()));
    assert_eq!((board.close(1), board.pick()), (Err(Error::Argument), None));
}

fn refused() -> (Result<(), Error>, Result<(), Error>, Result<(), Error>) {
    (Err(Error::Argument), Err(Error::Argument), Err(Error::Argument))
}
