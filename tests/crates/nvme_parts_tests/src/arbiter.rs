// The worked examples, played on an arbiter and on a board.

use nvme_arbiter::{
    Arbiter, Board, Class, HIGHEST_COUNT, HIGHEST_QID, Mechanism, Pick, Seen, Settings,
    is_observation,
};
use std::process::Abort;

// A queue as it is seen.
fn queue(qid: u16, class: Class, count: u16) -> Seen {
    Seen { qid, class, count }
}

// A pick within a round.
fn pick(qid: u16, n: u16) -> Option<Pick> {
    Some(Pick {
        qid,
        n,
        fresh: false,
    })
}

// A pick that begins a round.
fn fresh(qid: u16, n: u16) -> Option<Pick> {
    Some(Pick {
        qid,
        n,
        fresh: true,
    })
}

// The next pick, which `peek` foretells. The count of its queue falls by the commands taken.
fn play(rt: &impl Abort, arbiter: &mut Arbiter, seen: &mut [Seen]) -> Option<Pick> {
    assert!(rt; is_observation(seen));
    let peeked = arbiter.peek(seen);
    let picked = arbiter.pick(seen);
    assert_eq!(rt; peeked, picked);
    if let Some(pick) = picked {
        for queue in seen.iter_mut() {
            if queue.qid == pick.qid {
                queue.count = queue.count.saturating_sub(pick.n);
            }
        }
    }
    picked
}

// The next picks are these.
fn expect(rt: &impl Abort, arbiter: &mut Arbiter, seen: &mut [Seen], picks: &[Option<Pick>]) {
    for picked in picks {
        assert_eq!(rt; play(rt, arbiter, seen), *picked);
    }
}

#[test]
fn round_robin_four_queues(rt: HostRuntime) {
    let mut arbiter = Arbiter::new(Mechanism::RoundRobin, Settings::from_cdw11(0));
    let mut seen = [
        queue(0, Class::Admin, 2),
        queue(1, Class::High, 5),
        queue(2, Class::Low, 0),
        queue(3, Class::Medium, 1),
    ];
    for &qid in &[0, 1, 3, 0, 1, 1, 1, 1] {
        expect(&rt, &mut arbiter, &mut seen, &[pick(qid, 1)]);
    }
    expect(&rt, &mut arbiter, &mut seen, &[None]);
}

#[test]
fn no_burst_limit(rt: HostRuntime) {
    let settings = Settings::from_cdw11(7);
    let mut seen = [queue(1, Class::High, 255)];
    let mut arbiter = Arbiter::new(Mechanism::RoundRobin, settings);
    expect(&rt, &mut arbiter, &mut seen, &[pick(1, 255)]);
    let mut seen = [queue(1, Class::High, 255)];
    let mut arbiter = Arbiter::new(Mechanism::Weighted, settings);
    expect(&rt, &mut arbiter, &mut seen, &[pick(1, 1)]);
    for _ in 0..254 {
        expect(&rt, &mut arbiter, &mut seen, &[fresh(1, 1)]);
    }
    expect(&rt, &mut arbiter, &mut seen, &[None]);
    let settings = Settings::from_cdw11(0xffff_ffff);
    assert_eq!(rt; settings.to_cdw11(), 0xffff_ff07);
    assert_eq!(rt; settings.burst(), None);
    for level in [Class::High, Class::Medium, Class::Low] {
        assert!(rt; level != Class::Admin && level != Class::Urgent);
        assert_eq!(rt; settings.weight(level), 256);
    }
}

// The queues of the two rounds: burst 2, weights 4, 2 and 1.
fn two_rounds() -> [Seen; 4] {
    [
        queue(1, Class::High, 5),
        queue(2, Class::High, 5),
        queue(3, Class::Medium, 5),
        queue(4, Class::Low, 5),
    ]
}

// The picks of the two rounds, and of all that is left.
fn two_rounds_picks() -> [Option<Pick>; 15] {
    [
        pick(1, 2),
        pick(2, 2),
        pick(3, 2),
        pick(4, 1),
        fresh(1, 2),
        pick(2, 2),
        pick(3, 2),
        pick(4, 1),
        fresh(1, 1),
        pick(2, 1),
        pick(3, 1),
        pick(4, 1),
        fresh(4, 1),
        fresh(4, 1),
        None,
    ]
}

#[test]
fn weighted_two_rounds(rt: HostRuntime) {
    let mut arbiter = Arbiter::new(Mechanism::Weighted, Settings::from_cdw11(0x0301_0001));
    let mut seen = two_rounds();
    expect(&rt, &mut arbiter, &mut seen, &two_rounds_picks());
}

#[test]
fn urgent_cuts_in(rt: HostRuntime) {
    let mut arbiter = Arbiter::new(Mechanism::Weighted, Settings::from_cdw11(0x0301_0001));
    let mut seen = two_rounds();
    expect(&rt, &mut arbiter, &mut seen, &[pick(1, 2), pick(2, 2)]);
    let [q1, q2, q3, q4] = seen;
    let mut seen = [q1, q2, q3, q4, queue(5, Class::Urgent, 3)];
    let picks = [pick(5, 2), pick(5, 1), pick(3, 2), pick(4, 1), fresh(1, 2)];
    expect(&rt, &mut arbiter, &mut seen, &picks);
}

#[test]
fn new_settings_start_a_round(rt: HostRuntime) {
    let settings = Settings::from_cdw11(0x0301_0001);
    let mut arbiter = Arbiter::new(Mechanism::Weighted, settings);
    let mut seen = two_rounds();
    expect(&rt, &mut arbiter, &mut seen, &[pick(1, 2), pick(2, 2)]);
    arbiter.set(settings);
    let picks = [pick(1, 2), pick(2, 2), pick(3, 2)];
    expect(&rt, &mut arbiter, &mut seen, &picks);
}

// A class of an I/O queue.
fn io_class(n: u32) -> Class {
    match n % 4 {
        0 => Class::Urgent,
        1 => Class::High,
        2 => Class::Medium,
        _ => Class::Low,
    }
}

// Opens a queue where none is open: queue 0 as the admin queue, any other in a class of I/O queues.
fn open(board: &mut Board, qid: u16, class: u32) {
    if qid <= HIGHEST_QID && board.queue(qid).is_none() {
        if qid == 0 {
            board.open(0, Class::Admin);
        } else {
            board.open(qid, io_class(class));
        }
    }
}

// Counts one more waiting command, where the queue is open and has room.
fn came(board: &mut Board, qid: u16) {
    if let Some(queue) = board.queue(qid) {
        if queue.count < HIGHEST_COUNT {
            board.came(qid);
        }
    }
}

// Counts `n` more waiting commands, where the queue is open and has room for them. Answers whether it is so.
fn came_n(board: &mut Board, qid: u16, n: u16) -> bool {
    match board.queue(qid) {
        Some(queue) if n <= HIGHEST_COUNT - queue.count => {
            board.came_n(qid, n);
            true
        }
        _ => false,
    }
}

// Closes a queue, where it is open.
fn close(board: &mut Board, qid: u16) {
    if board.queue(qid).is_some() {
        board.close(qid);
    }
}

// A board on which these queues are open, each with its number of commands.
fn board_of(rt: &impl Abort, mechanism: Mechanism, cdw11: u32, queues: &[Seen]) -> Board {
    let mut board = Board::new(mechanism, Settings::from_cdw11(cdw11));
    add(rt, &mut board, queues);
    assert_eq!(rt; board.seen().as_slice(), queues);
    board
}

// Opens these queues, and counts their commands.
fn add(rt: &impl Abort, board: &mut Board, queues: &[Seen]) {
    for queue in queues {
        let class = match queue.class {
            Class::Admin | Class::Urgent => 0,
            Class::High => 1,
            Class::Medium => 2,
            Class::Low => 3,
        };
        open(board, queue.qid, class);
        for _ in 0..queue.count {
            came(board, queue.qid);
        }
        assert!(rt; board.queue(queue.qid).is_some());
    }
}

// The next pick of a board, which is also that of an arbiter that is shown the same queues.
fn step(rt: &impl Abort, board: &mut Board, arbiter: &mut Arbiter) -> Option<Pick> {
    let seen = board.seen();
    let peeked = board.peek();
    let picked = board.pick();
    assert_eq!(rt; peeked, picked);
    let peeked = arbiter.peek(seen.as_slice());
    assert_eq!(rt; peeked, picked);
    if let Some(pick) = peeked {
        arbiter.keep(seen.as_slice(), pick);
    }
    picked
}

// The next pick of a board, peeked and then kept.
fn keep(board: &mut Board) -> Option<Pick> {
    let pick = board.peek()?;
    board.keep(pick);
    Some(pick)
}

// The next picks of a board, and of the arbiter beside it, are these.
fn expect_on(rt: &impl Abort, board: &mut Board, arbiter: &mut Arbiter, picks: &[Option<Pick>]) {
    for picked in picks {
        assert_eq!(rt; step(rt, board, arbiter), *picked);
    }
}

#[test]
fn board_replays_round_robin(rt: HostRuntime) {
    let mut arbiter = Arbiter::new(Mechanism::RoundRobin, Settings::from_cdw11(0));
    let queues = [
        queue(0, Class::Admin, 2),
        queue(1, Class::High, 5),
        queue(2, Class::Low, 0),
        queue(3, Class::Medium, 1),
    ];
    let mut board = board_of(&rt, Mechanism::RoundRobin, 0, &queues);
    for &qid in &[0, 1, 3, 0, 1, 1, 1, 1] {
        expect_on(&rt, &mut board, &mut arbiter, &[pick(qid, 1)]);
    }
    expect_on(&rt, &mut board, &mut arbiter, &[None]);
}

#[test]
fn board_replays_two_rounds(rt: HostRuntime) {
    let mut arbiter = Arbiter::new(Mechanism::Weighted, Settings::from_cdw11(0x0301_0001));
    let mut board = board_of(&rt, Mechanism::Weighted, 0x0301_0001, &two_rounds());
    expect_on(&rt, &mut board, &mut arbiter, &two_rounds_picks());
    assert!(rt; board.seen().iter().all(|queue| queue.count == 0));
}

#[test]
fn board_keeps_what_it_peeked(rt: HostRuntime) {
    let mut board = board_of(&rt, Mechanism::Weighted, 0x0301_0001, &two_rounds());
    for &picked in &two_rounds_picks() {
        assert_eq!(rt; keep(&mut board), picked);
    }
    assert!(rt; board.seen().iter().all(|queue| queue.count == 0));
}

#[test]
fn board_replays_urgent(rt: HostRuntime) {
    let settings = Settings::from_cdw11(0x0301_0001);
    let mut arbiter = Arbiter::new(Mechanism::Weighted, settings);
    let mut board = board_of(&rt, Mechanism::Weighted, 0x0301_0001, &two_rounds());
    expect_on(&rt, &mut board, &mut arbiter, &[pick(1, 2), pick(2, 2)]);
    add(&rt, &mut board, &[queue(5, Class::Urgent, 3)]);
    let picks = [pick(5, 2), pick(5, 1), pick(3, 2), pick(4, 1), fresh(1, 2)];
    expect_on(&rt, &mut board, &mut arbiter, &picks);
    board.set(settings);
    arbiter.set(settings);
    expect_on(&rt, &mut board, &mut arbiter, &[pick(2, 2)]);
}

#[test]
fn low_is_bounded(rt: HostRuntime) {
    let mut arbiter = Arbiter::new(Mechanism::Weighted, Settings::from_cdw11(0x0301_0001));
    let mut board = board_of(&rt, Mechanism::Weighted, 0x0301_0001, &two_rounds());
    let mut before: u32 = 0;
    for _ in 0..15 {
        match step(&rt, &mut board, &mut arbiter) {
            Some(pick) if pick.qid < 4 => before = before.saturating_add(u32::from(pick.n)),
            _ => break,
        }
    }
    assert_eq!(rt; before, 6);
    assert!(rt; before <= 2 * (4 + 2));
}

#[test]
fn several_commands_come(rt: HostRuntime) {
    let queues = [queue(1, Class::High, 2), queue(64, Class::Low, 0)];
    let mut board = board_of(&rt, Mechanism::RoundRobin, 7, &queues);
    assert!(rt; came_n(&mut board, 1, 254) && came_n(&mut board, 64, 3));
    assert!(rt; came_n(&mut board, 1, 0) && !came_n(&mut board, 1, 1));
    assert!(rt; !came_n(&mut board, 64, 254) && !came_n(&mut board, 2, 0));
    let seen = [queue(1, Class::High, 256), queue(64, Class::Low, 3)];
    assert_eq!(rt; board.seen().as_slice(), seen.as_slice());
    assert_eq!(rt; board.pick(), pick(1, 256));
    assert_eq!(rt; board.pick(), pick(64, 3));
    assert_eq!(rt; board.pick(), None);
}

// A small generator of numbers.
#[derive(Drop)]
struct Numbers(u32);

impl Numbers {
    // The next number of a linear congruential generator, by its upper bits.
    fn next(&mut self) -> u32 {
        self.0 = self.0.wrapping_mul(1_664_525).wrapping_add(1_013_904_223);
        self.0 >> 12
    }

    // The identifier of a queue.
    fn qid(&mut self) -> u16 {
        (self.next() % 65) as u16
    }
}

// Opens, closes, changes and picks at random, on a board and on an arbiter.
fn play_at_random(rt: &impl Abort, mechanism: Mechanism, numbers: &mut Numbers) {
    let settings = Settings::from_cdw11(numbers.next());
    let mut board = Board::new(mechanism, settings);
    let mut arbiter = Arbiter::new(mechanism, settings);
    for _ in 0..2000 {
        let qid = numbers.qid();
        match numbers.next() % 16 {
            0 | 1 => {
                let class = numbers.next();
                open(&mut board, qid, class);
            }
            2 => close(&mut board, qid),
            3 => {
                let settings = Settings::from_cdw11(numbers.next() % 0x400);
                board.set(settings);
                arbiter.set(settings);
            }
            4..=8 => {
                let _ = step(rt, &mut board, &mut arbiter);
            }
            _ => came(&mut board, qid),
        }
    }
}

#[test]
fn board_and_arbiter_agree(rt: HostRuntime) {
    let mut numbers = Numbers(1);
    play_at_random(&rt, Mechanism::RoundRobin, &mut numbers);
    play_at_random(&rt, Mechanism::Weighted, &mut numbers);
}

// A board on which each queue is open and has two commands.
fn full_board() -> Board {
    let mut board = Board::new(Mechanism::RoundRobin, Settings::from_cdw11(0));
    for qid in 0..=HIGHEST_QID {
        open(&mut board, qid, u32::from(qid));
        came(&mut board, qid);
        came(&mut board, qid);
    }
    board
}

#[test]
fn sixty_five_queues(rt: HostRuntime) {
    let mut board = full_board();
    for qid in 0..=64 {
        assert_eq!(rt; board.pick(), pick(qid, 1));
    }
    assert_eq!(rt; board.pick(), pick(0, 1));
}
