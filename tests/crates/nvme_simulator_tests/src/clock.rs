// Expected words and times are those of a second reading in Python of the published generators and of von Neumann's
// method. The bounds of the statistics are four standard errors around what an exponential time of this mean has.
use nvme_clock::{
    EventQueue, Purpose, PushFault, Quantiles, TableFault, TwoPoints, duration_in, exponential,
    stream, uniform,
};
use rand_core::Rng;
use std::test::Fail;

#[test]
fn streams_have_their_words(rt: HostRuntime) {
    for (queue, purpose, first, second) in [
        (
            0,
            Purpose::Arrivals,
            1021219803524665661,
            3174977118032272916,
        ),
        (
            0,
            Purpose::Services,
            17670575670617547464,
            7642216521307084040,
        ),
        (
            1,
            Purpose::Arrivals,
            215316657740975168,
            2213038965468257198,
        ),
        (3, Purpose::Sizes, 61589385597497669, 12474770762443865613),
    ] {
        let mut rng = stream(7, queue, purpose);
        assert_eq!(rt; rng.next_u64(), first);
        assert_eq!(rt; rng.next_u64(), second);
    }
}

#[test]
fn first_draws(rt: HostRuntime) {
    let mut rng = stream(7, 0, Purpose::Arrivals);
    for time in [5536, 146570, 32983, 7328, 17196, 11308] {
        assert_eq!(rt; exponential(&mut rng, 100_000), time);
    }
    let mut rng = stream(7, 0, Purpose::Arrivals);
    for number in [5, 2, 2, 0, 4, 3, 0, 0] {
        assert_eq!(rt; uniform(&mut rng, 6), number);
    }
}

#[test]
fn exponential_times_spread_as_they_should(rt: HostRuntime) {
    let mut rng = stream(7, 0, Purpose::Arrivals);
    let mut sum = 0u64;
    let mut squares = 0u64;
    let mut below_median = 0u64;
    let mut below_90 = 0u64;
    let mut below_99 = 0u64;
    for _ in 0..100_000 {
        let time = exponential(&mut rng, 100_000);
        sum = sum.saturating_add(time);
        squares = squares.saturating_add(time.saturating_mul(time));
        below_median = below_median.saturating_add(u64::from(time < 69_315));
        below_90 = below_90.saturating_add(u64::from(time < 230_259));
        below_99 = below_99.saturating_add(u64::from(time < 460_517));
    }
    assert!(rt; 9_873_508_894 <= sum && sum <= 10_126_491_106);
    assert!(rt; 1_943_431_457_505_077 <= squares && squares <= 2_056_568_542_494_923);
    assert!(rt; 49_368 <= below_median && below_median <= 50_632);
    assert!(rt; 89_621 <= below_90 && below_90 <= 90_379);
    assert!(rt; 98_875 <= below_99 && below_99 <= 99_125);
}

#[test]
fn other_draws(rt: HostRuntime) -> Result<(), Fail> {
    let mut rng = stream(7, 0, Purpose::Offsets);
    let points = TwoPoints {
        usual: 80,
        rare: 2000,
        times: 5,
        out_of: 100,
    };
    let time = points.draw(&mut rng);
    assert!(rt; time == 80 || time == 2000);
    let table = Quantiles::new(vec![in rt.alloc(); 10, 20, 40]?)?;
    let time = table.draw(&mut rng);
    assert!(rt; 10 <= time && time <= 40);
    let falls = Quantiles::new(vec![in rt.alloc(); 10, 20, 19]?);
    assert!(rt; matches!(falls, Err(TableFault::Falls { at: 2 })));
    Ok(())
}

#[test]
fn events_come_in_order(rt: HostRuntime) -> Result<(), Fail> {
    let mut queue = EventQueue::new(rt.alloc());
    queue.push(5, 'a')?;
    queue.push(3, 'b')?;
    queue.push(5, 'c')?;
    for (at, what) in [(3, 'b'), (5, 'a'), (5, 'c')] {
        let Some(event) = queue.pop() else {
            return Err(Fail::new("no event"));
        };
        assert_eq!(rt; event.at, at);
        assert_eq!(rt; event.what, what);
    }
    assert!(rt; matches!(queue.push(4, 'd'), Err(PushFault::Past)));
    assert_eq!(rt; queue.time(), 5);
    Ok(())
}

#[test]
fn faults_read_well(rt: HostRuntime) -> Result<(), Fail> {
    for (text, fault) in [
        (
            "80",
            "expected a number and a unit of ps, ns, us, ms or s, as in 80us or 1.5ms",
        ),
        ("1.us", "expected digits, or digits, a point and digits"),
        ("0.5ps", "expected no part of a picosecond"),
        (
            "300days",
            "expected a number and a unit of ps, ns, us, ms or s, as in 80us or 1.5ms",
        ),
        (
            "19000000s",
            "expected less than 2^64 picoseconds, which are 213 days",
        ),
    ] {
        match duration_in(text) {
            Ok(_) => return Err(Fail::new("a duration")),
            Err(told) => {
                let told = format!(in rt.alloc(); "{told}")?;
                assert_eq!(rt; told.as_str(), fault);
            }
        }
    }
    Ok(())
}
