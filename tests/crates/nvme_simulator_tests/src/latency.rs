// Expected numbers are those of the worked examples in specs/Examples.antt, and of the numbers from 1 on.
use nvme_latency::Latencies;
use std::alloc::{AllocError, Global};
use std::test::Fail;

fn of(alloc: Global, times: &[u64]) -> Result<Latencies, AllocError> {
    let mut latencies = Latencies::new(alloc);
    for time in times {
        latencies.add(*time)?;
    }
    Ok(latencies)
}

#[test]
fn worked_quantiles(rt: HostRuntime) -> Result<(), Fail> {
    let latencies = of(rt.alloc(), &[50, 10, 40, 20, 30])?;
    assert_eq!(rt; latencies.count(), 5);
    let ranked = latencies.ranked();
    assert_eq!(rt; ranked.count(), 5);
    for (parts, time) in [
        (1, 10),
        (20_000, 10),
        (20_001, 20),
        (50_000, 30),
        (95_000, 50),
        (99_900, 50),
        (100_000, 50),
    ] {
        assert_eq!(rt; ranked.quantile(parts), Some(time));
    }
    for (rank, time) in [
        (0, None),
        (1, Some(10)),
        (3, Some(30)),
        (5, Some(50)),
        (6, None),
    ] {
        assert_eq!(rt; ranked.at(rank), time);
    }
    assert_eq!(rt; ranked.rank(99_000), 5);
    assert_eq!(rt; ranked.longest(), Some(50));
    assert_eq!(rt; ranked.sum(), 150);
    assert_eq!(rt; ranked.mean(), Some(30));
    let ties = of(rt.alloc(), &[7, 9, 7])?.ranked();
    assert_eq!(rt; ties.quantile(50_000), Some(7));
    assert_eq!(rt; ties.mean(), Some(7));
    Ok(())
}

#[test]
fn latencies_are_joined(rt: HostRuntime) -> Result<(), Fail> {
    let mut latencies = of(rt.alloc(), &[50, 10])?;
    latencies.join(&of(rt.alloc(), &[40, 20, 30])?)?;
    assert_eq!(rt; latencies.count(), 5);
    assert_eq!(rt; latencies.ranked().at(2), Some(20));
    Ok(())
}

#[test]
fn no_latency(rt: HostRuntime) {
    let ranked = Latencies::new(rt.alloc()).ranked();
    assert_eq!(rt; ranked.count(), 0);
    assert_eq!(rt; ranked.quantile(50_000), None);
    assert_eq!(rt; ranked.at(1), None);
    assert_eq!(rt; ranked.longest(), None);
    assert_eq!(rt; ranked.sum(), 0);
    assert_eq!(rt; ranked.mean(), None);
}

#[test]
fn longest_times(rt: HostRuntime) -> Result<(), Fail> {
    let ranked = of(rt.alloc(), &[u64::MAX, u64::MAX, u64::MAX - 1])?.ranked();
    assert_eq!(rt; ranked.sum(), 55_340_232_221_128_654_844);
    assert_eq!(rt; ranked.mean(), Some(u64::MAX - 1));
    assert_eq!(rt; ranked.quantile(50_000), Some(u64::MAX));
    Ok(())
}

// The numbers from 1 to 10,006, in another order: 10,007 is prime.
#[test]
fn numbers_in_another_order(rt: HostRuntime) -> Result<(), Fail> {
    let mut latencies = Latencies::new(rt.alloc());
    let mut time = 0u64;
    for _ in 0..10_006 {
        time = (time % 10_007).saturating_add(7_919) % 10_007;
        latencies.add(time)?;
    }
    let ranked = latencies.ranked();
    for (parts, time) in [
        (1, 1),
        (50_000, 5_003),
        (95_000, 9_506),
        (99_000, 9_906),
        (99_900, 9_996),
        (100_000, 10_006),
    ] {
        assert_eq!(rt; ranked.quantile(parts), Some(time));
    }
    assert_eq!(rt; ranked.longest(), Some(10_006));
    assert_eq!(rt; ranked.sum(), 50_065_021);
    assert_eq!(rt; ranked.mean(), Some(5_003));
    Ok(())
}

// Where memory is refused, what came before stays.
#[test]
fn refused_memory_loses_nothing(rt: HostRuntime) {
    let mut latencies = Latencies::new(rt.alloc());
    let mut taken = 0usize;
    for time in 0..1_000u64 {
        if latencies.add(time).is_ok() {
            taken = taken.saturating_add(1);
        }
    }
    assert_eq!(rt; latencies.count(), taken);
    assert!(rt; 0 < taken);
}
