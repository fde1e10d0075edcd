// The bounds of the sums are four standard errors around what the distributions have.
use nvme_clock::{Purpose, Quantiles, TwoPoints, stream};
use nvme_load::{
    Arrivals, ArrivalsFault, Closed, Distribution, Extent, ExtentFault, Gap, Mean, MeanFault, Mix,
    MixFault, Operation, Order, Phases, PhasesFault, Places, Replay, ReplayFault, Request, Service,
    Services,
};
use std::test::Fail;

#[test]
fn mixes_have_their_shares(rt: HostRuntime) -> Result<(), Fail> {
    let mix = Mix::new(7, 2, 1)?;
    let mut rng = stream(7, 0, Purpose::Sizes);
    let mut reads = 0u64;
    let mut writes = 0u64;
    let mut flushes = 0u64;
    for _ in 0..10_000 {
        match mix.draw(&mut rng) {
            Operation::Read => reads = reads.saturating_add(1),
            Operation::Write => writes = writes.saturating_add(1),
            Operation::Flush => flushes = flushes.saturating_add(1),
        }
    }
    assert!(rt; 6_817 <= reads && reads <= 7_183);
    assert!(rt; 1_840 <= writes && writes <= 2_160);
    assert!(rt; 880 <= flushes && flushes <= 1_120);
    Ok(())
}

// The sum of 10,000 service times of commands with 8 blocks, where each fits.
fn sum_of(services: &Services, operation: Operation) -> Option<u64> {
    let mut rng = stream(7, 0, Purpose::Services);
    let mut sum = 0u64;
    for _ in 0..10_000 {
        let Some(time) = services.draw(&mut rng, operation, 8) else {
            return None;
        };
        sum = sum.saturating_add(time);
    }
    Some(sum)
}

#[test]
fn services_spread_as_they_should(rt: HostRuntime) -> Result<(), Fail> {
    let services = Services {
        read: Service {
            time: Distribution::Exponential(Mean::new(100_000)?),
            per_block: 500,
        },
        write: Service {
            time: Distribution::TwoPoints(TwoPoints {
                usual: 80,
                rare: 2000,
                times: 5,
                out_of: 100,
            }),
            per_block: 3,
        },
        flush: Distribution::Quantiles(Quantiles::new(vec![in rt.alloc(); 10, 20, 40]?)?),
    };
    assert!(rt;
        matches!(
            sum_of(&services, Operation::Read),
            Some(1_000_000_000..=1_080_000_000)
        )
    );
    assert!(rt;
        matches!(
            sum_of(&services, Operation::Write),
            Some(1_832_615..=2_167_385)
        )
    );
    assert!(rt; matches!(sum_of(&services, Operation::Flush), Some(216_490..=223_510)));
    Ok(())
}

#[test]
fn times_that_do_not_fit(rt: HostRuntime) {
    let service = Service {
        time: Distribution::Fixed(1),
        per_block: u64::MAX,
    };
    let mut rng = stream(7, 0, Purpose::Services);
    assert_eq!(rt; service.draw(&mut rng, 0), Some(1));
    assert_eq!(rt; service.draw(&mut rng, 1), None);
    assert_eq!(rt; service.draw(&mut rng, 2), None);
}

// A service of this distribution, with 5 for each block.
fn with_blocks(time: Distribution) -> Service {
    Service { time, per_block: 5 }
}

#[test]
fn services_have_a_longest_time(rt: HostRuntime) -> Result<(), Fail> {
    let mean = Distribution::Exponential(Mean::new(10)?);
    assert_eq!(rt; mean.longest(), 640);
    let points = Distribution::TwoPoints(TwoPoints {
        usual: 7,
        rare: 90,
        times: 1,
        out_of: 20,
    });
    assert_eq!(rt; points.longest(), 90);
    let table = Quantiles::new(vec![in rt.alloc(); 3, 4, 11]?)?;
    let services = Services {
        read: with_blocks(Distribution::Fixed(60)),
        write: with_blocks(Distribution::Fixed(u64::MAX)),
        flush: Distribution::Quantiles(table),
    };
    assert_eq!(rt; services.read.longest(8), 100);
    assert_eq!(rt; services.longest(Operation::Read, 8), 100);
    assert_eq!(rt; services.longest(Operation::Write, 8), u64::MAX);
    assert_eq!(rt; services.longest(Operation::Flush, 8), 11);
    Ok(())
}

// When the last of 10,000 commands comes, and how many come behind the first 1,000,000 picoseconds of a cycle of 5,000,000.
fn last_of(arrivals: &Arrivals) -> Option<(u64, u64)> {
    let mut rng = stream(7, 0, Purpose::Arrivals);
    let mut time = 0u64;
    let mut late = 0u64;
    for _ in 0..10_000 {
        let Some(at) = arrivals.next_after(0, time, &mut rng) else {
            return None;
        };
        time = at;
        late = late.saturating_add(u64::from(at % 5_000_000 >= 1_000_000));
    }
    Some((time, late))
}

#[test]
fn commands_come_as_often_as_they_should(rt: HostRuntime) -> Result<(), Fail> {
    let mean = Mean::new(100_000)?;
    let poisson = last_of(&Arrivals::Poisson(mean));
    assert!(rt; matches!(poisson, Some((960_000_000..=1_040_000_000, 7_830..=8_170))));
    let on_off = last_of(&Arrivals::OnOff(Phases::new(mean, 1_000_000, 4_000_000)?));
    assert!(rt; matches!(on_off, Some((4_800_000_000..=5_200_000_000, 0))));
    let regular = last_of(&Arrivals::Regular(Gap::new(500_000)?));
    assert_eq!(rt; regular, Some((5_000_000_000, 8_000)));
    Ok(())
}

#[test]
fn commands_that_come_too_late(rt: HostRuntime) -> Result<(), Fail> {
    let mut rng = stream(7, 0, Purpose::Arrivals);
    let mean = Mean::new(0x03ff_ffff_ffff_ffff)?;
    let poisson = Arrivals::Poisson(mean);
    assert_eq!(rt; poisson.next_after(0, u64::MAX, &mut rng), None);
    let long_phases = Arrivals::OnOff(Phases::new(mean, 1 << 63, 1 << 62)?);
    assert_eq!(rt; long_phases.next_after(0, u64::MAX, &mut rng), None);
    let short_phases = Arrivals::OnOff(Phases::new(mean, 1, 1_000_000)?);
    assert_eq!(rt; short_phases.next_after(0, 0, &mut rng), None);
    Ok(())
}

#[test]
fn faults_read_well(rt: HostRuntime) -> Result<(), Fail> {
    assert_eq!(rt; Mix::new(0, 0, 0), Err(MixFault::NoShare));
    assert!(rt; Mix::new(0, 0, 1).is_ok());
    let told = format!(in rt.alloc(); "{}", MixFault::NoShare)?;
    assert_eq!(rt;
        told.as_str(),
        "expected a share of reads, writes or flushes above 0"
    );
    assert_eq!(rt; Mean::new(0), Err(MeanFault::Zero));
    let told = format!(in rt.alloc(); "{}", MeanFault::Zero)?;
    assert_eq!(rt; told.as_str(), "expected a mean above 0");
    assert!(rt; Mean::new(0x03ff_ffff_ffff_ffff).is_ok());
    assert_eq!(rt; Mean::new(0x0400_0000_0000_0000), Err(MeanFault::TooLong));
    let told = format!(in rt.alloc(); "{}", MeanFault::TooLong)?;
    assert_eq!(rt;
        told.as_str(),
        "expected a mean of at most 288230376151711743 picoseconds, which are 3.3 days"
    );
    assert_eq!(rt; Gap::new(0), Err(ArrivalsFault::NoGap));
    let told = format!(in rt.alloc(); "{}", ArrivalsFault::NoGap)?;
    assert_eq!(rt; told.as_str(), "expected a gap above 0");
    assert_eq!(rt; Closed::new(0, 5), Err(ArrivalsFault::NoDepth));
    let told = format!(in rt.alloc(); "{}", ArrivalsFault::NoDepth)?;
    assert_eq!(rt; told.as_str(), "expected a depth above 0");
    Ok(())
}

#[test]
fn faults_of_phases_read_well(rt: HostRuntime) -> Result<(), Fail> {
    let mean = Mean::new(1)?;
    assert_eq!(rt; Phases::new(mean, 0, u64::MAX), Err(PhasesFault::NoOn));
    let told = format!(in rt.alloc(); "{}", PhasesFault::NoOn)?;
    assert_eq!(rt; told.as_str(), "expected on phases longer than 0");
    assert!(rt; Phases::new(mean, 1, u64::MAX - 1).is_ok());
    assert_eq!(rt; Phases::new(mean, 1, u64::MAX), Err(PhasesFault::TooLong));
    let told = format!(in rt.alloc(); "{}", PhasesFault::TooLong)?;
    assert_eq!(rt;
        told.as_str(),
        "expected an on and an off phase of less than 2^64 picoseconds together, which are 213 days"
    );
    Ok(())
}

#[test]
fn uniform_places_are_as_likely(rt: HostRuntime) -> Result<(), Fail> {
    let mut places = Places::new(Extent::new(100, 8)?, Order::Uniform);
    let mut rng = stream(7, 0, Purpose::Offsets);
    let mut sum = 0u64;
    let mut at_end = 0u64;
    let mut between = 0u64;
    for _ in 0..12_000 {
        let first = places.draw(&mut rng);
        sum = sum.saturating_add(first);
        at_end = at_end.saturating_add(u64::from(first == 88));
        between = between.saturating_add(u64::from(first % 8 != 0));
    }
    assert!(rt; 515_903 <= sum && sum <= 540_097);
    assert!(rt; 879 <= at_end && at_end <= 1_121);
    assert_eq!(rt; between, 0);
    Ok(())
}

#[test]
fn sequential_places_go_round(rt: HostRuntime) -> Result<(), Fail> {
    let mut places = Places::new(Extent::new(20, 8)?, Order::Sequential);
    let mut rng = stream(7, 0, Purpose::Offsets);
    for first in [0, 8, 0, 8, 0] {
        assert_eq!(rt; places.draw(&mut rng), first);
    }
    Ok(())
}

#[test]
fn faults_of_places_read_well(rt: HostRuntime) -> Result<(), Fail> {
    assert_eq!(rt; Extent::new(100, 0), Err(ExtentFault::NoBlocks));
    let told = format!(in rt.alloc(); "{}", ExtentFault::NoBlocks)?;
    assert_eq!(rt;
        told.as_str(),
        "expected 1 to 65,536 blocks for each command"
    );
    assert!(rt; Extent::new(65_536, 65_536).is_ok());
    assert_eq!(rt;
        Extent::new(100_000, 65_537),
        Err(ExtentFault::TooManyBlocks)
    );
    let told = format!(in rt.alloc(); "{}", ExtentFault::TooManyBlocks)?;
    assert_eq!(rt;
        told.as_str(),
        "expected 1 to 65,536 blocks for each command"
    );
    assert_eq!(rt; Extent::new(7, 8), Err(ExtentFault::SmallNamespace));
    let told = format!(in rt.alloc(); "{}", ExtentFault::SmallNamespace)?;
    assert_eq!(rt;
        told.as_str(),
        "expected a namespace with room for one command"
    );
    Ok(())
}

// A read of eight blocks.
fn read(at: u64, block: u64) -> Request {
    Request {
        at,
        operation: Operation::Read,
        block,
        blocks: 8,
    }
}

#[test]
fn lists_come_at_their_times(rt: HostRuntime) -> Result<(), Fail> {
    let requests = vec![in rt.alloc(); read(0, 0), read(7, 92), read(7, 8)]?;
    let arrivals = Arrivals::Replay(Replay::new(100, requests)?);
    let mut rng = stream(7, 0, Purpose::Arrivals);
    assert_eq!(rt; arrivals.at_start(), 0);
    assert_eq!(rt; arrivals.next_after(0, 0, &mut rng), Some(0));
    assert_eq!(rt; arrivals.next_after(1, 0, &mut rng), Some(7));
    assert_eq!(rt; arrivals.next_after(2, 7, &mut rng), Some(7));
    assert_eq!(rt; arrivals.next_after(3, 7, &mut rng), None);
    assert_eq!(rt; arrivals.request(1), Some(read(7, 92)));
    assert_eq!(rt; arrivals.request(3), None);
    assert!(rt; !arrivals.ends_at(2) && arrivals.ends_at(3));
    let none = Replay::empty(rt.alloc(), 100);
    assert!(rt; none.ends_at(0));
    let drawn = Arrivals::Regular(Gap::new(7)?);
    assert_eq!(rt; drawn.request(0), None);
    assert!(rt; !drawn.ends_at(u64::MAX));
    Ok(())
}

#[test]
fn faults_of_lists_read_well(rt: HostRuntime) -> Result<(), Fail> {
    assert!(rt; read(0, 92).lies_within(100) && !read(0, 93).lies_within(100));
    assert!(rt; !read(0, u64::MAX).lies_within(u64::MAX));
    let outside = Replay::new(100, vec![in rt.alloc(); read(0, 0), read(7, 93)]?);
    assert!(rt; matches!(outside, Err(ReplayFault::Outside)));
    let told = format!(in rt.alloc(); "{}", ReplayFault::Outside)?;
    assert_eq!(rt;
        told.as_str(),
        "expected commands that lie within the namespace"
    );
    let fallen = Replay::new(100, vec![in rt.alloc(); read(7, 0), read(6, 8)]?);
    assert!(rt; matches!(fallen, Err(ReplayFault::Order)));
    let told = format!(in rt.alloc(); "{}", ReplayFault::Order)?;
    assert_eq!(rt; told.as_str(), "expected times that don't fall");
    Ok(())
}
