// Expected times are those of the worked examples in specs/Examples.antt, and of queues by hand.
use nvme_channels::{
    Channels, ChannelsFault, MAX_CHANNELS, Placement, Start, StepFault, Stripe, StripeFault,
};
use std::test::Fail;

// What starts on a channel, and when it ends.
fn started(number: u64, channel: usize, ends: u64) -> Result<Option<Start>, StepFault> {
    Ok(Some(Start {
        number,
        channel,
        ends,
    }))
}

// How long the commands of a channel took.
fn busy(device: &Channels, channel: usize) -> Option<u64> {
    match device.channels().get(channel) {
        Some(channel) => Some(channel.busy),
        None => None,
    }
}

#[test]
fn worked_pools(rt: HostRuntime) -> Result<(), Fail> {
    let mut device = Channels::new(rt.alloc(), 2, Placement::Pool, 3)?;
    assert_eq!(rt; device.room(), 3);
    assert_eq!(rt; device.take(0, 1, 0, 80), started(1, 0, 80));
    assert_eq!(rt; device.take(5, 2, 0, 50), started(2, 1, 55));
    assert_eq!(rt; device.take(6, 3, 0, 100), Ok(None));
    assert_eq!(rt; device.room(), 0);
    assert_eq!(rt; device.take(7, 4, 0, 10), Err(StepFault::NoRoom));
    assert_eq!(rt; device.waiting().len(), 1);
    assert_eq!(rt; device.finish(54, 1), Err(StepFault::Early));
    assert_eq!(rt; device.finish(55, 2), Err(StepFault::NoChannel));
    assert_eq!(rt; device.finish(55, 1), started(3, 1, 155));
    assert_eq!(rt; device.room(), 1);
    assert_eq!(rt; device.finish(80, 0), Ok(None));
    assert_eq!(rt; device.finish(81, 0), Err(StepFault::NoCommand));
    assert_eq!(rt; device.finish(155, 1), Ok(None));
    assert_eq!(rt; device.room(), 3);
    assert_eq!(rt; busy(&device, 0), Some(80));
    assert_eq!(rt; busy(&device, 1), Some(150));
    Ok(())
}

#[test]
fn worked_pauses(rt: HostRuntime) -> Result<(), Fail> {
    let mut device = Channels::new(rt.alloc(), 2, Placement::Pool, 3)?;
    assert_eq!(rt; device.take(0, 1, 0, 80), started(1, 0, 80));
    assert_eq!(rt; device.take(5, 2, 0, 50), started(2, 1, 55));
    assert_eq!(rt; device.take(6, 3, 0, 100), Ok(None));
    assert_eq!(rt; device.pause(1), Ok(()));
    assert_eq!(rt; device.pause(2), Err(StepFault::NoChannel));
    assert_eq!(rt; device.finish(55, 1), Ok(None));
    assert_eq!(rt; device.resume(70, 2), Err(StepFault::NoChannel));
    assert_eq!(rt; device.resume(70, 1), started(3, 1, 170));
    assert_eq!(rt; device.resume(71, 1), Ok(None));
    Ok(())
}

#[test]
fn worked_stripes(rt: HostRuntime) -> Result<(), Fail> {
    let striped = Placement::Striped(Stripe::new(8)?);
    let mut device = Channels::new(rt.alloc(), 2, striped, 4)?;
    assert_eq!(rt; device.take(0, 1, 8, 80), started(1, 1, 80));
    assert_eq!(rt; device.take(0, 2, 9, 20), Ok(None));
    assert_eq!(rt; device.take(0, 3, 16, 30), started(3, 0, 30));
    assert_eq!(rt; device.take(0, 4, 10, 40), Ok(None));
    assert_eq!(rt; device.finish(30, 0), Ok(None));
    assert_eq!(rt; device.finish(80, 1), started(2, 1, 100));
    assert_eq!(rt; device.finish(100, 1), started(4, 1, 140));
    assert_eq!(rt; striped.reach(2, 15).first, 1);
    Ok(())
}

// Commands run on the first channel that is idle, also beyond the 64th.
#[test]
fn many_channels(rt: HostRuntime) -> Result<(), Fail> {
    let mut device = Channels::new(rt.alloc(), 130, Placement::Pool, 130)?;
    for k in 0..130 {
        assert_eq!(rt; device.take(0, k as u64, 0, 80), started(k as u64, k, 80));
    }
    assert_eq!(rt; device.take(0, 130, 0, 80), Err(StepFault::NoRoom));
    for k in [129, 64, 63, 127] {
        assert_eq!(rt; device.finish(80, k), Ok(None));
    }
    assert_eq!(rt; device.pause(64), Ok(()));
    assert_eq!(rt; device.take(80, 131, 0, 80), started(131, 63, 160));
    assert_eq!(rt; device.take(80, 132, 0, 80), started(132, 127, 160));
    assert_eq!(rt; device.resume(80, 64), Ok(None));
    assert_eq!(rt; device.take(80, 133, 0, 80), started(133, 64, 160));
    assert_eq!(rt; device.take(80, 134, 0, 80), started(134, 129, 160));
    assert_eq!(rt; device.pause(129), Ok(()));
    assert_eq!(rt; device.finish(160, 129), Ok(None));
    assert_eq!(rt; device.take(160, 135, 0, 80), Ok(None));
    assert_eq!(rt; device.resume(170, 129), started(135, 129, 250));
    Ok(())
}

// Regular commands each 100 picoseconds of 80 on one channel: none waits.
#[test]
fn regular_commands_do_not_wait(rt: HostRuntime) -> Result<(), Fail> {
    let mut device = Channels::new(rt.alloc(), 1, Placement::Pool, 1)?;
    for number in 0..1_000u64 {
        let now = number.saturating_mul(100);
        let ends = now.saturating_add(80);
        assert_eq!(rt; device.take(now, number, 0, 80), started(number, 0, ends));
        assert_eq!(rt; device.finish(ends, 0), Ok(None));
    }
    assert_eq!(rt; busy(&device, 0), Some(80_000));
    Ok(())
}

#[test]
fn times_that_do_not_fit(rt: HostRuntime) -> Result<(), Fail> {
    let mut device = Channels::new(rt.alloc(), 1, Placement::Pool, 2)?;
    assert_eq!(rt; device.take(1, 1, 0, u64::MAX), Err(StepFault::TooLate));
    assert_eq!(rt; device.take(1, 1, 0, 9), started(1, 0, 10));
    assert_eq!(rt; device.take(1, 2, 0, u64::MAX), Ok(None));
    assert_eq!(rt; device.finish(10, 0), Err(StepFault::TooLate));
    assert_eq!(rt; device.room(), 0);
    Ok(())
}

#[test]
fn limits(rt: HostRuntime) -> Result<(), Fail> {
    let none = Channels::new(rt.alloc(), 0, Placement::Pool, 1);
    assert!(rt; matches!(none, Err(ChannelsFault::NoChannels)));
    let many = Channels::new(rt.alloc(), 65_536, Placement::Pool, 1);
    assert!(rt; matches!(many, Err(ChannelsFault::TooManyChannels)));
    let shallow = Channels::new(rt.alloc(), 1, Placement::Pool, 0);
    assert!(rt; matches!(shallow, Err(ChannelsFault::NoDepth)));
    let deep = Channels::new(rt.alloc(), MAX_CHANNELS, Placement::Pool, u16::MAX)?;
    assert_eq!(rt; deep.channels().len(), 65_535);
    assert_eq!(rt; deep.room(), 65_535);
    assert_eq!(rt; Stripe::new(0), Err(StripeFault::NoBlocks));
    Ok(())
}

// Whether a device was made, where the allocations of the machine may be refused.
#[test]
fn memory_is_refused_by_name(rt: HostRuntime) {
    match Channels::new(rt.alloc(), 2, Placement::Pool, 3) {
        Ok(device) => assert_eq!(rt; device.room(), 3),
        Err(fault) => assert_eq!(rt; fault, ChannelsFault::Memory),
    }
}

#[test]
fn faults_read_well(rt: HostRuntime) -> Result<(), Fail> {
    for (fault, text) in [
        (StepFault::NoRoom, "the device has no room for a command"),
        (StepFault::NoChannel, "the device has no such channel"),
        (StepFault::NoCommand, "no command runs on the channel"),
        (StepFault::Early, "the channel's last command ends later"),
        (
            StepFault::TooLate,
            "a command would end after 2^64 picoseconds or more, which are 213 days",
        ),
    ] {
        let told = format!(in rt.alloc(); "{fault}")?;
        assert_eq!(rt; told.as_str(), text);
    }
    for (fault, text) in [
        (ChannelsFault::NoChannels, "expected 1 to 65,535 channels"),
        (
            ChannelsFault::TooManyChannels,
            "expected 1 to 65,535 channels",
        ),
        (ChannelsFault::NoDepth, "expected a depth above 0"),
        (ChannelsFault::Memory, "out of memory"),
    ] {
        let told = format!(in rt.alloc(); "{fault}")?;
        assert_eq!(rt; told.as_str(), text);
    }
    let told = format!(in rt.alloc(); "{}", StripeFault::NoBlocks)?;
    assert_eq!(rt; told.as_str(), "expected a stripe of a block or more");
    Ok(())
}
