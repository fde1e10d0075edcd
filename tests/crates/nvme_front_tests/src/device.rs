// Runs of the device of `nvme_front_uses`.
use nvme_admin::Limits;
use nvme_arbiter::{Mechanism, Settings};
use nvme_entry::{Namespaces, Sqe};
use nvme_front::{FrontConfig, Settled};
use nvme_front_uses::device::Device;
use std::alloc::Global;
use std::process::Abort;
use std::sync::Wait;
use std::test::*;

// An admin command.
fn command(cid: u16, opcode: u8, cdw10: u32, cdw11: u32) -> Sqe {
    Sqe {
        opcode,
        cid,
        cdw10,
        cdw11,
        ..Sqe::default()
    }
}

// Set Features asks for 8 submission and 2 completion queues, and gets 4 and 2. Dword 0 has each number minus 1.
// Identify is answered with Invalid Command Opcode. Get Features answers with the same numbers.
const COMPLETIONS: [[u8; 16]; 3] = [
    [3, 0, 1, 0, 0, 0, 0, 0, 1, 0, 0, 0, 0, 0, 1, 0],
    [0, 0, 0, 0, 0, 0, 0, 0, 2, 0, 0, 0, 1, 0, 3, 0],
    [3, 0, 1, 0, 0, 0, 0, 0, 3, 0, 0, 0, 2, 0, 1, 0],
];

// At most four queues of each kind.
fn config() -> Result<FrontConfig, Fail> {
    let spaces = Namespaces::new(&[1000])?;
    Ok(FrontConfig {
        mechanism: Mechanism::RoundRobin,
        settings: Settings::from_cdw11(0),
        limits: Limits { nsq: 4, ncq: 4 },
        spaces,
        max_events: 1000,
    })
}

// A device with the commands of these completions.
fn device(alloc: Global) -> Result<Device, Fail> {
    let script = [
        command(0, 0x09, 7, 0x0001_0007),
        command(1, 0x06, 1, 0),
        command(2, 0x0a, 7, 0),
    ];
    let config = config()?;
    let script = Vec::from_slice(alloc, &script)?;
    Ok(Device::new(alloc, config, script)?)
}

// Two rounds don't serve all commands, and more rounds do.
fn play<R: Wait + Abort>(rt: &R, device: &mut Device) -> Result<(), Fail> {
    assert!(rt; !device.serve(rt, 2)?);
    assert!(rt; device.serve(rt, 100)?);
    Ok(())
}

// Settles a device after its play, unless that failed.
fn settled<R: Wait + Abort>(rt: &R, alloc: Global) -> Result<Settled, Fail> {
    let mut device = device(alloc)?;
    if let Err(fail) = play(rt, &mut device) {
        drop(device);
        return Err(fail);
    }
    Ok(device.settle(rt, alloc)?)
}

#[test]
fn numbers_of_queues(rt: HostRuntime) -> Result<(), Fail> {
    let settled = settled(&rt, rt.alloc())?;
    assert_eq!(rt; settled.collected.len(), 1);
    assert_eq!(rt; settled.collected[0].len(), 3);
    for (done, want) in settled.collected[0].iter().zip(COMPLETIONS.iter()) {
        assert_eq!(rt; done.to_bytes(), *want);
    }
    Ok(())
}
