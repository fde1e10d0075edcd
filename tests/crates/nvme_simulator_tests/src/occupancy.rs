use nvme_occupancy::{Occupancy, OccupancyFault};
use std::test::Fail;

// Stays from 0 to 3, from 1 to 2 and from 1 to 5.
#[test]
fn three_stays(rt: HostRuntime) -> Result<(), Fail> {
    let mut occupancy = Occupancy::new();
    assert_eq!(rt; occupancy.leaves(0), Err(OccupancyFault::Empty));
    for came in [0, 1, 1] {
        occupancy.comes(came)?;
    }
    assert_eq!(rt; occupancy.count(), 3);
    assert_eq!(rt; occupancy.comes(0), Err(OccupancyFault::Early));
    for done in [2, 3, 5] {
        occupancy.leaves(done)?;
    }
    assert_eq!(rt; occupancy.count(), 0);
    assert_eq!(rt; occupancy.area, 8);
    Ok(())
}
