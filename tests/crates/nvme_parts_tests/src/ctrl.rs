use nvme_ctrl::Ring;
use std::test::*;

// A submission queue of four slots: the host rings its tail doorbell, and the controller reads.
#[test]
fn tail_doorbells_go_round(rt: HostRuntime) {
    let mut ring = Ring::new(4);
    assert!(rt; ring.write_to(3));
    assert_eq!(rt; ring.filled(), 3);
    assert!(rt; !ring.write_to(0));
    assert!(rt; !ring.write_to(4));
    ring.read();
    ring.read();
    assert!(rt; !ring.write_to(2));
    assert!(rt; ring.write_to(1));
    assert_eq!(rt; (ring.filled(), ring.head, ring.tail), (3, 2, 1));
}

// A completion queue of three slots: the controller writes, and the host rings its head doorbell.
#[test]
fn head_doorbells_go_round(rt: HostRuntime) {
    let mut ring = Ring::new(3);
    ring.write();
    ring.write();
    assert!(rt; !ring.read_to(3));
    assert!(rt; ring.read_to(1));
    assert!(rt; !ring.read_to(0));
    ring.write();
    assert!(rt; ring.read_to(0));
    assert_eq!(rt; (ring.filled(), ring.head, ring.tail), (0, 0, 0));
}
