//! Two ports over wires that lose and corrupt, past a wrap of the sequence numbers.
use crate::alloc;
use kit::arrayvec::ArrayVec;
use lane_core::LaneCredits;
use link_crc::Check;
use port_core::{LinkPort, LinkState, Outgoing, PACKET_BYTES, Received};
use tlp_core::decode;

/// The credits of an endpoint: completions are infinite.
const CREDITS: LaneCredits = LaneCredits { ph: 16, pd: 64, nph: 16, npd: 16, cplh: 0, cpld: 0 };

/// Packets that were entered, and that were handed up.
struct Count {
    entered: u32,
    accepted: u32,
}

/// The data of a memory write of one DW is a number.
fn write_of(number: u32) -> [u8; 16] {
    let [a, b, c, d] = number.to_be_bytes();
    [0x40, 0, 0, 1, 1, 0, 0, 0x0F, 0, 0, 0, 0, a, b, c, d]
}

/// A packet reaches a port. What it hands up is the next that was entered.
fn arrive(port: &mut LinkPort, packet: &[u8], check: Check, count: &mut Count) {
    if let Received::Accepted { need: Some(need), overflows } = port.receive(packet, check) {
        assert!(!overflows && packet[2..] == write_of(count.accepted));
        count.accepted += 1;
        port.free(need);
    }
}

/// What one port sends next reaches the other, good, failed or not at all.
fn cross(from: &mut LinkPort, to: &mut LinkPort, turn: u32, count: &mut Count) {
    let mut bytes: ArrayVec<u8, PACKET_BYTES> = ArrayVec::new();
    let sent = from.next(&mut bytes);
    if turn % 7 == 6 {
        return;
    }
    let check = Check::of(turn % 11 != 10);
    match sent {
        Outgoing::Nothing => {}
        Outgoing::Packet(_) => arrive(to, &bytes, check, count),
        Outgoing::Dllp(_) => assert!(to.receive_dllp(&bytes, check).is_ok()),
    }
}

/// In each turn a write enters one port, and both send. Timers expire now and then.
#[test]
fn each_packet_is_handed_up_once() {
    let (mut one, mut other) = (LinkPort::new(CREDITS, alloc()), LinkPort::new(CREDITS, alloc()));
    one.up(alloc());
    other.up(alloc());
    let mut count = Count { entered: 0, accepted: 0 };
    for turn in 0..40_000 {
        let tlp = decode(&write_of(count.entered)).ok().unwrap();
        count.entered += u32::from(one.enter(&tlp.lend()).is_ok());
        cross(&mut one, &mut other, turn, &mut count);
        cross(&mut other, &mut one, turn + 3, &mut count);
        if turn % 16 == 15 {
            one.refresh();
            other.refresh();
            one.replay();
            one.retrained();
        }
    }
    assert!(count.accepted > 4200 && count.accepted <= count.entered);
    assert!(one.state() == LinkState::Active);
}
