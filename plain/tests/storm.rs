//! A lane in a storm: half of all packets and DLLPs is lost, and a third fails its check.
use crate::alloc;
use dllp_core::Class;
use parameters::Plan;
use lane_core::{Arrival, DllpKind, Lane, LaneCredits};
use link_replay::Reception;
use tlp_core::{Tlp, decode};

const PLAN: Plan = Plan { lose_every: 2, corrupt_every: 3 };

/// The writes that are entered.
const WRITES: u32 = 10_000;

/// The most rounds: 100,000,000 calls, ten a round.
const ROUNDS: usize = 10_000_000;

/// A write of 4 bytes, which hold the number.
fn write_of(number: u32) -> Tlp {
    let [a, b, c, d] = number.to_be_bytes();
    decode(&[0x40, 0, 0, 1, 1, 0, 0, 15, 0, 0, 0, 0, a, b, c, d]).ok().unwrap()
}

/// A lane under the storm, and what was counted.
struct Storm {
    lane: Lane,
    packets: u64,
    dllps: u64,
    entered: u32,
    taken: u32,
}

impl Storm {
    /// The oldest packet is delivered, under its fate; whether there was one. What was accepted is taken, and is the next
    /// of the entered ones.
    fn deliver(&mut self) -> bool {
        let Some(arrival) = self.lane.deliver(PLAN.fate(self.packets)).ok().unwrap() else { return false };
        self.packets += 1;
        if matches!(arrival, Arrival::Answered(Reception::Accept)) && self.lane.takeable(0) {
            let (tlp, mark) = self.lane.take(0);
            assert!(mark == self.taken && tlp == write_of(mark));
            self.taken += 1;
        }
        true
    }

    /// Ten calls of the lane at most, with the update of this class.
    fn round(&mut self, class: Class) {
        if self.entered < WRITES && self.lane.enter(&write_of(self.entered), self.entered).is_ok() {
            self.entered += 1;
        }
        let sent = self.lane.transmit().ok().unwrap().is_some();
        if !sent {
            self.lane.retrained();
        }
        let delivered = self.deliver();
        for kind in [DllpKind::Answer, DllpKind::Update(class)] {
            assert!(self.lane.send_dllp(kind).is_ok());
            let _ = self.lane.deliver_dllp(PLAN.fate(self.dllps));
            self.dllps += 1;
        }
        if !sent && !delivered {
            self.lane.timer();
        }
    }
}

#[test]
fn a_storm() {
    let lane = Lane::new(LaneCredits::DEFAULT, alloc());
    let mut storm = Storm { lane, packets: 1, dllps: 1, entered: 0, taken: 0 };
    let classes = [Class::Posted, Class::NonPosted, Class::Completion];
    for round in 0..ROUNDS {
        if storm.taken == WRITES {
            break;
        }
        storm.round(classes[round % 3]);
    }
    assert!(storm.taken == WRITES && storm.lane.quiet());
}
