//! Storms, and links that stop or fail right before the end: the rounds of `settle` beside the hops that were left.
use crate::scripts::LEAST;
use crate::{add, alloc, config};
use fabric_core::{ANSWER_ROOM, Config, Event, EventRef, Fabric, LaneName, SeenRef};
use fabric_settle::{Witness, settle};
use kit::alloc::AllocError;
use lane_core::{DllpKind, Fate, LaneCredits};
use parameters::Storm;
use generate_engine::{Chooser, Listener};
use seq_memory::Keeper;
use tlp_core::OpRef;

/// All credits.
const MOST: LaneCredits = LaneCredits { ph: 127, pd: 2047, nph: 127, npd: 2047, cplh: 127, cpld: 2047 };

/// Counts the rounds, each of which sends one Ack or Nak on `up1`, and the hops.
struct Counts {
    rounds: u64,
    hops: u64,
}

impl Witness for Counts {
    fn make_room(&mut self, _event: &EventRef<'_>) -> Result<(), AllocError> {
        Ok(())
    }

    fn saw<K: Keeper>(
        &mut self,
        _line: u64,
        event: &EventRef<'_>,
        _seen: &SeenRef<'_>,
        _fabric: &Fabric<K>,
    ) -> Result<(), AllocError> {
        match event {
            EventRef::SendDllp(LaneName::Up(1), DllpKind::Answer) => self.rounds += 1,
            EventRef::Forward(_, _) | EventRef::Serve(_) | EventRef::Collect(_) => self.hops += 1,
            _ => {}
        }
        Ok(())
    }
}

/// How many hops are left.
struct Hops {
    left: u64,
}

impl Listener for Hops {
    fn hear(&mut self, event: &EventRef<'_>) {
        match event {
            EventRef::Submit(_, OpRef::Write { .. }) => self.left += 2,
            EventRef::Submit(_, _) => self.left += 4,
            EventRef::Forward(_, _) | EventRef::Serve(_) | EventRef::Collect(_) => self.left -= 1,
            _ => {}
        }
    }
}

/// The storm of a seed: one to seven requesters, and links that lose one of 2 to 8 or none, and fail as many or none.
fn storm_of(seed: u64) -> Storm {
    Storm {
        seed,
        events: seed % 50 * 8,
        requesters: seed % 7 + 1,
        lose: seed / 7 % 8,
        corrupt: seed / 11 % 8,
        block: 64,
    }
}

/// Events that happen or are refused.
fn try_all(fabric: &mut Fabric, events: &[Event]) {
    for event in events {
        let mut room = ANSWER_ROOM;
        let _ = fabric.step(&event.lend(), &mut room);
    }
}

/// What happens at the end of the storm of a seed to the lane `up1` of a requester with a new request: nothing; or all sent
/// packets are lost four times and go again, so that its sender stops; or its last packet fails the check.
fn end(fabric: &mut Fabric, seed: u64) {
    let up = LaneName::Up(1);
    match seed / 3 % 3 {
        0 => {}
        1 => {
            for _ in 0..4 {
                try_all(fabric, &[Event::Transmit(up), Event::Deliver(up, Fate::Lost), Event::Timer(up)]);
            }
        }
        _ => try_all(fabric, &[Event::Transmit(up), Event::Deliver(up, Fate::Failed)]),
    }
}

/// The fabric of a storm, to which one more request of port 1 is submitted if it can be, is brought to rest in at most as
/// many rounds as hops were left, and two.
#[test]
fn storms_come_to_rest_within_the_hops_that_were_left() {
    for seed in 0..63 {
        let storm = storm_of(seed);
        assert!(storm.is_right());
        let credits = [LEAST, MOST, LaneCredits::DEFAULT][seed as usize % 3];
        let mut fabric = Fabric::new(Config { credits, ..config(storm.requesters as u8) }, alloc()).ok().unwrap();
        let mut chooser = Chooser::new(&storm);
        let mut hops = Hops { left: 0 };
        for _ in 0..storm.events {
            assert!(chooser.happen_next(&mut fabric, &mut hops).is_ok());
        }
        let operation = add(0);
        let event = EventRef::Submit(1, operation.lend());
        let mut room = ANSWER_ROOM;
        if fabric.step(&event, &mut room).is_ok() {
            hops.hear(&event);
        }
        end(&mut fabric, seed);
        let mut counts = Counts { rounds: 0, hops: 0 };
        assert!(settle(&mut fabric, &mut counts, 0).is_ok());
        assert!(counts.rounds.saturating_sub(2) <= hops.left, "seed {seed}");
        assert!(counts.hops == hops.left && fabric.quiet(), "seed {seed}");
    }
}
