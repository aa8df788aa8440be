//! Parts in the hands of another seat: each call is busy with those that it takes, and with no other, and leaves all
//! as it was; a hall isn't closed.
use crate::beside::{Act, Asked, Told, ends_so, goes_so, told_by_hall};
use crate::halls::opened;
use crate::scripts::LEAST;
use crate::{alloc, config};
use dllp_core::Class;
use fabric_core::{Config, Fabric, LaneName};
use hall_core::laws::{put_back, take};
use hall_core::{Hall, HallRefusal, Part, ReqSeat, WorkEvent, WorkSeat};
use hall_laws::slots::WORDS_APART;
use lane_core::{DllpKind, Fate};

const UP: LaneName = LaneName::Up(1);

const DOWN: LaneName = LaneName::Down(1);

const IN: LaneName = LaneName::Inward;

const OUT: LaneName = LaneName::Outward;

/// How many parts a hall of one requester has.
const PARTS: usize = 18;

/// A slot that such a hall doesn't have.
const NONE: usize = PARTS;

/// The parts of such a hall, in the order of their slots.
const EACH_PART: [Part; PARTS] = [
    Part::Memory,
    Part::SenderEnd(IN),
    Part::ForwardWire(IN),
    Part::BackWire(IN),
    Part::ReceiverEnd(IN),
    Part::SenderEnd(OUT),
    Part::ForwardWire(OUT),
    Part::BackWire(OUT),
    Part::ReceiverEnd(OUT),
    Part::Requester(1),
    Part::SenderEnd(UP),
    Part::ForwardWire(UP),
    Part::BackWire(UP),
    Part::ReceiverEnd(UP),
    Part::SenderEnd(DOWN),
    Part::ForwardWire(DOWN),
    Part::BackWire(DOWN),
    Part::ReceiverEnd(DOWN),
];

/// A call, and the parts that it takes, in their order. Where it is refused for nothing to do, that is the first alone.
type Step = (Act, &'static [Part]);

const READ: Act = Act::Submit(Asked::Read);

const WRITE: Act = Act::Submit(Asked::Write);

const SUBMITS: [Part; 3] = [Part::Memory, Part::Requester(1), Part::SenderEnd(UP)];

const COLLECTS: [Part; 3] = [Part::Memory, Part::Requester(1), Part::ReceiverEnd(DOWN)];

const TRANSMIT_UP: Step = (
    Act::Work(WorkEvent::Transmit(UP)),
    &[Part::SenderEnd(UP), Part::ForwardWire(UP)],
);

const TIMER_UP: Step = (Act::Work(WorkEvent::Timer(UP)), &[Part::SenderEnd(UP)]);

const RETRAINED_UP: Step = (Act::Work(WorkEvent::Retrained(UP)), &[Part::SenderEnd(UP)]);

const LOST_UP: Step = (
    Act::Work(WorkEvent::Deliver(UP, Fate::Lost)),
    &[Part::ForwardWire(UP), Part::ReceiverEnd(UP)],
);

const DELIVER_UP: Step = (
    Act::Work(WorkEvent::Deliver(UP, Fate::Good)),
    &[Part::ForwardWire(UP), Part::ReceiverEnd(UP)],
);

const FORWARD_UP: Step = (
    Act::Work(WorkEvent::Forward(UP, 0)),
    &[Part::ReceiverEnd(UP), Part::SenderEnd(IN)],
);

const TRANSMIT_IN: Step = (
    Act::Work(WorkEvent::Transmit(IN)),
    &[Part::SenderEnd(IN), Part::ForwardWire(IN)],
);

const DELIVER_IN: Step = (
    Act::Work(WorkEvent::Deliver(IN, Fate::Good)),
    &[Part::ForwardWire(IN), Part::ReceiverEnd(IN)],
);

const SERVE: Step = (
    Act::Work(WorkEvent::Serve(0)),
    &[Part::ReceiverEnd(IN), Part::Memory, Part::SenderEnd(OUT)],
);

/// With the least credits: all that has nothing to do is refused; a write is submitted, and a second one lacks credits;
/// the write is sent five times, the link being retrained before the fifth, and acts; the credits come back; a read
/// acts, and its completion is collected.
static SCRIPT: [Step; 56] = [
    (Act::Collect, &COLLECTS),
    (Act::Work(WorkEvent::Transmit(UP)), &[Part::SenderEnd(UP)]),
    (
        Act::Work(WorkEvent::Deliver(UP, Fate::Good)),
        &[Part::ForwardWire(UP)],
    ),
    (
        Act::Work(WorkEvent::DeliverDllp(UP, Fate::Good)),
        &[Part::BackWire(UP)],
    ),
    TIMER_UP,
    RETRAINED_UP,
    (
        Act::Work(WorkEvent::Forward(UP, 0)),
        &[Part::ReceiverEnd(UP)],
    ),
    (
        Act::Work(WorkEvent::Forward(OUT, 0)),
        &[Part::ReceiverEnd(OUT)],
    ),
    (Act::Work(WorkEvent::Serve(0)), &[Part::ReceiverEnd(IN)]),
    (Act::Work(WorkEvent::Forward(IN, 0)), &[]),
    (Act::Work(WorkEvent::Timer(LaneName::Down(0))), &[]),
    (Act::Work(WorkEvent::Transmit(LaneName::Up(2))), &[]),
    (WRITE, &SUBMITS),
    (WRITE, &SUBMITS),
    TRANSMIT_UP,
    TIMER_UP,
    TRANSMIT_UP,
    TIMER_UP,
    TRANSMIT_UP,
    TIMER_UP,
    TRANSMIT_UP,
    TIMER_UP,
    (Act::Work(WorkEvent::Transmit(UP)), &[Part::SenderEnd(UP)]),
    RETRAINED_UP,
    TRANSMIT_UP,
    LOST_UP,
    LOST_UP,
    LOST_UP,
    DELIVER_UP,
    DELIVER_UP,
    (
        Act::Work(WorkEvent::SendDllp(UP, DllpKind::Answer)),
        &[Part::ReceiverEnd(UP), Part::BackWire(UP)],
    ),
    (
        Act::Work(WorkEvent::DeliverDllp(UP, Fate::Good)),
        &[Part::BackWire(UP), Part::SenderEnd(UP)],
    ),
    FORWARD_UP,
    (
        Act::Work(WorkEvent::SendDllp(UP, DllpKind::Update(Class::Posted))),
        &[Part::ReceiverEnd(UP), Part::BackWire(UP)],
    ),
    (
        Act::Work(WorkEvent::DeliverDllp(UP, Fate::Failed)),
        &[Part::BackWire(UP), Part::SenderEnd(UP)],
    ),
    TRANSMIT_IN,
    DELIVER_IN,
    SERVE,
    (READ, &SUBMITS),
    TRANSMIT_UP,
    DELIVER_UP,
    (
        Act::Work(WorkEvent::Forward(UP, 1)),
        &[Part::ReceiverEnd(UP)],
    ),
    FORWARD_UP,
    TRANSMIT_IN,
    DELIVER_IN,
    SERVE,
    (
        Act::Work(WorkEvent::Transmit(OUT)),
        &[Part::SenderEnd(OUT), Part::ForwardWire(OUT)],
    ),
    (
        Act::Work(WorkEvent::Deliver(OUT, Fate::Good)),
        &[Part::ForwardWire(OUT), Part::ReceiverEnd(OUT)],
    ),
    (
        Act::Work(WorkEvent::SendDllp(OUT, DllpKind::Answer)),
        &[Part::ReceiverEnd(OUT), Part::BackWire(OUT)],
    ),
    (
        Act::Work(WorkEvent::DeliverDllp(OUT, Fate::Good)),
        &[Part::BackWire(OUT), Part::SenderEnd(OUT)],
    ),
    (
        Act::Work(WorkEvent::Forward(OUT, 0)),
        &[Part::ReceiverEnd(OUT), Part::SenderEnd(DOWN)],
    ),
    (
        Act::Work(WorkEvent::Transmit(DOWN)),
        &[Part::SenderEnd(DOWN), Part::ForwardWire(DOWN)],
    ),
    (
        Act::Work(WorkEvent::Deliver(DOWN, Fate::Good)),
        &[Part::ForwardWire(DOWN), Part::ReceiverEnd(DOWN)],
    ),
    (Act::Collect, &COLLECTS),
    (Act::Collect, &COLLECTS),
    (READ, &SUBMITS),
];

/// Whether the word of this slot names the first work seat, and all others are 0.
fn is_taken(hall: &Hall, taken: usize) -> bool {
    (0..PARTS).all(|slot| hall.steps().peek(WORDS_APART * slot) == if slot == taken { 2 } else { 0 })
}

/// A hall of one requester and the least credits, with its seat and two work seats, the one with the least number last.
fn one_and_two_workers() -> (Hall, ReqSeat, WorkSeat, WorkSeat) {
    let (hall, mut seats, mut workers) = opened(Config { credits: LEAST, ..config(1) }, 2);
    (hall, seats.pop().unwrap(), workers.pop().unwrap(), workers.pop().unwrap())
}

/// The whole script, beside a seat that has the part during each call: a call that takes the part is busy with it, and
/// goes as through the fabric then; any other goes as through the fabric at once. No word has changed after a call.
fn goes_beside(part: Part) {
    let mut fabric = Fabric::new(Config { credits: LEAST, ..config(1) }, alloc()).unwrap();
    let (hall, mut seat, mut worker, holder) = one_and_two_workers();
    let (slot, number) = (part.slot(), holder.number() as u64);
    let mut place = holder.into_place();
    for (row, (act, parts)) in SCRIPT.into_iter().enumerate() {
        let value = take(hall.steps(), &mut place, slot, number).ok().unwrap();
        let is_busy = parts.contains(&part);
        if is_busy {
            let told = told_by_hall(&hall, &mut seat, &mut worker, act);
            assert!(told == Told::Refused(HallRefusal::Busy { part, word: 2 }), "{part:?}, row {row}");
        } else {
            assert!(goes_so(&hall, &mut seat, &mut worker, &mut fabric, 1, act), "{part:?}, row {row}");
        }
        assert!(is_taken(&hall, slot), "{part:?}, row {row}");
        put_back(hall.steps(), &mut place, slot, value);
        if is_busy {
            assert!(goes_so(&hall, &mut seat, &mut worker, &mut fabric, 1, act), "{part:?}, row {row}");
        }
        assert!(is_taken(&hall, NONE), "{part:?}, row {row}");
    }
    assert!(ends_so(hall, seat, &fabric), "{part:?}");
}

#[test]
fn each_call_takes_its_parts_and_no_other() {
    EACH_PART.into_iter().for_each(goes_beside);
}

#[test]
fn a_part_is_still_held() {
    for part in EACH_PART {
        let (hall, seat, _, holder) = one_and_two_workers();
        let number = holder.number() as u64;
        let mut place = holder.into_place();
        assert!(take(hall.steps(), &mut place, part.slot(), number).is_ok());
        let held = hall.close(seat).err().unwrap();
        assert!(held.part == part && held.word == 2, "{part:?}");
    }
}
