//! A requester alone: which refusals it tries again, and which end the run.
use crate::halls::opened;
use crate::rounds::Calls;
use crate::{add, alloc, config, read, write};
use dllp_core::Class;
use fabric_core::{LaneName, Refusal};
use hall_core::laws::take;
use hall_core::{Hall, HallRefusal, Part, WorkSeat};
use history_words::Record;
use lane_core::LaneRefusal;
use recorder::{ROOM, Recorder};
use requester_core::SubmitRefusal;
use tlp_core::{Op, TlpFault};
use worker_requester::{Requester, stop_of};
use worker_turns::{Shared, Stop, Turns};

const UNALIGNED: Refusal = Refusal::Submit(SubmitRefusal::Profile(TlpFault::Unaligned));

const NUMBERS_USED: Refusal = Refusal::Submit(SubmitRefusal::NumbersUsed);

/// Refusals, and why they end the run.
static STOPS: [(HallRefusal, Option<Stop>); 11] = [
    (
        HallRefusal::Busy {
            part: Part::Memory,
            word: 2,
        },
        None,
    ),
    (
        HallRefusal::Core(Refusal::Submit(SubmitRefusal::TagsUsed)),
        None,
    ),
    (
        HallRefusal::Core(Refusal::Lane(LaneRefusal::NoCredits(Class::Posted))),
        None,
    ),
    (
        HallRefusal::Core(Refusal::Lane(LaneRefusal::NoCredits(Class::NonPosted))),
        None,
    ),
    (
        HallRefusal::Core(Refusal::Lane(LaneRefusal::WindowFull)),
        None,
    ),
    (HallRefusal::Core(Refusal::Memory), Some(Stop::Memory)),
    (
        HallRefusal::Core(Refusal::Lane(LaneRefusal::Memory)),
        Some(Stop::Memory),
    ),
    (HallRefusal::Core(UNALIGNED), Some(Stop::Core(UNALIGNED))),
    (
        HallRefusal::Core(NUMBERS_USED),
        Some(Stop::Core(NUMBERS_USED)),
    ),
    (
        HallRefusal::Core(Refusal::NoSuchPart),
        Some(Stop::Core(Refusal::NoSuchPart)),
    ),
    (
        HallRefusal::Core(Refusal::Idle),
        Some(Stop::Core(Refusal::Idle)),
    ),
];

#[test]
fn refusals_are_tried_again_or_end_the_run() {
    for (place, (refusal, stop)) in STOPS.into_iter().enumerate() {
        assert!(stop_of(refusal) == stop, "row {place}");
    }
}

/// The operations of a script.
#[derive(Clone, Copy)]
enum Asked {
    Read,
    Write,
    /// One that no request can ask for.
    Unaligned,
}

/// A requester alone with its hall.
struct Row {
    asked: Asked,
    /// How many operations its script has.
    many: u32,
    /// The part that another seat has.
    held: Option<Part>,
    /// Whether the recorder is full.
    full: bool,
    turns: u64,
    stop: Stop,
    /// How many calls it makes, and the turn of the last.
    calls: (u64, u64),
}

/// Each turn is a submission, or a submission, the push of its record, and collections.
static ROWS: [Row; 8] = [
    Row {
        asked: Asked::Read,
        many: 1,
        held: Some(Part::Memory),
        full: false,
        turns: 10,
        stop: Stop::Turns,
        calls: (10, 10),
    },
    Row {
        asked: Asked::Read,
        many: 1,
        held: Some(Part::Requester(1)),
        full: false,
        turns: 10,
        stop: Stop::Turns,
        calls: (10, 10),
    },
    Row {
        asked: Asked::Write,
        many: 1,
        held: Some(Part::SenderEnd(LaneName::Up(1))),
        full: false,
        turns: 10,
        stop: Stop::Turns,
        calls: (10, 10),
    },
    Row {
        asked: Asked::Read,
        many: 1,
        held: Some(Part::ReceiverEnd(LaneName::Down(1))),
        full: false,
        turns: 10,
        stop: Stop::Turns,
        calls: (9, 10),
    },
    Row {
        asked: Asked::Read,
        many: 1,
        held: None,
        full: false,
        turns: 10,
        stop: Stop::Turns,
        calls: (9, 10),
    },
    // The record of its one submission is pushed again and again.
    Row {
        asked: Asked::Write,
        many: 2,
        held: None,
        full: true,
        turns: 10,
        stop: Stop::Turns,
        calls: (1, 1),
    },
    // There are credits for 16. After that each round is a submission and a collection.
    Row {
        asked: Asked::Read,
        many: 17,
        held: None,
        full: false,
        turns: 40,
        stop: Stop::Turns,
        calls: (24, 40),
    },
    Row {
        asked: Asked::Unaligned,
        many: 1,
        held: None,
        full: false,
        turns: 10,
        stop: Stop::Core(UNALIGNED),
        calls: (1, 1),
    },
];

fn operation_of(asked: Asked) -> Op {
    match asked {
        Asked::Read => read(),
        Asked::Write => write(),
        Asked::Unaligned => add(0x42),
    }
}

/// What is taken by the seat is not put back.
fn keep(hall: &Hall, holder: WorkSeat, part: Part) {
    let number = holder.number() as u64;
    let mut place = holder.into_place();
    assert!(take(hall.steps(), &mut place, part.slot(), number).is_ok());
}

/// Requester 1 of a new hall ends so.
fn ends_so(row: &Row) -> bool {
    let (hall, mut seats, mut workers) = opened(config(1), 1);
    if let Some(part) = row.held {
        keep(&hall, workers.pop().unwrap(), part);
    }
    let script: Vec<Op> = (0..row.many).map(|_| operation_of(row.asked)).collect();
    let (recorder, mut taker) = Recorder::new(alloc()).unwrap();
    let pusher = recorder.begin(&mut taker, 1);
    let mut two = recorder.begin(&mut taker, 2);
    for _ in 0..if row.full { ROOM } else { 0 } {
        let record = Record::Sub { requester: 2, number: 0, op: read(), n: 0 };
        assert!(recorder.push(&mut two, record).is_ok());
    }
    let calls = Calls::none(1);
    let shared = Shared::new();
    let mut turns = Turns::new(1, row.turns, &calls, &shared);
    let ended = Requester::new(&hall, &recorder, &script, 1, seats.pop().unwrap(), pusher).run(&mut turns);
    ended.stop == Some(row.stop) && shared.stopped() == Some(row.stop) && calls.counted() == row.calls
}

#[test]
fn a_requester_alone_ends_so() {
    for (place, row) in ROWS.iter().enumerate() {
        assert!(ends_so(row), "row {place}");
    }
}
