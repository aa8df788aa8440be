//! Worked scripts, each event given to a hall and to a fabric.
use crate::beside::{Act, Asked, Told, ends_so, event_of, operation_of, told_by_fabric, told_by_hall};
use crate::halls::opened;
use crate::{alloc, config, list, read};
use dllp_core::Class;
use fabric_core::{Config, Fabric, LaneName};
use hall_core::{Hall, ReqSeat, WorkEvent, WorkSeat};
use history_words::Record;
use lane_core::{DllpKind, Fate, LaneCredits};
use seq_memory::Reply;
use tlp_core::Op;

/// The least credits.
pub const LEAST: LaneCredits = LaneCredits { ph: 1, pd: 8, nph: 1, npd: 2, cplh: 1, cpld: 8 };

const UP: LaneName = LaneName::Up(1);

const DOWN: LaneName = LaneName::Down(1);

const IN: LaneName = LaneName::Inward;

const OUT: LaneName = LaneName::Outward;

const ADD: Act = Act::Submit(Asked::Add(1));

const READ: Act = Act::Submit(Asked::Read);

const WRITE: Act = Act::Submit(Asked::Write);

/// An Ack is lost, the packet is sent again, and the sum is answered.
const LOST_ACK: [Act; 18] = [
    Act::Submit(Asked::Add(7)),
    Act::Work(WorkEvent::Transmit(UP)),
    Act::Work(WorkEvent::Deliver(UP, Fate::Good)),
    Act::Work(WorkEvent::SendDllp(UP, DllpKind::Answer)),
    Act::Work(WorkEvent::DeliverDllp(UP, Fate::Lost)),
    Act::Work(WorkEvent::Timer(UP)),
    Act::Work(WorkEvent::Transmit(UP)),
    Act::Work(WorkEvent::Deliver(UP, Fate::Good)),
    Act::Work(WorkEvent::Forward(UP, 0)),
    Act::Work(WorkEvent::Transmit(IN)),
    Act::Work(WorkEvent::Deliver(IN, Fate::Good)),
    Act::Work(WorkEvent::Serve(0)),
    Act::Work(WorkEvent::Transmit(OUT)),
    Act::Work(WorkEvent::Deliver(OUT, Fate::Good)),
    Act::Work(WorkEvent::Forward(OUT, 0)),
    Act::Work(WorkEvent::Transmit(DOWN)),
    Act::Work(WorkEvent::Deliver(DOWN, Fate::Good)),
    Act::Collect,
];

/// The second of three packets fails; it and the third are sent again.
const NAK_AND_REPLAY: [Act; 16] = [
    ADD,
    ADD,
    ADD,
    Act::Work(WorkEvent::Transmit(UP)),
    Act::Work(WorkEvent::Transmit(UP)),
    Act::Work(WorkEvent::Transmit(UP)),
    Act::Work(WorkEvent::Deliver(UP, Fate::Good)),
    Act::Work(WorkEvent::Deliver(UP, Fate::Failed)),
    Act::Work(WorkEvent::Deliver(UP, Fate::Good)),
    Act::Work(WorkEvent::SendDllp(UP, DllpKind::Answer)),
    Act::Work(WorkEvent::DeliverDllp(UP, Fate::Good)),
    Act::Work(WorkEvent::Transmit(UP)),
    Act::Work(WorkEvent::Deliver(UP, Fate::Good)),
    Act::Work(WorkEvent::Transmit(UP)),
    Act::Work(WorkEvent::Deliver(UP, Fate::Good)),
    Act::Work(WorkEvent::SendDllp(UP, DllpKind::Answer)),
];

/// A write acts before the read that was submitted before it.
const WRITE_PASSES_READ: [Act; 20] = [
    READ,
    WRITE,
    Act::Work(WorkEvent::Transmit(UP)),
    Act::Work(WorkEvent::Transmit(UP)),
    Act::Work(WorkEvent::Deliver(UP, Fate::Good)),
    Act::Work(WorkEvent::Deliver(UP, Fate::Good)),
    Act::Work(WorkEvent::Forward(UP, 1)),
    Act::Work(WorkEvent::Forward(UP, 0)),
    Act::Work(WorkEvent::Transmit(IN)),
    Act::Work(WorkEvent::Transmit(IN)),
    Act::Work(WorkEvent::Deliver(IN, Fate::Good)),
    Act::Work(WorkEvent::Deliver(IN, Fate::Good)),
    Act::Work(WorkEvent::Serve(0)),
    Act::Work(WorkEvent::Serve(0)),
    Act::Work(WorkEvent::Transmit(OUT)),
    Act::Work(WorkEvent::Deliver(OUT, Fate::Good)),
    Act::Work(WorkEvent::Forward(OUT, 0)),
    Act::Work(WorkEvent::Transmit(DOWN)),
    Act::Work(WorkEvent::Deliver(DOWN, Fate::Good)),
    Act::Collect,
];

/// A read passes no earlier write.
const READ_BEHIND_WRITE: [Act; 7] = [
    WRITE,
    READ,
    Act::Work(WorkEvent::Transmit(UP)),
    Act::Work(WorkEvent::Transmit(UP)),
    Act::Work(WorkEvent::Deliver(UP, Fate::Good)),
    Act::Work(WorkEvent::Deliver(UP, Fate::Good)),
    Act::Work(WorkEvent::Forward(UP, 1)),
];

/// The credits are used up.
const CREDITS_RUN_OUT: [Act; 2] = [ADD, ADD];

/// The credits come back.
const CREDITS_COME_BACK: [Act; 7] = [
    ADD,
    Act::Work(WorkEvent::Transmit(UP)),
    Act::Work(WorkEvent::Deliver(UP, Fate::Good)),
    Act::Work(WorkEvent::Forward(UP, 0)),
    Act::Work(WorkEvent::SendDllp(UP, DllpKind::Update(Class::NonPosted))),
    Act::Work(WorkEvent::DeliverDllp(UP, Fate::Good)),
    ADD,
];

/// The records of the script's trace on a new fabric.
fn records_of(config: Config, script: &[Act]) -> kit::Vec<Record> {
    let events = list(script.iter().map(|act| event_of(1, *act)));
    let mut fabric = Fabric::new(config, alloc()).unwrap();
    match fabric.run(&events, alloc()) {
        Ok(trace) => trace.records,
        Err(fault) => fault.trace.records,
    }
}

/// A record's requester and number, its operation or its reply, and its `n`.
fn parts(record: &Record) -> (u8, u32, Option<&Op>, Option<&Reply>, u64) {
    match record {
        Record::Sub { requester, number, op, n } => (*requester, *number, Some(op), None, *n),
        Record::Ans { requester, number, reply, n } => (*requester, *number, None, Some(reply), *n),
    }
}

/// Gives each event to the hall and to the fabric, which tell the same: the records of it.
fn play_both(
    hall: &Hall,
    seat: &mut ReqSeat,
    worker: &mut WorkSeat,
    fabric: &mut Fabric,
    script: &[Act],
) -> Vec<Record> {
    let mut records = Vec::new();
    for (place, act) in script.iter().enumerate() {
        let told = told_by_hall(hall, seat, worker, *act);
        assert!(told == told_by_fabric(fabric, 1, *act), "event {place}");
        match (*act, told) {
            (Act::Submit(asked), Told::Submitted(given)) => {
                let op = operation_of(asked);
                records.push(Record::Sub { requester: 1, number: given.number, op, n: given.n });
            }
            (_, Told::Collected(answer)) => {
                let (number, reply, n) = (answer.number, answer.reply, answer.n);
                records.push(Record::Ans { requester: 1, number, reply, n });
            }
            (_, told) => assert!(told != Told::Nothing, "event {place}"),
        }
    }
    records
}

/// The hall of the first requester's script, which goes as through a fabric, with the records of the script's trace.
fn played(config: Config, script: &[Act]) -> (Hall, Vec<ReqSeat>, Fabric) {
    let (hall, mut seats, mut workers) = opened(config, 1);
    let mut fabric = Fabric::new(config, alloc()).unwrap();
    let records = play_both(&hall, &mut seats[0], &mut workers[0], &mut fabric, script);
    assert!(records.iter().map(parts).eq(records_of(config, script).as_slice().iter().map(parts)));
    (hall, seats, fabric)
}

#[test]
fn scripts_go_as_through_a_fabric() {
    let default = LaneCredits::DEFAULT;
    let rows: [(LaneCredits, &[Act]); 6] = [
        (default, &LOST_ACK),
        (default, &NAK_AND_REPLAY),
        (default, &WRITE_PASSES_READ),
        (default, &READ_BEHIND_WRITE),
        (LEAST, &CREDITS_RUN_OUT),
        (LEAST, &CREDITS_COME_BACK),
    ];
    for (credits, script) in rows {
        let (hall, mut seats, fabric) = played(Config { credits, ..config(1) }, script);
        assert!(ends_so(hall, seats.pop().unwrap(), &fabric));
    }
}

#[test]
fn a_second_requester_reads() {
    let (hall, mut seats, _) = played(config(2), &LOST_ACK);
    let given = hall.submit(&mut seats[1], read()).unwrap();
    assert_eq!((given.number, given.n), (0, 1));
}
