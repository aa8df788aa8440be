//! A hall beside a fabric: what both tell of the same calls.
use crate::{read, write};
use fabric_core::{ANSWER_ROOM, Event, Fabric, Refusal, Seen};
use hall_core::{Answered, Hall, HallRefusal, ReqSeat, Submitted, WorkEvent, WorkSeat};
use tlp_core::{Op, Width};

/// An operation.
#[derive(Clone, Copy)]
pub enum Asked {
    /// Adds this to the word at 40h.
    Add(u8),
    Read,
    Write,
}

/// An event of a requester, or of a work seat.
#[derive(Clone, Copy)]
pub enum Act {
    Submit(Asked),
    Collect,
    Work(WorkEvent),
}

pub fn operation_of(asked: Asked) -> Op {
    match asked {
        Asked::Add(operand) => Op::FetchAdd { address: 0x40, width: Width::Four, operand: operand.into() },
        Asked::Read => read(),
        Asked::Write => write(),
    }
}

/// The event of a work seat as one of the fabric.
pub fn worked(event: WorkEvent) -> Event {
    match event {
        WorkEvent::Transmit(lane) => Event::Transmit(lane),
        WorkEvent::Deliver(lane, fate) => Event::Deliver(lane, fate),
        WorkEvent::SendDllp(lane, kind) => Event::SendDllp(lane, kind),
        WorkEvent::DeliverDllp(lane, fate) => Event::DeliverDllp(lane, fate),
        WorkEvent::Timer(lane) => Event::Timer(lane),
        WorkEvent::Retrained(lane) => Event::Retrained(lane),
        WorkEvent::Forward(lane, place) => Event::Forward(lane, place),
        WorkEvent::Serve(place) => Event::Serve(place),
    }
}

/// The event of the fabric, a requester's being that of this port.
pub fn event_of(port: u8, act: Act) -> Event {
    match act {
        Act::Submit(asked) => Event::Submit(port, operation_of(asked)),
        Act::Collect => Event::Collect(port),
        Act::Work(event) => worked(event),
    }
}

/// What is told of a call.
#[derive(PartialEq)]
pub enum Told {
    Submitted(Submitted),
    Collected(Answered),
    /// No completion had arrived.
    Nothing,
    Seen(Seen),
    Refused(HallRefusal),
}

/// What the hall tells of the call.
pub fn told_by_hall(hall: &Hall, seat: &mut ReqSeat, worker: &mut WorkSeat, act: Act) -> Told {
    let told = match act {
        Act::Submit(asked) => hall.submit(seat, operation_of(asked)).map(Told::Submitted),
        Act::Collect => hall.collect(seat).map(|answer| answer.map_or(Told::Nothing, Told::Collected)),
        Act::Work(event) => hall.pump(worker, event).map(Told::Seen),
    };
    told.unwrap_or_else(Told::Refused)
}

/// What the fabric tells of the event, a requester's being that of this port.
pub fn told_by_fabric(fabric: &mut Fabric, port: u8, act: Act) -> Told {
    let n = fabric.history().len() as u64;
    let mut room = ANSWER_ROOM;
    match fabric.step(&event_of(port, act).lend(), &mut room).map(|seen| seen.to_owned()) {
        Ok(Seen::Submitted(number)) => Told::Submitted(Submitted { number, n }),
        Ok(Seen::Collected(answer)) => Told::Collected(Answered { number: answer.number, reply: answer.reply, n }),
        Ok(seen) => Told::Seen(seen),
        Err(Refusal::Idle) if matches!(act, Act::Collect) => Told::Nothing,
        Err(refusal) => Told::Refused(HallRefusal::Core(refusal)),
    }
}

/// Whether the hall tells the call as the fabric does, the seat being that of this port.
pub fn goes_so(
    hall: &Hall,
    seat: &mut ReqSeat,
    worker: &mut WorkSeat,
    fabric: &mut Fabric,
    port: u8,
    act: Act,
) -> bool {
    told_by_hall(hall, seat, worker, act) == told_by_fabric(fabric, port, act)
}

/// Whether a closed hall leaves the same history and bytes, and as much on its way.
pub fn ends_so(hall: Hall, seat: ReqSeat, fabric: &Fabric) -> bool {
    let left = hall.close(seat).unwrap_or_else(|_| panic!("a part is still held"));
    left.history() == fabric.history() && left.bytes() == fabric.bytes() && left.quiet() == fabric.quiet()
}
