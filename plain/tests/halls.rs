//! Halls from one thread: worked rows, refused events, the number of work seats.
use crate::{add, alloc, config};
use fabric_core::{Config, Fabric, LaneName, Refusal};
use hall_core::{Hall, HallFault, HallRefusal, ReqSeat, WorkEvent, WorkSeat};
use lane_core::Fate;
use seq_memory::Reply;

/// A hall of a new fabric, with its seats.
pub fn opened(config: Config, work: usize) -> (Hall, Vec<ReqSeat>, Vec<WorkSeat>) {
    let fabric = Fabric::new(config, alloc()).unwrap();
    let (hall, seats, workers) = Hall::new(fabric, work, alloc()).unwrap();
    (hall, seats.into_iter().collect(), workers.into_iter().collect())
}

/// The fabric that the hall leaves, which is quiet, with a history so long, and this as its first word.
pub fn leaves(hall: Hall, seat: ReqSeat, entries: usize, word: u32) -> Fabric {
    let fabric = hall.close(seat).unwrap_or_else(|_| panic!("a part is still held"));
    assert!(fabric.quiet());
    assert_eq!(fabric.history().len(), entries);
    assert_eq!(fabric.bytes()[..4], word.to_le_bytes());
    fabric
}

/// A request of this port goes through Serve.
fn serve(hall: &Hall, worker: &mut WorkSeat, port: u8) {
    let up = LaneName::Up(port);
    for event in [
        WorkEvent::Transmit(up),
        WorkEvent::Deliver(up, Fate::Good),
        WorkEvent::Forward(up, 0),
        WorkEvent::Transmit(LaneName::Inward),
        WorkEvent::Deliver(LaneName::Inward, Fate::Good),
        WorkEvent::Serve(0),
    ] {
        hall.pump(worker, event).unwrap();
    }
}

/// Its completion comes back.
fn give_back(hall: &Hall, worker: &mut WorkSeat, port: u8) {
    let down = LaneName::Down(port);
    for event in [
        WorkEvent::Transmit(LaneName::Outward),
        WorkEvent::Deliver(LaneName::Outward, Fate::Good),
        WorkEvent::Forward(LaneName::Outward, 0),
        WorkEvent::Transmit(down),
        WorkEvent::Deliver(down, Fate::Good),
    ] {
        hall.pump(worker, event).unwrap();
    }
}

/// The seat's first request, an addition, is answered with this word.
fn is_answered(hall: &Hall, seat: &mut ReqSeat, word: u32) {
    let answer = hall.collect(seat).unwrap().unwrap();
    let Reply::Data(bytes) = &answer.reply else { panic!("no data") };
    assert_eq!((answer.number, bytes.as_slice(), answer.n), (0, &word.to_le_bytes()[..], 2));
}

#[test]
fn seats_meet() {
    let (hall, mut seats, mut workers) = opened(config(2), 1);
    let (mut two, mut one, worker) = (seats.pop().unwrap(), seats.pop().unwrap(), &mut workers[0]);
    let given = hall.submit(&mut one, add(0)).unwrap();
    assert_eq!((given.number, given.n), (0, 0));
    serve(&hall, worker, 1);
    let given = hall.submit(&mut two, add(0)).unwrap();
    assert_eq!((given.number, given.n), (0, 1));
    let (one, two, n) = hall.meet(one, two).ok().unwrap();
    assert_eq!(n, 1);
    serve(&hall, worker, 2);
    let (mut one, mut two, n) = hall.meet(one, two).ok().unwrap();
    assert_eq!(n, 2);
    give_back(&hall, worker, 1);
    give_back(&hall, worker, 2);
    is_answered(&hall, &mut one, 0);
    is_answered(&hall, &mut two, 1);
}

#[test]
fn what_cannot_happen_is_refused_by_the_core() {
    let (hall, _, mut workers) = opened(config(1), 1);
    for (event, refusal) in [
        (WorkEvent::Transmit(LaneName::Up(1)), Refusal::Idle),
        (WorkEvent::Transmit(LaneName::Up(2)), Refusal::NoSuchPart),
        (WorkEvent::Timer(LaneName::Down(0)), Refusal::NoSuchPart),
        (WorkEvent::Forward(LaneName::Inward, 0), Refusal::NoSuchPart),
        (WorkEvent::Forward(LaneName::Up(1), 0), Refusal::NotTakeable),
        (WorkEvent::Serve(0), Refusal::NotTakeable),
    ] {
        assert!(hall.pump(&mut workers[0], event) == Err(HallRefusal::Core(refusal)));
    }
}

#[test]
fn a_hall_has_1_to_64_work_seats() {
    for (work, fault) in [(0, Some(HallFault::Seats)), (1, None), (64, None), (65, Some(HallFault::Seats))] {
        let fabric = Fabric::new(config(1), alloc()).unwrap();
        assert!(Hall::new(fabric, work, alloc()).err() == fault, "{work}");
    }
}
