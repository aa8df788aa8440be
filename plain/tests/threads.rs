//! Halls driven by threads, and by threads that stop while packets are under way.
use crate::halls::{leaves, opened};
use crate::{add, alloc, config, list, until, write};
use dllp_core::Class;
use fabric_core::{Config, LaneName, Refusal, Seen};
use fabric_settle::settle;
use hall_core::{Hall, HallRefusal, ReqSeat, WorkEvent, WorkSeat};
use history_check::check;
use history_words::Record;
use lane_core::{Arrival, DllpKind, Fate, LaneCredits};
use link_replay::Reception;
use std::sync::atomic::{AtomicUsize, Ordering};
use std::thread;

/// The lane's oldest DLLP arrives. Where there is none, an Ack and the credits of this class are sent: so no more than
/// two are on their way, however often a part is busy.
fn answer(hall: &Hall, seat: &mut WorkSeat, lane: LaneName, class: Class) {
    let told = hall.pump(seat, WorkEvent::DeliverDllp(lane, Fate::Good));
    if told == Err(HallRefusal::Core(Refusal::Idle)) {
        let _ = hall.pump(seat, WorkEvent::SendDllp(lane, DllpKind::Answer));
        let _ = hall.pump(seat, WorkEvent::SendDllp(lane, DllpKind::Update(class)));
    }
}

/// A packet and the DLLPs of a lane go on, if there are any.
fn carry(hall: &Hall, seat: &mut WorkSeat, lane: LaneName, class: Class) {
    let _ = hall.pump(seat, WorkEvent::Transmit(lane));
    let _ = hall.pump(seat, WorkEvent::Deliver(lane, Fate::Good));
    answer(hall, seat, lane, class);
}

/// What there is in a fabric of so many requesters goes on.
pub fn carry_all(hall: &Hall, seat: &mut WorkSeat, requesters: u8) {
    for port in 1..=requesters {
        carry(hall, seat, LaneName::Up(port), Class::NonPosted);
        let _ = hall.pump(seat, WorkEvent::Forward(LaneName::Up(port), 0));
        carry(hall, seat, LaneName::Down(port), Class::Completion);
    }
    carry(hall, seat, LaneName::Inward, Class::NonPosted);
    let _ = hall.pump(seat, WorkEvent::Serve(0));
    carry(hall, seat, LaneName::Outward, Class::Completion);
    let _ = hall.pump(seat, WorkEvent::Forward(LaneName::Outward, 0));
}

/// Submits so many additions, and takes their answers.
fn add_often(hall: &Hall, seat: &mut ReqSeat, count: u32) {
    let (mut given, mut taken) = (0, 0);
    until("additions", || {
        given += u32::from(given < count && hall.submit(seat, add(0)).is_ok());
        taken += u32::from(matches!(hall.collect(seat), Ok(Some(_))));
        taken == count
    });
}

#[test]
fn requesters_add_each_in_its_thread() {
    for requesters in 1..=7 {
        let (hall, mut seats, mut workers) = opened(config(requesters), 1);
        let done = AtomicUsize::new(0);
        thread::scope(|scope| {
            for seat in &mut seats {
                scope.spawn(|| {
                    add_often(&hall, seat, 100);
                    done.fetch_add(1, Ordering::SeqCst);
                });
            }
            until("the work", || {
                carry_all(&hall, &mut workers[0], requesters);
                done.load(Ordering::SeqCst) == usize::from(requesters)
            });
        });
        let count = u32::from(requesters) * 100;
        leaves(hall, seats.pop().unwrap(), count as usize, count);
    }
}

const LANE: LaneName = LaneName::Up(1);

const PACKETS: usize = 10_000;

/// Pumps one event until all packets are sent, or accepted. Nothing else is seen of it.
fn pump_often(hall: &Hall, seat: &mut WorkSeat, event: WorkEvent) {
    let mut carried = 0;
    until("packets", || {
        if let Ok(seen) = hall.pump(seat, event) {
            let accepted = Seen::Delivered(Arrival::Answered(Reception::Accept));
            assert!(matches!(seen, Seen::Sent(_)) || seen == accepted);
            carried += 1;
        }
        carried == PACKETS
    });
}

/// A lane with the most posted credits, so that a thread alone finds much to do: two threads send and deliver its packets,
/// and this one makes all other calls.
#[test]
fn two_threads_carry_a_lane() {
    let credits = LaneCredits { ph: 127, pd: 2047, ..LaneCredits::DEFAULT };
    let (hall, mut seats, mut workers) = opened(Config { credits, ..config(1) }, 3);
    let [sender, receiver, worker] = &mut workers[..] else { panic!("three work seats") };
    thread::scope(|scope| {
        scope.spawn(|| pump_often(&hall, sender, WorkEvent::Transmit(LANE)));
        scope.spawn(|| pump_often(&hall, receiver, WorkEvent::Deliver(LANE, Fate::Good)));
        let (mut given, mut served) = (0, 0);
        until("the other calls", || {
            while given < PACKETS && hall.submit(&mut seats[0], write()).is_ok() {
                given += 1;
            }
            answer(&hall, worker, LANE, Class::Posted);
            let _ = hall.pump(worker, WorkEvent::Forward(LANE, 0));
            carry(&hall, worker, LaneName::Inward, Class::Posted);
            served += usize::from(hall.pump(worker, WorkEvent::Serve(0)).is_ok());
            served == PACKETS
        });
    });
    leaves(hall, seats.pop().unwrap(), PACKETS, 0);
}

#[test]
fn threads_stop_and_each_submission_counts() {
    let (hall, mut seats, mut workers) = opened(config(2), 1);
    let mut given = 0u32;
    thread::scope(|scope| {
        scope.spawn(|| (0..100).for_each(|_| carry_all(&hall, &mut workers[0], 2)));
        for _ in 0..3000 {
            given += u32::from(hall.submit(&mut seats[0], add(0)).is_ok());
            let _ = hall.collect(&mut seats[0]);
        }
    });
    let mut fabric = hall.close(seats.pop().unwrap()).unwrap_or_else(|_| panic!("a part is still held"));
    let mut records: kit::Vec<Record> = kit::Vec::new(alloc());
    settle(&mut fabric, &mut records, 0).unwrap();
    assert!(given > 0 && fabric.quiet());
    assert_eq!(fabric.history().len(), given as usize);
    assert_eq!(fabric.bytes()[..4], given.to_le_bytes());
}

/// The records of requests, each fourth a posted write, and of their answers.
fn request_some(hall: &Hall, seat: &mut ReqSeat) -> kit::Vec<Record> {
    let mut records = kit::Vec::new(alloc());
    for call in 0..1000 {
        let asked = || if call % 4 == 0 { write() } else { add(0) };
        if let Ok(given) = hall.submit(seat, asked()) {
            let record = Record::Sub { requester: 1, number: given.number, op: asked(), n: given.n };
            assert!(records.push(record).is_ok());
        }
        if let Ok(Some(got)) = hall.collect(seat) {
            let record = Record::Ans { requester: 1, number: got.number, reply: got.reply, n: got.n };
            assert!(records.push(record).is_ok());
        }
    }
    records
}

/// Whether the request with this number is answered.
fn has_answer(records: &[Record], asked: u32) -> bool {
    records.iter().any(|record| matches!(record, Record::Ans { number, .. } if *number == asked))
}

#[test]
fn threads_stop_and_each_request_is_answered() {
    let (hall, mut seats, mut workers) = opened(config(1), 1);
    let mut records = thread::scope(|scope| {
        scope.spawn(|| (0..50).for_each(|_| carry_all(&hall, &mut workers[0], 2)));
        request_some(&hall, &mut seats[0])
    });
    let mut fabric = hall.close_all(list(seats), list(workers)).unwrap_or_else(|_| panic!("a part is still held"));
    assert!(!records.is_empty());
    settle(&mut fabric, &mut records, 0).unwrap();
    for record in records.as_slice() {
        if let Record::Sub { number, op, .. } = record {
            assert!(op.is_posted() || has_answer(&records, *number), "{number}");
        }
    }
    let trace = fabric.trace_of(records);
    assert!(check(alloc(), &trace, fabric.history()).is_ok());
}
