//! A work seat carries what one thread has seen to another.
use crate::halls::opened;
use crate::threads::carry_all;
use crate::{add, config, until};
use hall_core::{Answered, Hall, HallRefusal, Part, ReqSeat, WorkSeat};
use seq_memory::Reply;
use std::sync::atomic::{AtomicUsize, Ordering};
use std::sync::mpsc::{Receiver, Sender, channel};
use std::thread;

/// What goes from thread to thread: a work seat, and the count of the last answer.
type Carried = (WorkSeat, u64);

const TURNS: u32 = 200;

/// Both seats when they met, and the length of the history then.
fn meets(hall: &Hall, one: ReqSeat, carrier: WorkSeat) -> (ReqSeat, WorkSeat, u64) {
    let mut seats = Some((one, carrier));
    let mut n = 0;
    until("a meeting", || {
        let (one, carrier) = seats.take().expect("both seats come back");
        match hall.meet_work(one, carrier) {
            Ok((one, carrier, length)) => {
                (seats, n) = (Some((one, carrier)), length);
                true
            }
            Err((refusal, one, carrier)) => {
                assert!(matches!(refusal, HallRefusal::Busy { part: Part::Memory, .. }));
                seats = Some((one, carrier));
                false
            }
        }
    });
    let (one, carrier) = seats.expect("both seats come back");
    (one, carrier, n)
}

/// The count of a submission, and the answer to it.
fn adds(hall: &Hall, seat: &mut ReqSeat) -> (u64, Answered) {
    let mut n = None;
    let mut answer = None;
    until("an addition", || {
        if n.is_none() {
            n = hall.submit(seat, add(0)).ok().map(|given| given.n);
        } else {
            answer = hall.collect(seat).unwrap_or(None);
        }
        answer.is_some()
    });
    (n.expect("it is submitted"), answer.expect("it is answered"))
}

/// The turns of one thread: it adds when it has the work seat, and hands it on.
fn takes_turns(hall: &Hall, mut seat: ReqSeat, from: &Receiver<Carried>, to: &Sender<Carried>, first: u32) {
    for turn in (first..TURNS).step_by(2) {
        let (carrier, answered) = from.recv().expect("the other thread hands it on");
        let (back, carrier, met) = meets(hall, seat, carrier);
        seat = back;
        let (given, answer) = adds(hall, &mut seat);
        assert!(answered <= met && met <= given && given < answer.n, "{answered}, {met}, {given}, {}", answer.n);
        assert!(matches!(&answer.reply, Reply::Data(word) if word.as_slice() == turn.to_le_bytes()), "{turn}");
        let (back, carrier, _) = meets(hall, seat, carrier);
        seat = back;
        let _ = to.send((carrier, answer.n));
    }
}

#[test]
fn what_was_carried_acts_first() {
    let (hall, mut seats, mut workers) = opened(config(2), 2);
    let (two, one, carrier) = (seats.pop().unwrap(), seats.pop().unwrap(), workers.pop().unwrap());
    let ((to_one, at_one), (to_two, at_two)) = (channel(), channel());
    to_one.send((carrier, 0)).unwrap();
    let done = AtomicUsize::new(0);
    thread::scope(|scope| {
        for (seat, at, to, first) in [(one, at_one, to_two, 0), (two, at_two, to_one, 1)] {
            let (hall, done) = (&hall, &done);
            scope.spawn(move || {
                takes_turns(hall, seat, &at, &to, first);
                done.fetch_add(1, Ordering::SeqCst);
            });
        }
        until("the work", || {
            carry_all(&hall, &mut workers[0], 2);
            done.load(Ordering::SeqCst) == 2
        });
    });
}
