//! Rounds of each kind of worker, call by call. A worker makes its first calls on a hall, the fabric beside it goes
//! through the events that those calls are to be, and both then answer the same.
use crate::beside::{Act, goes_so, worked};
use crate::halls::opened;
use crate::round_rows::{ANSWER, CREDITS, Call, IN, OUT, ROWS, Row, UP, UP_TWO};
use crate::{alloc, config};
use dllp_core::Class;
use fabric_core::{ANSWER_ROOM, Config, Fabric, LaneName};
use parameters::Plan;
use hall_core::laws::{put_back, take};
use hall_core::{Hall, ReqSeat, WorkEvent, WorkSeat};
use kit::sync::atomic::{AtomicU64, Ordering};
use lane_core::{DllpKind, Fate};
use worker_turns::{Gate, Shared, Stop, Turns};
use workers::{Job, Task, Worker, work};

/// Counts the calls of a worker. A call of another worker ends the run.
pub struct Calls {
    worker: u32,
    /// How many calls there were, and the turn of the last.
    made: AtomicU64,
    turn: AtomicU64,
}

impl Gate for Calls {
    fn pass(&self, worker: u32, turn: u64) -> bool {
        self.made.fetch_add(1, Ordering::SeqCst);
        self.turn.store(turn, Ordering::SeqCst);
        worker == self.worker
    }
}

impl Calls {
    /// No call was made yet.
    pub fn none(worker: u32) -> Calls {
        Calls { worker, made: AtomicU64::new(0), turn: AtomicU64::new(0) }
    }

    /// How many calls there were, and the turn of the last.
    pub fn counted(&self) -> (u64, u64) {
        (self.made.load(Ordering::SeqCst), self.turn.load(Ordering::SeqCst))
    }
}

/// Whether the worker makes so many calls in as many turns, which are all that it has.
fn makes(hall: &Hall, seat: WorkSeat, job: Job, count: u64) -> bool {
    let plan = Plan { lose_every: 2, corrupt_every: 3 };
    let calls = Calls::none(100);
    let shared = Shared::new();
    let worker = Worker::new(hall, seat, plan, 2);
    let turns = Turns::new(100, count, &calls, &shared);
    work(&mut [Task::new(worker, job, turns)]);
    shared.stopped() == Some(Stop::Turns) && calls.counted() == (count, count)
}

/// The same of a row's job, while the holder has the row's part.
fn works(hall: &Hall, seat: WorkSeat, holder: WorkSeat, row: &Row, count: u64) -> bool {
    let Some(part) = row.held else {
        return makes(hall, seat, row.job, count);
    };
    let number = holder.number() as u64;
    let mut place = holder.into_place();
    let value = take(hall.steps(), &mut place, part.slot(), number).ok().unwrap();
    let right = makes(hall, seat, row.job, count);
    put_back(hall.steps(), &mut place, part.slot(), value);
    right
}

/// What shows the state of a lane, and of the memory.
fn looks(lane: LaneName) -> [Act; 13] {
    [
        WorkEvent::Retrained(lane),
        WorkEvent::DeliverDllp(lane, Fate::Good),
        WorkEvent::DeliverDllp(lane, Fate::Good),
        WorkEvent::Deliver(lane, Fate::Good),
        WorkEvent::SendDllp(lane, ANSWER),
        WorkEvent::SendDllp(lane, DllpKind::Update(Class::Posted)),
        WorkEvent::SendDllp(lane, DllpKind::Update(Class::NonPosted)),
        WorkEvent::SendDllp(lane, DllpKind::Update(Class::Completion)),
        WorkEvent::Timer(lane),
        WorkEvent::Transmit(lane),
        WorkEvent::Forward(lane, 0),
        WorkEvent::Forward(lane, 1),
        WorkEvent::Serve(0),
    ]
    .map(Act::Work)
}

/// Whether eight looks at each lane, one after the other, show the same of the hall and of the fabric.
fn is_the_same(hall: &Hall, seat: &mut ReqSeat, worker: &mut WorkSeat, fabric: &mut Fabric) -> bool {
    let mut right = true;
    for _look in 0..8 {
        for lane in [UP, UP_TWO, IN, OUT, LaneName::Down(1), LaneName::Down(2)] {
            for act in looks(lane) {
                right &= goes_so(hall, seat, worker, fabric, 1, act);
            }
        }
    }
    right
}

/// Whether a new hall is as a new fabric after so many calls of the row.
fn is_right(row: &Row, count: usize) -> bool {
    let config = Config { credits: CREDITS, ..config(2) };
    let mut fabric = Fabric::new(config, alloc()).unwrap();
    let (hall, mut seats, mut workers) = opened(config, 3);
    let (worker, holder, mut looker) = (workers.pop().unwrap(), workers.pop().unwrap(), workers.pop().unwrap());
    let mut right = true;
    for (port, lists) in [(2, row.second), (1, row.first)] {
        for act in lists.concat() {
            right &= goes_so(&hall, &mut seats[usize::from(port) - 1], &mut looker, &mut fabric, port, act);
        }
    }
    right &= works(&hall, worker, holder, row, count as u64);
    for call in &row.calls[..count] {
        if let Call::Event(event) = call {
            let mut room = ANSWER_ROOM;
            let _ = fabric.step(&worked(*event).lend(), &mut room);
        }
    }
    right && is_the_same(&hall, &mut seats[0], &mut looker, &mut fabric)
}

#[test]
fn each_round_makes_its_calls() {
    for (place, row) in ROWS.iter().enumerate() {
        for count in 1..=row.calls.len() {
            assert!(is_right(row, count), "row {place}, call {count}");
        }
    }
}
