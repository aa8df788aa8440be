//! Runs with a gate, which sees each call of a worker: workers overlap, each has its number, used tags come back, and a
//! gate or a lack of turns ends a run.
use crate::runs::{additions, halt_of, plan_with};
use crate::{add, ends, read};
use parameters::Plan;
use kit::sync::atomic::{AtomicBool, AtomicU64, Ordering};
use kit::time::Clock;
use std::time::Duration;
use worker_turns::Backoff;
use workers::{Gate, RunHalt, RunPlan, SleepingGate};

/// A worker at its first turn.
struct First {
    /// How often the gate was asked of it.
    asked: AtomicU64,
    /// Whether it saw that the other had come to its own first turn.
    saw: AtomicBool,
}

impl First {
    fn new() -> First {
        First { asked: AtomicU64::new(0), saw: AtomicBool::new(false) }
    }

    /// The worker comes, and goes on where it sees that the other has come.
    fn comes(&self, other: &First) -> bool {
        self.asked.fetch_add(1, Ordering::SeqCst);
        let seen = ends(|| other.asked.load(Ordering::SeqCst) > 0);
        self.saw.store(seen, Ordering::SeqCst);
        seen
    }

    /// Whether the gate was asked once of the worker, which saw the other.
    fn is_met(&self) -> bool {
        self.asked.load(Ordering::SeqCst) == 1 && self.saw.load(Ordering::SeqCst)
    }
}

/// Lets the workers 1 and 2 go on from their first turns when both have come to it.
struct Meeting {
    one: First,
    two: First,
}

impl Gate for Meeting {
    fn pass(&self, worker: u32, turn: u64) -> bool {
        match (worker, turn) {
            (1, 1) => self.one.comes(&self.two),
            (2, 1) => self.two.comes(&self.one),
            _ => true,
        }
    }
}

#[test]
fn workers_overlap() {
    let gate = Meeting { one: First::new(), two: First::new() };
    assert!(halt_of(additions(2, 10), &gate).is_none());
    assert!(gate.one.is_met() && gate.two.is_met());
}

/// Answers `false` at its hundredth call.
struct Hundred {
    calls: AtomicU64,
}

impl Gate for Hundred {
    fn pass(&self, _worker: u32, _turn: u64) -> bool {
        self.calls.fetch_add(1, Ordering::SeqCst) != 99
    }
}

#[test]
fn a_gate_ends_the_run() {
    let gate = Hundred { calls: AtomicU64::new(0) };
    assert!(halt_of(additions(2, 1000), &gate) == Some(RunHalt::Gated));
}

/// Keeps the greatest turn that any worker makes a call at.
struct Furthest {
    turn: AtomicU64,
}

impl Gate for Furthest {
    fn pass(&self, _worker: u32, turn: u64) -> bool {
        self.turn.fetch_max(turn, Ordering::SeqCst);
        true
    }
}

/// The greatest turn of a call in a run that ends for lack of turns.
fn ends_at(plan: RunPlan) -> u64 {
    let gate = Furthest { turn: AtomicU64::new(0) };
    assert!(halt_of(plan, &gate) == Some(RunHalt::Turns));
    gate.turn.load(Ordering::SeqCst)
}

/// Over links that lose all, and on which all fails, all turns of a worker are calls but for one of a requester, at which
/// it pushes its first record.
#[test]
fn turns_end_the_run() {
    for (requesters, lose_every, corrupt_every) in [(1, 1, 0), (2, 0, 1)] {
        let plan = Plan { lose_every, corrupt_every };
        assert_eq!(ends_at(RunPlan { plan, turns: 1000, ..additions(requesters, 1) }), 1000);
    }
}

#[test]
fn a_hundred_turns_are_too_few() {
    assert!(ends_at(RunPlan { turns: 100, ..additions(2, 1000) }) <= 100);
}

/// A call: the worker's number, and the turn.
type Turn = (u32, u64);

/// The worker of the switch.
const SWITCH: u32 = 24;

/// Lets the calls of a list be made one after the other, and all others when the last of the list is done.
struct Ordered {
    order: Vec<Turn>,
    /// How many calls of the list are done.
    done: AtomicU64,
    /// The turn of the next call by the worker of the last one.
    next: AtomicU64,
}

impl Ordered {
    /// The worker has done the call of the list that is under way, if it is the worker's, and comes to a later turn.
    fn finish(&self, worker: u32, turn: u64) {
        let done = self.done.load(Ordering::SeqCst);
        match self.order.get(done as usize) {
            Some((own, at)) if *own == worker && *at < turn => {
                self.next.store(turn, Ordering::SeqCst);
                self.done.store(done + 1, Ordering::SeqCst);
            }
            _ => {}
        }
    }
}

impl Gate for Ordered {
    fn pass(&self, worker: u32, turn: u64) -> bool {
        self.finish(worker, turn);
        let place = self.order.iter().position(|own| *own == (worker, turn));
        let wanted = place.unwrap_or(self.order.len()) as u64;
        ends(|| self.done.load(Ordering::SeqCst) == wanted)
    }
}

/// The way of the first request of the last of so many requesters: from `up` through `in` to the memory, and from `out`
/// through `down` back. The switch looks at `out` and at each `up` lane before it twice, and at that one once. The
/// requester's turns are its two submissions, each followed by that of its record, and a collection.
fn order_of(requester: u8) -> Vec<Turn> {
    let number = u32::from(requester);
    let forwards = u64::from(requester) * 2 + 1;
    let mut order = vec![(number, 1), (number, 3), (number + 7, 1), (number + 107, 1)];
    order.extend((1..=forwards).map(|turn| (SWITCH, turn)));
    order.extend([22, 122, 25, 23, 123].map(|worker| (worker, 1)));
    order.extend([(SWITCH, forwards + 1), (number + 14, 1), (number + 114, 1), (number, 5)]);
    order
}

/// A request that goes its way by single calls, one worker after the other, is answered at its requester's next call. The
/// turn between is the push of its record.
#[test]
fn each_worker_has_the_number_of_its_part() {
    for requester in 1..=7 {
        let gate = Ordered { order: order_of(requester), done: AtomicU64::new(0), next: AtomicU64::new(0) };
        let mut scripts = (1..requester).map(|_| Vec::new()).collect::<Vec<_>>();
        scripts.push(vec![add(0), add(0)]);
        assert!(halt_of(plan_with(scripts), &gate).is_none(), "{requester}");
        assert_eq!(gate.next.load(Ordering::SeqCst), 7, "{requester}");
    }
}

/// How many requests may wait for their completions.
const TAGS: u64 = 256;

/// The worker that sends completions to requester 1.
const DOWN_SENDER: u32 = 15;

/// Keeps completions back until requester 1 has submitted as many requests as may wait for theirs, and was then refused
/// a thousand times.
struct Withheld {
    /// The turn of the requester's last call.
    turn: AtomicU64,
    /// How many of its calls were submissions that happened: its record was pushed at the turn after it.
    submitted: AtomicU64,
    /// How many of its calls, all tags being used, were in vain.
    refused: AtomicU64,
}

impl Withheld {
    /// The requester comes to a call.
    fn count(&self, turn: u64) {
        let last = self.turn.swap(turn, Ordering::SeqCst);
        if turn - last > 1 {
            self.submitted.fetch_add(1, Ordering::SeqCst);
        } else if self.submitted.load(Ordering::SeqCst) == TAGS {
            self.refused.fetch_add(1, Ordering::SeqCst);
        }
    }
}

impl Gate for Withheld {
    fn pass(&self, worker: u32, turn: u64) -> bool {
        if worker == 1 {
            self.count(turn);
        }
        worker != DOWN_SENDER || ends(|| self.refused.load(Ordering::SeqCst) > 1000)
    }
}

/// One read more than there are tags.
#[test]
fn used_tags_come_back() {
    let gate = Withheld { turn: AtomicU64::new(0), submitted: AtomicU64::new(0), refused: AtomicU64::new(0) };
    let script = (0..TAGS + 1).map(|_| read()).collect();
    assert!(halt_of(plan_with(vec![script]), &gate).is_none());
}

/// A clock that counts how often a thread was to sleep.
struct Sleeps {
    count: AtomicU64,
}

impl Clock for Sleeps {
    fn monotonic(&self) -> std::io::Result<Duration> {
        Ok(Duration::ZERO)
    }

    fn since_1970(&self) -> std::io::Result<Duration> {
        Ok(Duration::ZERO)
    }

    fn sleep(&self, duration: Duration) {
        assert!(duration > Duration::ZERO);
        self.count.fetch_add(1, Ordering::SeqCst);
    }
}

/// A thread sleeps at the third rest in a row and at each one after, until it gets on.
#[test]
fn a_thread_sleeps_after_two_rests() {
    let clock = Sleeps { count: AtomicU64::new(0) };
    let gate = SleepingGate { clock: &clock };
    let mut backoff = Backoff::new();
    for sleeps in [[0, 0, 1, 2], [2, 2, 3, 4]] {
        for count in sleeps {
            backoff.rest(&gate);
            assert_eq!(clock.count.load(Ordering::SeqCst), count);
        }
        backoff.got_on();
    }
}

/// Keeps how often a thread rested in a row, at most. The requester makes its first call once a thread rested twice.
struct Rests {
    most: AtomicU64,
}

impl Gate for Rests {
    fn pass(&self, worker: u32, turn: u64) -> bool {
        (worker, turn) != (1, 1) || ends(|| self.most.load(Ordering::SeqCst) > 1)
    }

    fn rest(&self, rests: u32) {
        self.most.fetch_max(u64::from(rests), Ordering::SeqCst);
    }
}

/// Threads that get nowhere rest at the gate of the run, which then ends in its report.
#[test]
fn threads_rest_at_the_gate() {
    let gate = Rests { most: AtomicU64::new(0) };
    assert!(halt_of(additions(1, 50), &gate).is_none());
    assert!(gate.most.load(Ordering::SeqCst) > 1);
}
