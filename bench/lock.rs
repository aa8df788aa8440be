//! Additions by threads over one fabric behind a lock: `lock REQUESTERS EACH` prints what `pciex run` prints. A thread a
//! requester takes the lock, submits what it may, and makes the events that move its packets.
use dllp_core::Class;
use fabric_core::{ANSWER_ROOM, Config, Event, Fabric, LaneName, record_of};
use history_check::check;
use history_words::{Record, Trace};
use kit::alloc::Global;
use lane_core::{DllpKind, Fate, LaneCredits};
use std::sync::Mutex;
use seq_memory::Extent;
use tlp_core::{Op, Width};

/// A fabric and the records of its trace.
struct Session {
    fabric: Fabric,
    records: kit::Vec<Record>,
}

impl Session {
    /// Whether the event happens.
    fn happens(&mut self, event: &Event) -> bool {
        let mut room = ANSWER_ROOM;
        let n = self.fabric.history().len() as u64;
        let lent = event.lend();
        let Ok(seen) = self.fabric.step(&lent, &mut room) else {
            return false;
        };
        if let Some(record) = record_of(&lent, &seen, n) {
            self.records.push(record).ok().expect("memory");
        }
        true
    }

    /// Moves what is under way on a lane, as far as it goes.
    fn pump(&mut self, lane: LaneName) {
        while self.happens(&Event::Transmit(lane)) {
            self.happens(&Event::Deliver(lane, Fate::Good));
        }
        for kind in [DllpKind::Answer, DllpKind::Update(Class::Posted), DllpKind::Update(Class::NonPosted), DllpKind::Update(Class::Completion)] {
            if self.happens(&Event::SendDllp(lane, kind)) {
                self.happens(&Event::DeliverDllp(lane, Fate::Good));
            }
        }
    }

    /// A turn of a requester: so many submissions at most, its packets' way, and what was collected.
    fn turn(&mut self, port: u8, left: u64) -> (u64, u64) {
        let mut submitted = 0;
        let mut collected = 0;
        let add = Event::Submit(port, Op::FetchAdd { address: 0, width: Width::Four, operand: 1 });
        while submitted < left.min(4) && self.happens(&add) {
            submitted += 1;
        }
        self.pump(LaneName::Up(port));
        while self.happens(&Event::Forward(LaneName::Up(port), 0)) {}
        self.pump(LaneName::Inward);
        while self.happens(&Event::Serve(0)) {}
        self.pump(LaneName::Outward);
        while self.happens(&Event::Forward(LaneName::Outward, 0)) {}
        self.pump(LaneName::Down(port));
        while self.happens(&Event::Collect(port)) {
            collected += 1;
        }
        (submitted, collected)
    }
}

fn main() {
    let words: Vec<u64> = std::env::args().skip(1).map(|word| word.parse().expect("a number")).collect();
    let [requesters, each] = words[..] else { panic!("lock REQUESTERS EACH") };
    let config = Config { requesters: requesters as u8, base: 0, size: 4096, credits: LaneCredits::DEFAULT, block: 64 };
    let fabric = Fabric::new(config, Global).ok().expect("a configuration within its limits");
    let session = Mutex::new(Session { fabric, records: kit::Vec::new(Global) });
    std::thread::scope(|threads| {
        for port in 1..=requesters as u8 {
            let session = &session;
            threads.spawn(move || {
                let (mut submitted, mut collected) = (0, 0);
                while collected < each {
                    let (more, answers) = session.lock().expect("no thread panics").turn(port, each - submitted);
                    submitted += more;
                    collected += answers;
                    std::thread::yield_now();
                }
            });
        }
    });
    let session = session.into_inner().expect("no thread panics");
    let extent = Extent::new(0, 4096, 64).expect("a memory within its limits");
    let trace = Trace { extent, records: session.records };
    let bytes = session.fabric.bytes();
    let word = u32::from_le_bytes([bytes[0], bytes[1], bytes[2], bytes[3]]);
    println!("answered {}\nhistory {}\nword {word}", requesters * each, session.fabric.history().len());
    println!("check {}", if check(Global, &trace, session.fabric.history()).is_ok() { "ok" } else { "flaw" });
}
