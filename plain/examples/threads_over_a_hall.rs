//! Three threads over a hall: two requesters submit, a worker moves their packets, and `close_all` returns the fabric.

use fabric_core::{Config, Fabric, LaneName};
use fabric_settle::settle;
use hall_core::{Hall, WorkEvent};
use kit::alloc::Global;
use lane_core::{Fate, LaneCredits};
use std::sync::atomic::{AtomicU64, Ordering};
use tlp_core::{Op, Width};

const SMALL: Config = Config { requesters: 2, base: 0, size: 4096, credits: LaneCredits::DEFAULT, block: 64 };

fn main() {
    let fabric = Fabric::new(SMALL, Global).expect("a configuration within its limits");
    let (hall, mut seats, mut work) = Hall::new(fabric, 1, Global).expect("memory");
    let submitted = AtomicU64::new(0);
    let add = || Op::FetchAdd { address: 0x40, width: Width::Four, operand: 1 };
    std::thread::scope(|threads| {
        for seat in seats.iter_mut() {
            threads.spawn(|| {
                for _ in 0..8 {
                    while hall.submit(seat, add()).is_err() {
                        std::thread::yield_now();
                    }
                    submitted.fetch_add(1, Ordering::SeqCst);
                }
            });
        }
        let worker = &mut work[0];
        while submitted.load(Ordering::SeqCst) < 16 {
            for lane in [LaneName::Up(1), LaneName::Up(2)] {
                let _ = hall.pump(worker, WorkEvent::Transmit(lane));
                let _ = hall.pump(worker, WorkEvent::Deliver(lane, Fate::Good));
            }
        }
    });
    let mut fabric = hall.close_all(seats, work).expect("no part is held");
    settle(&mut fabric, &mut kit::Vec::new(Global), 0).expect("memory");
    assert_eq!(fabric.bytes()[0x40], 16);
}
