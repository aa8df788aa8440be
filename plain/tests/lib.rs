//! Tests in plain Rust, over the workspace that `translate.py` writes. They are no part of what is proved: they show that
//! the clauses say what was meant, that threads overlap and that runs end. Each public function that they call is called,
//! with success, by a test that is proved, too.
//!
//! Each loop that waits for others ends and yields: `ends` and `until` see to it.
#![cfg(test)]

mod beside;
mod carrying;
mod dllps;
mod endpoint_packets;
mod endpoint_registers;
mod exchange;
mod fates;
mod gates;
mod generated;
mod halls;
mod held;
mod lines;
mod link_credits;
mod link_receivers;
mod memory_answers;
mod memory_atomics;
mod memory_requests;
mod memory_stores;
mod memory_traces;
mod operation_texts;
mod ports;
mod queues;
mod records;
mod requesters;
mod round_rows;
mod rounds;
mod rows;
mod runs;
mod script_texts;
mod scripts;
mod searches;
mod settles;
mod storm;
mod text_rows;
mod threads;
mod tlps;
mod words;

use fabric_core::Config;
use kit::{HostRuntime, alloc::Global};
use lane_core::LaneCredits;
use std::thread;
use std::time::{Duration, Instant};
use tlp_core::{Op, Width, payload_of};

fn alloc() -> Global {
    HostRuntime::new().alloc()
}

/// What the crates take as a list.
fn list<T>(items: impl IntoIterator<Item = T>) -> kit::Vec<T> {
    let mut list = kit::Vec::new(alloc());
    for item in items {
        assert!(list.push(item).is_ok());
    }
    list
}

/// So many requesters and 4096 bytes.
fn config(requesters: u8) -> Config {
    Config { requesters, base: 0, size: 4096, credits: LaneCredits::DEFAULT, block: 64 }
}

/// Adds 1 to a word.
fn add(address: u64) -> Op {
    Op::FetchAdd { address, width: Width::Four, operand: 1 }
}

/// Reads the DW at 40h.
fn read() -> Op {
    Op::Read { address: 0x40, dw: 1, first: 15, last: 0 }
}

/// Writes 01 02 03 04 at 40h.
fn write() -> Op {
    Op::Write { address: 0x40, first: 15, last: 0, bytes: payload_of(&[1, 2, 3, 4]) }
}

/// Whether a step, which is repeated, tells within ten minutes that all is done: so long, since other processes may take
/// nearly all of the machine's time. It yields in each sixteenth round, and not in each: there a round would last as long
/// as all that waits to run.
fn ends(mut is_done: impl FnMut() -> bool) -> bool {
    let began = Instant::now();
    for round in 1u64.. {
        if is_done() {
            return true;
        }
        if round % 16 == 0 {
            if began.elapsed() > Duration::from_secs(600) {
                break;
            }
            thread::yield_now();
        }
    }
    false
}

/// Repeats a step until all is done. A test that doesn't come to its end fails, in each of its threads.
fn until(what: &str, is_done: impl FnMut() -> bool) {
    assert!(ends(is_done), "no end: {what}");
}
