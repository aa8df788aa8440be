//! Runs by worker threads: additions, each counted once; mixed operations, explained as values and as text; faulty plans.
use crate::{add, alloc, config, list};
use fabric_core::Config;
use parameters::Plan;
use history_check::check;
use history_words::{Claim, Record};
use kit::HostRuntime;
use lane_core::LaneCredits;
use seq_memory::Reply;
use std::io::sink;
use tlp_core::{Op, Width, payload_of};
use trace_engine::{run_check, tell_trace};
use workers::{Gate, OpenGate, Report, RunHalt, RunPlan, run_workers};

/// A thread for each worker.
pub const ONE_EACH: u64 = 34;

/// A plan of these scripts, without faults.
pub fn plan_with(scripts: Vec<Vec<Op>>) -> RunPlan {
    RunPlan {
        config: config(scripts.len() as u8),
        scripts: list(scripts.into_iter().map(list)),
        plan: Plan { lose_every: 0, corrupt_every: 0 },
        turns: 50_000_000,
        threads: ONE_EACH,
    }
}

/// A plan of so many additions of 1 to the first word by each of so many requesters.
pub fn additions(requesters: u8, each: u32) -> RunPlan {
    plan_with((0..requesters).map(|_| (0..each).map(|_| add(0)).collect()).collect())
}

fn report_of(plan: RunPlan) -> Report {
    run_workers(&HostRuntime::new(), alloc(), plan, &OpenGate).unwrap_or_else(|_| panic!("the run halts"))
}

/// The halt of a run, none where it ended in a report.
pub fn halt_of<G: Gate + Sync>(plan: RunPlan, gate: &G) -> Option<RunHalt> {
    run_workers(&HostRuntime::new(), alloc(), plan, gate).err()
}

/// The answers are the words from 0 up to their count, each once, and the history has as many entries.
fn counts_once(report: &Report, count: u32) {
    let mut words: Vec<u32> = Vec::new();
    for record in report.trace.records.as_slice() {
        if let Record::Ans { reply: Reply::Data(word), .. } = record {
            words.push(u32::from_le_bytes(word.as_slice().try_into().unwrap()));
        }
    }
    words.sort_unstable();
    assert!(words.into_iter().eq(0..count));
    assert_eq!(report.fabric.history().len(), count as usize);
}

#[test]
fn each_addition_counts_once() {
    for (requesters, each, lose_every, corrupt_every, threads) in [
        (2, 1000, 3, 0, ONE_EACH),
        (7, 600, 2, 3, 8),
        (3, 30, 3, 5, 1),
        (7, 10, 0, 0, 3),
        (2, 30, 0, 0, 9),
        (7, 60, 5, 7, ONE_EACH),
        (1, 300, 0, 0, 1),
        (3, 100, 4, 4, 2),
        (7, 60, 9, 9, 5),
    ] {
        let plan = Plan { lose_every, corrupt_every };
        let plan = RunPlan { plan, turns: 1_000_000_000, threads, ..additions(requesters, each) };
        counts_once(&report_of(plan), u32::from(requesters) * each);
    }
}

/// Reads, writes, all AtomicOps, aborted and unsupported operations, one of each in turn.
fn mixed(requester: u64, place: u64) -> Op {
    let address = (requester * 8 + place % 4 * 64) & 0xff8;
    let bytes = payload_of(&place.to_le_bytes());
    match place % 8 {
        0 => Op::Write { address, first: 15, last: 15, bytes },
        1 => Op::Read { address, dw: 2, first: 15, last: 15 },
        2 => Op::FetchAdd { address, width: Width::Eight, operand: 0xffff_ffff },
        3 => Op::Swap { address, width: Width::Four, operand: requester.into() },
        4 => Op::Cas { address: address & 0xff0, width: Width::Sixteen, compare: 0, swap: place.into() },
        5 => Op::Read { address: 0x38, dw: 4, first: 15, last: 15 },
        6 => add(0x1000),
        _ => Op::Write { address: address + 0x1000, first: 15, last: 15, bytes },
    }
}

/// `check` says `ok` to the text of the report's trace and history.
fn is_ok_as_text(report: &Report) {
    let mut text = kit::Vec::new(alloc());
    let claim = Claim { trace: &report.trace, history: report.fabric.history() };
    tell_trace(alloc(), &claim, &mut text).unwrap();
    let mut answer = kit::Vec::new(alloc());
    let status = run_check(alloc(), false, &mut text.as_slice(), &mut answer, &mut sink()).unwrap();
    assert_eq!((status, answer.as_slice()), (0, &b"ok\n"[..]));
}

#[test]
fn mixed_operations_are_explained() {
    for _ in 0..10 {
        let scripts = (0..7).map(|requester| (0..200).map(|place| mixed(requester, place)).collect()).collect();
        let plan = Plan { lose_every: 5, corrupt_every: 7 };
        let report = report_of(RunPlan { plan, turns: 1_000_000_000, threads: 8, ..plan_with(scripts) });
        assert!(check(alloc(), &report.trace, report.fabric.history()).is_ok());
        is_ok_as_text(&report);
    }
}

#[test]
fn faulty_plans_are_refused() {
    let no_credits = LaneCredits { ph: 0, ..LaneCredits::DEFAULT };
    for (place, (config, requesters, turns)) in [
        (config(1), 1, 0),
        (config(2), 1, 1000),
        (config(0), 0, 1000),
        (config(8), 8, 1000),
        (Config { size: 100, ..config(1) }, 1, 1000),
        (Config { base: 64, ..config(1) }, 1, 1000),
        (Config { credits: no_credits, ..config(1) }, 1, 1000),
        (Config { block: 32, ..config(1) }, 1, 1000),
    ]
    .into_iter()
    .enumerate()
    {
        let plan = RunPlan { config, turns, ..additions(requesters, 1) };
        assert!(halt_of(plan, &OpenGate) == Some(RunHalt::Plan), "plan {place}");
    }
}
