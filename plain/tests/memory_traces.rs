//! Worked traces of one requester, of reads and writes at 40h.
use history_check::check;
use history_words::{Flaw, FlawKind, Record, Trace};
use kit::{HostRuntime, Vec};
use kit::alloc::{AllocError, Global};
use seq_memory::{Entry, Extent, Reply};
use tlp_core::{Op, Payload, payload_of};

/// A record, by its request's number and the length of the history.
#[derive(Clone, Copy)]
enum Event {
    Read(u32, u64),
    Write(u32, u64),
    /// A read across blocks.
    WideRead(u32, u64),
    /// An answer of four times that byte.
    Data(u32, u8, u64),
    Aborted(u32, u64),
}

/// An entry, by its number.
#[derive(Clone, Copy)]
enum Act {
    Read(u32),
    Write(u32),
    WideRead(u32),
}

fn four(byte: u8) -> Payload {
    payload_of(&[byte; 4])
}

fn read() -> Op {
    Op::Read {
        address: 0x40,
        dw: 1,
        first: 15,
        last: 0,
    }
}

fn write() -> Op {
    Op::Write {
        address: 0x40,
        first: 15,
        last: 0,
        bytes: four(7),
    }
}

fn wide_read() -> Op {
    Op::Read {
        address: 0x3C,
        dw: 2,
        first: 15,
        last: 15,
    }
}

fn submission(number: u32, op: Op, n: u64) -> Record {
    Record::Sub {
        requester: 1,
        number,
        op,
        n,
    }
}

fn answer(number: u32, reply: Reply, n: u64) -> Record {
    Record::Ans {
        requester: 1,
        number,
        reply,
        n,
    }
}

fn record_of(event: Event) -> Record {
    match event {
        Event::Read(number, n) => submission(number, read(), n),
        Event::Write(number, n) => submission(number, write(), n),
        Event::WideRead(number, n) => submission(number, wide_read(), n),
        Event::Data(number, byte, n) => answer(number, Reply::Data(four(byte)), n),
        Event::Aborted(number, n) => answer(number, Reply::Aborted, n),
    }
}

fn op_of(act: Act) -> (u32, Op) {
    match act {
        Act::Read(number) => (number, read()),
        Act::Write(number) => (number, write()),
        Act::WideRead(number) => (number, wide_read()),
    }
}

fn entry_of(act: Act) -> Entry {
    let (number, op) = op_of(act);
    Entry {
        requester: 1,
        number,
        op,
    }
}

fn record_all(records: &mut Vec<Record>, events: &[Event]) -> Result<(), AllocError> {
    for event in events {
        records.push(record_of(*event))?;
    }
    Ok(())
}

fn do_all(history: &mut Vec<Entry>, acts: &[Act]) -> Result<(), AllocError> {
    for act in acts {
        history.push(entry_of(*act))?;
    }
    Ok(())
}

/// The trace of these events, on 4096 bytes from 0 on.
fn trace_of(alloc: Global, events: &[Event]) -> Result<Trace, AllocError> {
    let mut records = Vec::new(alloc);
    record_all(&mut records, events)?;
    Ok(Trace {
        extent: Extent::new(0, 4096, 64).unwrap(),
        records,
    })
}

/// The flaw of the trace and the history of these, which is filled.
fn flaw_in(
    alloc: Global,
    trace: &Trace,
    history: &mut Vec<Entry>,
    acts: &[Act],
) -> Result<Option<Flaw>, AllocError> {
    do_all(history, acts)?;
    Ok(check(alloc, trace, history).err())
}

/// The flaw of the trace and the history of these.
fn flaw_with(alloc: Global, trace: &Trace, acts: &[Act]) -> Result<Option<Flaw>, AllocError> {
    let mut history = Vec::new(alloc);
    flaw_in(alloc, trace, &mut history, acts)
}

/// The flaw of such a trace and history.
fn flaw_of(alloc: Global, events: &[Event], acts: &[Act]) -> Result<Option<Flaw>, AllocError> {
    let trace = trace_of(alloc, events)?;
    flaw_with(alloc, &trace, acts)
}

/// What happened, and a history.
type Traced = (&'static [Event], &'static [Act]);

/// Traces with histories that explain them.
static EXPLAINED: [Traced; 3] = [
    (&[], &[]),
    (
        &[Event::Read(0, 0), Event::Write(1, 0), Event::Data(0, 7, 2)],
        &[Act::Write(1), Act::Read(0)],
    ),
    (
        &[Event::WideRead(0, 0), Event::Aborted(0, 1)],
        &[Act::WideRead(0)],
    ),
];

/// Whether the check says ok to each.
fn all_are_explained(alloc: Global, rows: &[Traced]) -> Result<bool, AllocError> {
    let mut right = true;
    for (events, acts) in rows {
        let flaw = flaw_of(alloc, events, acts)?;
        right &= flaw.is_none();
    }
    Ok(right)
}

#[test]
fn explained() {
    let rt = HostRuntime::new();
    assert!(matches!(all_are_explained(rt.alloc(), &EXPLAINED), Ok(true)));
}

/// Whether the flaw is told so.
fn is_told(alloc: Global, flaw: Flaw) -> bool {
    match kit::format!(in alloc; "{flaw}") {
        Ok(text) => text.as_str() == "Reply at 2",
        Err(_) => false,
    }
}

#[test]
fn told() {
    let rt = HostRuntime::new();
    let flaw = Flaw {
        kind: FlawKind::Reply,
        place: 2,
    };
    assert!(is_told(rt.alloc(), flaw));
}
