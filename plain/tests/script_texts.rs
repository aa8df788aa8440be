//! Worked lines of scripts, and lines of no known form.
use crate::text_rows::{Row, all_right};
use dllp_core::Class;
use fabric_core::{Config, Event, LaneName};
use flow_control::LaneCredits;
use kit::HostRuntime;
use kit::alloc::Global;
use lane_core::{DllpKind, Fate};
use script_text::{Line, read_line};
use tlp_core::{MAX_PAYLOAD, Op, Width};

/// The least credits.
const LEAST: LaneCredits = LaneCredits {
    ph: 1,
    pd: 8,
    nph: 1,
    npd: 2,
    cplh: 1,
    cpld: 8,
};

/// The most finite credits for writes, and no others that are finite.
const MOST: LaneCredits = LaneCredits {
    ph: 255,
    pd: 65535,
    nph: 0,
    npd: 0,
    cplh: 0,
    cpld: 0,
};

/// A line for a fabric, and the requesters, the base, the size, the credits and the block that it tells.
struct Made(&'static str, u8, u64, usize, LaneCredits, u16);

impl Row for Made {
    fn is_right(&self, _: Global) -> bool {
        let config = Config {
            requesters: self.1,
            base: self.2,
            size: self.3,
            credits: self.4,
            block: self.5,
        };
        match read_line(self.0.as_bytes(), &mut [0; MAX_PAYLOAD]) {
            Ok(Line::Fabric(told)) => told == config,
            _ => false,
        }
    }
}

static FABRICS: [Made; 6] = [
    Made("fabric 1 0 4096", 1, 0, 4096, LaneCredits::DEFAULT, 64),
    Made("fabric 1 0 4096 1 8 1 2 1 8", 1, 0, 4096, LEAST, 64),
    Made(
        "fabric 1 0 4096 block 96",
        1,
        0,
        4096,
        LaneCredits::DEFAULT,
        96,
    ),
    Made(
        "fabric 7 C000000000000080 128 1 8 1 2 1 8 block 128",
        7,
        0xC000_0000_0000_0080,
        128,
        LEAST,
        128,
    ),
    Made("fabric 8 40 100", 8, 0x40, 100, LaneCredits::DEFAULT, 64),
    Made(
        "fabric 255 ffffffffffffffff 18446744073709551615 255 65535 0 0 0 0 block 65535",
        255,
        u64::MAX,
        usize::MAX,
        MOST,
        65535,
    ),
];

#[test]
fn fabrics() {
    let rt = HostRuntime::new();
    assert!(all_right(&FABRICS, rt.alloc()));
}

/// An operation of a requester.
#[derive(Clone, Copy)]
enum Asked {
    /// Adds 7 to the word at 40h.
    Add,
    /// Reads as much as a read can from 40h on.
    Read,
}

/// An event.
#[derive(Clone, Copy)]
enum Act {
    Submit(u8, Asked),
    Transmit(LaneName),
    Deliver(LaneName, Fate),
    SendDllp(LaneName, DllpKind),
    DeliverDllp(LaneName, Fate),
    Timer(LaneName),
    Retrained(LaneName),
    Forward(LaneName, usize),
    Serve(usize),
    Collect(u8),
}

fn op_of(asked: Asked) -> Op {
    match asked {
        Asked::Add => Op::FetchAdd {
            address: 0x40,
            width: Width::Four,
            operand: 7,
        },
        Asked::Read => Op::Read {
            address: 0x40,
            dw: 65535,
            first: 15,
            last: 0,
        },
    }
}

fn event_of(act: Act) -> Event {
    match act {
        Act::Submit(port, asked) => Event::Submit(port, op_of(asked)),
        Act::Transmit(lane) => Event::Transmit(lane),
        Act::Deliver(lane, fate) => Event::Deliver(lane, fate),
        Act::SendDllp(lane, kind) => Event::SendDllp(lane, kind),
        Act::DeliverDllp(lane, fate) => Event::DeliverDllp(lane, fate),
        Act::Timer(lane) => Event::Timer(lane),
        Act::Retrained(lane) => Event::Retrained(lane),
        Act::Forward(lane, place) => Event::Forward(lane, place),
        Act::Serve(place) => Event::Serve(place),
        Act::Collect(port) => Event::Collect(port),
    }
}

/// The event that the line tells.
fn told_by(line: &str) -> Option<Event> {
    match read_line(line.as_bytes(), &mut [0; MAX_PAYLOAD]) {
        Ok(Line::Event(event)) => Some(event.to_owned()),
        _ => None,
    }
}

/// A line, and the event that it tells.
struct Happens(&'static str, Act);

impl Row for Happens {
    fn is_right(&self, _: Global) -> bool {
        told_by(self.0) == Some(event_of(self.1))
    }
}

const UP: LaneName = LaneName::Up(1);

static EVENTS: [Happens; 17] = [
    Happens("transmit up1", Act::Transmit(UP)),
    Happens("deliver up1 good", Act::Deliver(UP, Fate::Good)),
    Happens(
        "deliver down7 failed",
        Act::Deliver(LaneName::Down(7), Fate::Failed),
    ),
    Happens(
        "deliver in lost",
        Act::Deliver(LaneName::Inward, Fate::Lost),
    ),
    Happens("dllp up1 ack", Act::SendDllp(UP, DllpKind::Answer)),
    Happens(
        "dllp out p",
        Act::SendDllp(LaneName::Outward, DllpKind::Update(Class::Posted)),
    ),
    Happens(
        "dllp up1 np",
        Act::SendDllp(UP, DllpKind::Update(Class::NonPosted)),
    ),
    Happens(
        "dllp up7 cpl",
        Act::SendDllp(LaneName::Up(7), DllpKind::Update(Class::Completion)),
    ),
    Happens("deliver-dllp up1 lost", Act::DeliverDllp(UP, Fate::Lost)),
    Happens("timer up1", Act::Timer(UP)),
    Happens("retrained down1", Act::Retrained(LaneName::Down(1))),
    Happens(
        "forward out 18446744073709551615",
        Act::Forward(LaneName::Outward, usize::MAX),
    ),
    Happens("serve 0", Act::Serve(0)),
    Happens("submit 1 add 40 07000000", Act::Submit(1, Asked::Add)),
    Happens(
        "submit 255 read 40 65535 F 0",
        Act::Submit(255, Asked::Read),
    ),
    Happens("collect 1", Act::Collect(1)),
    Happens("collect 0", Act::Collect(0)),
];

#[test]
fn events() {
    let rt = HostRuntime::new();
    assert!(all_right(&EVENTS, rt.alloc()));
}

/// A text that is no line.
struct NoLine(&'static str);

impl Row for NoLine {
    fn is_right(&self, _: Global) -> bool {
        read_line(self.0.as_bytes(), &mut [0; MAX_PAYLOAD]).is_err()
    }
}

static NO_LINES: [NoLine; 34] = [
    NoLine(""),
    NoLine(" "),
    NoLine("fabric"),
    NoLine("fabric 1 0"),
    NoLine("fabric 256 0 4096"),
    NoLine("fabric 1 0 18446744073709551616"),
    NoLine("fabric 1 0 4096 "),
    NoLine("fabric 1 0 4096 1 8 1 2 1"),
    NoLine("fabric 1 0 4096 256 8 1 2 1 8"),
    NoLine("fabric 1 0 4096 1 65536 1 2 1 8"),
    NoLine("fabric 1 0 4096 1 8 1 2 1 8 128"),
    NoLine("fabric 1 0 4096 block"),
    NoLine("fabric 1 0 4096 block 65536"),
    NoLine("fabric 1 0 4096 block 64 1 8 1 2 1 8"),
    NoLine("Fabric 1 0 4096"),
    NoLine("submit 256 read 40 1 F 0"),
    NoLine("submit 01 read 40 1 F 0"),
    NoLine("submit 1"),
    NoLine("submit 1 add 40 0102"),
    NoLine("submit 1 read 40 65536 F 0"),
    NoLine("transmit up0"),
    NoLine("transmit up8"),
    NoLine("transmit up"),
    NoLine("transmit up11"),
    NoLine("transmit down"),
    NoLine("transmit  up1"),
    NoLine("transmit up1 "),
    NoLine("transmit UP1"),
    NoLine("deliver up1"),
    NoLine("deliver up1 well"),
    NoLine("dllp up1 nak"),
    NoLine("forward up1"),
    NoLine("serve +1"),
    NoLine("retrain up1"),
];

#[test]
fn no_lines() {
    let rt = HostRuntime::new();
    assert!(all_right(&NO_LINES, rt.alloc()));
}
