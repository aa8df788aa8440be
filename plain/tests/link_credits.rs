//! Worked rows of flow control: needs of packets, a gate and a ledger past a wrap of their counters, limits.
use dllp_core::{Class, Dllp, encode};
use flow_control::{CreditGate, CreditLedger, LaneCredits, Need, need_of};
use tlp_core::decode;

/// CAS of 16 bytes at 40h.
const CAS: [u8; 44] = [
    0x4E, 0, 0, 8, 1, 0, 8, 0, 0, 0, 0, 0x40, 0, 0, 0, 0, 0, 0, 0, 0, 0, 0, 0, 0, 0, 0, 0, 0, 1, 0,
    0, 0, 0, 0, 0, 0, 0, 0, 0, 0, 0, 0, 0, 0,
];

/// A write of 5 DW at 0.
const WRITE: [u8; 32] = [
    0x40, 0, 0, 5, 1, 0, 0, 0xFF, 0, 0, 0, 0, 1, 2, 3, 4, 5, 6, 7, 8, 9, 10, 11, 12, 13, 14, 15,
    16, 17, 18, 19, 20,
];

/// A read of 1024 DW, an addition of 4 bytes, completions without data and with one DW of it.
const READ: [u8; 12] = [0x00, 0, 0, 0, 1, 0, 0, 0xFF, 0, 0, 0, 0];

const ADD: [u8; 16] = [0x4C, 0, 0, 1, 1, 0, 5, 0, 0, 0, 0, 0x40, 7, 0, 0, 0];

const CPL: [u8; 12] = [0x0A, 0, 0, 0, 0, 0, 0x80, 8, 1, 0, 12, 0x3C];

const CPL_D: [u8; 16] = [0x4A, 0, 0, 1, 0, 0, 0, 4, 1, 0, 12, 0, 1, 2, 3, 4];

fn needs(bytes: &[u8]) -> Option<(Class, u8, u16)> {
    let tlp = decode(bytes).ok()?;
    let need = need_of(&tlp);
    Some((need.class, need.header, need.units))
}

#[test]
fn needs_of_packets() {
    let rows: [(&[u8], Class, u16); 6] = [
        (&READ, Class::NonPosted, 0),
        (&WRITE, Class::Posted, 2),
        (&ADD, Class::NonPosted, 1),
        (&CAS, Class::NonPosted, 2),
        (&CPL, Class::Completion, 0),
        (&CPL_D, Class::Completion, 1),
    ];
    for (bytes, class, units) in rows {
        assert_eq!(needs(bytes), Some((class, 1, units)));
    }
    for (bytes, units) in [(0, 0), (1, 1), (16, 1), (17, 2), (128, 8)] {
        assert_eq!(Need::completion(bytes).units, units, "{bytes} bytes");
    }
}

const WRITE_NEED: Need = Need {
    class: Class::Posted,
    header: 1,
    units: 8,
};

/// Whether a packet of one header may go where CREDITS_CONSUMED is 255 and CREDIT_LIMIT as given.
fn fits_at(limit: u8) -> bool {
    let mut gate = CreditGate::new(LaneCredits {
        pd: 0,
        ..LaneCredits::DEFAULT
    });
    let need = Need {
        units: 0,
        ..WRITE_NEED
    };
    for consumed in 0..255 {
        gate.limit(Class::Posted, consumed + 1, 0);
        if gate.fits(need) {
            gate.consume(need);
        }
    }
    gate.limit(Class::Posted, limit, 0);
    gate.fits(need)
}

#[test]
fn wrapped_limits() {
    assert_eq!((fits_at(4), fits_at(255)), (true, false));
}

/// One write goes, arrives, leaves the queue, and its credits come back. Whether it was the only one that might go, and
/// the bytes of the update.
fn round(gate: &mut CreditGate, ledger: &mut CreditLedger) -> (bool, [u8; 4]) {
    let mut alone = gate.fits(WRITE_NEED);
    if alone {
        gate.consume(WRITE_NEED);
    }
    alone = alone && !gate.fits(WRITE_NEED);
    ledger.received(WRITE_NEED);
    alone = alone && !ledger.has_overflowed(Class::Posted);
    ledger.freed(WRITE_NEED);
    let update = ledger.update(Class::Posted);
    if let Dllp::Update(class, header, units) = update {
        gate.limit(class, header, units);
    }
    (alone, encode(&update))
}

#[test]
fn six_hundred_writes() {
    let credits = LaneCredits {
        ph: 1,
        pd: 8,
        ..LaneCredits::DEFAULT
    };
    assert!(credits.is_in_limits());
    let mut gate = CreditGate::new(credits);
    let mut ledger = CreditLedger::new(credits);
    for count in 1..=600 {
        let (alone, update) = round(&mut gate, &mut ledger);
        assert!(alone, "write {count}");
        if count == 255 {
            assert_eq!(update, [0x80, 0x00, 0x08, 0x00]);
        }
    }
}
