//! Worked packets of the data link layer, and bytes that are none.
use crate::rows::{Row, all_right};
use dllp_core::{Class, Dllp, DllpFault, decode, encode};
use kit::HostRuntime;
use kit::alloc::Global;
use seq12::Seq12;

/// The bytes of a DLLP whose credits fit.
fn encoded(dllp: Dllp) -> Option<[u8; 4]> {
    if let Dllp::Update(_, _, data) = dllp {
        if data >= 4096 {
            return None;
        }
    }
    Some(encode(&dllp))
}

/// Whether the DLLP has these bytes, and is read of them.
fn is_spelled(dllp: Dllp, bytes: [u8; 4]) -> bool {
    let spelled = dllp;
    encoded(dllp) == Some(bytes) && decode(&bytes) == Ok(spelled)
}

/// An update, and its bytes.
struct Update(Class, u8, u16, [u8; 4]);

impl Row for Update {
    fn is_right(&self) -> bool {
        is_spelled(Dllp::Update(self.0, self.1, self.2), self.3)
    }
}

static UPDATES: [Update; 3] = [
    Update(Class::Posted, 5, 300, [0x80, 0x01, 0x41, 0x2C]),
    Update(Class::NonPosted, 255, 4095, [0x90, 0x3F, 0xCF, 0xFF]),
    Update(Class::NonPosted, 2, 3, [0x90, 0x00, 0x80, 0x03]),
];

/// Whether an Ack and a Nak have their bytes.
fn answers_are_spelled() -> bool {
    let ack = is_spelled(Dllp::Ack(Seq12::new(0)), [0x00, 0x00, 0x00, 0x00]);
    let nak = is_spelled(Dllp::Nak(Seq12::new(0xFFF)), [0x10, 0x00, 0x0F, 0xFF]);
    ack && nak
}

#[test]
fn bytes_of_each_kind() {
    assert!(answers_are_spelled() && all_right(&UPDATES));
}

/// Whether the byte is that of a kind just where it should be.
fn is_named(code: u8) -> bool {
    let spelled = matches!(code, 0x00 | 0x10 | 0x80 | 0x90 | 0xA0);
    match decode(&[code, 0, 0, 0]) {
        Ok(_) => spelled,
        Err(fault) => !spelled && fault == DllpFault::Kind,
    }
}

fn all_are_named() -> bool {
    let mut right = true;
    for code in 0..=255u8 {
        right &= is_named(code);
    }
    right
}

#[test]
fn byte_0_names_five_kinds() {
    assert!(all_are_named());
}

/// Bytes that are no DLLP, and why.
struct NoDllp(&'static [u8], DllpFault);

impl Row for NoDllp {
    fn is_right(&self) -> bool {
        decode(self.0) == Err(self.1)
    }
}

static NO_DLLPS: [NoDllp; 4] = [
    NoDllp(&[0x80, 0x40, 0x00, 0x00], DllpFault::Scaled),
    NoDllp(&[0x80, 0x00, 0x10, 0x00], DllpFault::Scaled),
    NoDllp(&[0x80, 0x00, 0x00], DllpFault::Short),
    NoDllp(&[0x80, 0x00, 0x00, 0x00, 0x00], DllpFault::Short),
];

#[test]
fn scaled_and_short() {
    assert!(all_right(&NO_DLLPS));
}

/// Faults, their numbers and their names.
const FAULTS: [(DllpFault, u8, &str); 3] = [
    (DllpFault::Short, 1, "Short"),
    (DllpFault::Kind, 2, "Kind"),
    (DllpFault::Scaled, 3, "Scaled"),
];

/// Whether the fault has this number, and is told so.
fn is_told(alloc: Global, fault: DllpFault, number: u8, name: &str) -> bool {
    match kit::format!(in alloc; "{fault}") {
        Ok(text) => text.as_str() == name && fault.number() == number,
        Err(_) => false,
    }
}

fn all_are_told(alloc: Global) -> bool {
    let mut right = true;
    for (fault, number, name) in FAULTS {
        right &= is_told(alloc, fault, number, name);
    }
    right
}

#[test]
fn names_and_numbers() {
    let rt = HostRuntime::new();
    assert!(all_are_told(rt.alloc()));
}
