//! Worked packets of the transaction layer, and bytes that are none.
use kit::arrayvec::ArrayVec;
use tlp_core::{Op, Tlp, TlpFault, Width, decode, encode, op_fault, op_of};

/// FetchAdd of 7 at 40h.
const FETCH_ADD: [u8; 16] = [0x4C, 0, 0, 1, 1, 0, 5, 0, 0, 0, 0, 0x40, 7, 0, 0, 0];

/// CAS of 16 bytes at 40h, 0 for 1.
const CAS: [u8; 44] = [
    0x4E, 0, 0, 8, 1, 0, 8, 0, 0, 0, 0, 0x40, 0, 0, 0, 0, 0, 0, 0, 0, 0, 0, 0, 0, 0, 0, 0, 0, 1, 0,
    0, 0, 0, 0, 0, 0, 0, 0, 0, 0, 0, 0, 0, 0,
];

/// A completion of 8 bytes that were not read.
const COMPLETION: [u8; 12] = [0x0A, 0, 0, 0, 0, 0, 0x80, 8, 1, 0, 12, 0x3C];

fn fault_of(bytes: &[u8]) -> Option<TlpFault> {
    decode(bytes).err()
}

/// Whether these are the bytes of the packet.
fn is_spelled(tlp: &Tlp, want: &[u8]) -> bool {
    let mut bytes = ArrayVec::new();
    encode(tlp, &mut bytes);
    bytes.as_slice() == want
}

/// Whether the bytes are read and written as they are.
fn is_packet(bytes: &[u8]) -> bool {
    match decode(bytes) {
        Ok(tlp) => is_spelled(&tlp, bytes),
        Err(_) => false,
    }
}

#[test]
fn packets_there_and_back() {
    assert!(is_packet(&FETCH_ADD) && is_packet(&CAS) && is_packet(&COMPLETION));
}

/// The operation of the packet.
fn operation(bytes: &[u8]) -> Option<Op> {
    match decode(bytes) {
        Ok(tlp) => op_of(&tlp),
        Err(_) => None,
    }
}

fn adds_seven(add: &Op) -> bool {
    let want = Op::FetchAdd {
        address: 0x40,
        width: Width::Four,
        operand: 7,
    };
    *add == want && add.address() == 0x40 && add.size() == 4 && !add.is_posted()
}

fn sets_one(cas: &Op) -> bool {
    let want = Op::Cas {
        address: 0x40,
        width: Width::Sixteen,
        compare: 0,
        swap: 1,
    };
    *cas == want && op_fault(cas).is_none()
}

/// Whether the packets are of the FetchAdd and of the CAS.
fn are_operations() -> bool {
    match (operation(&FETCH_ADD), operation(&CAS)) {
        (Some(add), Some(cas)) => adds_seven(&add) && sets_one(&cas),
        _ => false,
    }
}

#[test]
fn operations() {
    assert!(are_operations() && Width::Eight.size() == 8);
}

/// Whether so many of the first bytes are too short, or don't have the packet's length.
fn is_cut(bytes: &[u8], count: usize) -> bool {
    let want = if count < 12 {
        TlpFault::Short
    } else {
        TlpFault::LengthMismatch
    };
    fault_of(&bytes[..count.min(bytes.len())]) == Some(want)
}

/// The same of each count below the length.
fn each_is_cut(bytes: &[u8]) -> bool {
    let mut right = true;
    for count in 0..bytes.len() {
        right &= is_cut(bytes, count);
    }
    right
}

#[test]
fn front_parts() {
    assert!(each_is_cut(&FETCH_ADD) && each_is_cut(&CAS));
}

/// What the first bytes of the worked FetchAdd come to with another byte 0: a fault or none.
fn wanted(code: u8) -> Option<TlpFault> {
    match code {
        0x80..=0x9F => Some(TlpFault::Prefix),
        0x00 | 0x0A | 0x60 | 0x6C | 0x6D | 0x6E => Some(TlpFault::LengthMismatch),
        0x4E => Some(TlpFault::OperandSize),
        0x20 | 0x40 | 0x4A | 0x4C | 0x4D => None,
        _ => Some(TlpFault::Kind),
    }
}

fn comes_to(code: u8) -> bool {
    let mut bytes = FETCH_ADD;
    bytes[0] = code;
    fault_of(&bytes) == wanted(code)
}

fn each_comes_to() -> bool {
    let mut right = true;
    for code in 0..=255 {
        right &= comes_to(code);
    }
    right
}

#[test]
fn each_first_byte() {
    assert!(each_comes_to());
}
