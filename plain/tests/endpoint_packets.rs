//! TLPs as a root complex sends them.
use config_core::Noted;
use endpoint_core::{Malformed, Received, PacketRoom, receive};
use tlp_core::TlpFault;

/// A name for what becomes of the bytes.
fn name(bytes: &[u8]) -> u8 {
    let mut room = PacketRoom::new();
    match receive(bytes, &mut room) {
        Received::Posted(_) => b'P',
        Received::NonPosted(_) => b'N',
        Received::PoisonedPosted(_) => b'p',
        Received::PoisonedNonPosted(_) => b'n',
        Received::Configuration(_) => b'C',
        Received::Refused(_, Noted::Refused) => b'R',
        Received::Refused(_, _) => b'r',
        Received::Unsupported(Noted::Unclaimed) => b'U',
        Received::Unsupported(_) => b'u',
        Received::Ignored => b'I',
        Received::Unexpected => b'E',
        Received::Malformed(Malformed::Boundary) => b'B',
        Received::Malformed(Malformed::Packet(TlpFault::LengthMismatch)) => b'L',
        Received::Malformed(Malformed::Packet(TlpFault::Short)) => b'S',
        Received::Malformed(Malformed::Packet(TlpFault::PayloadTooLong)) => b'T',
        Received::Malformed(Malformed::Packet(_)) => b'm',
        Received::Malformed(Malformed::Configuration(_)) => b'c',
    }
}

/// A read of 1 DW at FEDC0040h with that byte 0, byte 2 and address byte 10.
fn read_with(code: u8, flags: u8, page: u8) -> [u8; 12] {
    [code, 0, flags, 1, 0, 8, 0x68, 0x0F, 0xFE, 0xDC, page, 0x40]
}

#[test]
fn headers_say_what_becomes_of_a_packet() {
    let rows = [
        (0x00, 0x00, b'N'),
        (0x00, 0x40, b'N'),
        (0x00, 0x80, b'S'),
        (0x02, 0x00, b'R'),
        (0x02, 0x40, b'R'),
        (0x42, 0x00, b'L'),
        (0x04, 0x00, b'C'),
        (0x04, 0x40, b'C'),
        (0x44, 0x00, b'c'),
        (0x0A, 0x00, b'E'),
        (0x0A, 0x40, b'E'),
        (0x0B, 0x00, b'E'),
        (0x30, 0x00, b'S'),
        (0x01, 0x00, b'm'),
        (0x40, 0x00, b'L'),
    ];
    let mut right = true;
    for (code, flags, wanted) in rows {
        right &= name(&read_with(code, flags, 0)) == wanted;
    }
    assert!(right);
}

/// A message with 4 bytes of data.
fn message_with(code: u8, flags: u8) -> [u8; 20] {
    [
        0x74, 0, flags, 1, 0, 0, 0, code, 0, 0, 0, 0, 0, 0, 0, 0, 0x19, 0, 0, 0,
    ]
}

#[test]
fn messages_are_ignored_or_unsupported() {
    let mut right = name(&message_with(0x50, 0)) == b'I';
    right &= name(&message_with(0x7F, 0)) == b'I';
    right &= name(&message_with(0x7E, 0)) == b'U';
    right &= name(&message_with(0x50, 0x40)) == b'u';
    right &= name(&message_with(0x50, 0x80)) == b'L';
    right &= name(&[0x74; 149]) == b'T';
    assert!(right);
}

/// A write of 2 DW at FEDC0FFCh, with a digest behind it.
const WRITE: [u8; 24] = [
    0x40, 0, 0x80, 2, 0, 8, 0, 0xFF, 0xFE, 0xDC, 0x0F, 0xFC, 1, 2, 3, 4, 5, 6, 7, 8, 0xAA, 0xBB,
    0xCC, 0xDD,
];

#[test]
fn a_digest_is_taken_off() {
    let mut write = WRITE;
    let mut right = name(&write) == b'B';
    write[11] = 0xF8;
    right &= name(&write) == b'P';
    write[2] = 0;
    right &= name(&write) == b'L';
    write[2] = 0xC0;
    right &= name(&write) == b'p';
    assert!(right);
}
