//! What a scoreboard compares.
use crate::decode;

/// The name of a part of a completion's header, the byte where it stands, and its bits there.
const FIELDS: [(&str, usize, u8); 13] = [
    ("Status", 6, 0xE0),
    ("Fmt and Type", 0, 0xFF),
    ("Requester ID", 8, 0xFF),
    ("Requester ID", 9, 0xFF),
    ("Tag", 10, 0xFF),
    ("TC", 1, 0x70),
    ("Attr", 1, 0x04),
    ("Attr", 2, 0x30),
    ("Length", 2, 0x03),
    ("Length", 3, 0xFF),
    ("Byte Count", 6, 0x0F),
    ("Byte Count", 7, 0xFF),
    ("Lower Address", 11, 0x7F),
];

/// Whether the request enables byte `place` of its completion's data: all of an AtomicOp's, and those of a memory read
/// that First and Last DW BE name, and between these.
fn is_enabled(request: &[u8], place: usize) -> bool {
    let last = match usize::from(request[2] & 3) << 8 | usize::from(request[3]) {
        0 => 1023,
        count => count - 1,
    };
    match place / 4 {
        _ if request[0] & 0xDF != 0 => true,
        0 => request[7] >> place & 1 == 1,
        dw => dw != last || request[7] >> (4 + place % 4) & 1 == 1,
    }
}

/// Compares a device's completion of a request, `got`, with the one of [`answer`](crate::answer), `expected`. Returns the
/// name of the first field that differs. Not compared are the Completer ID, BCM, the bit before Lower Address, and bytes
/// of data that the request does not enable.
pub fn differ(request: &[u8], expected: Option<&[u8]>, got: Option<&[u8]>) -> Option<&'static str> {
    let (expected, got) = match (expected, got) {
        (None, None) => return None,
        (Some(_), None) => return Some("no completion"),
        (None, Some(_)) => return Some("a completion"),
        (Some(expected), Some(got)) => (expected, got),
    };
    if decode(got).is_err() || got[0] & 0xBF != 0x0A {
        return Some("not a completion");
    }
    let differs = |&&(_, place, mask): &&(&str, usize, u8)| (expected[place] ^ got[place]) & mask != 0;
    if let Some((name, _, _)) = FIELDS.iter().find(differs) {
        return Some(name);
    }
    let data = expected[12..].iter().zip(&got[12..]);
    let is_other = data.enumerate().any(|(place, (wanted, found))| wanted != found && is_enabled(request, place));
    is_other.then_some("data")
}
