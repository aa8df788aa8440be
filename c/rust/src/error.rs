//! Why a call wasn't done, and the room that it answers into.
use crate::raw;
use std::fmt;

/// Why a call wasn't done. Nothing has changed then.
#[derive(Clone, Debug, PartialEq, Eq)]
pub enum Error {
    /// The packet has the fault of that number, 1 to 13.
    Packet(u32),
    /// The text of a fault, a flaw or a refusal, as `pciex` prints it.
    Told(String),
    /// The Requester ID is not that of the requester's first request.
    OtherRequester,
    /// A non-posted request has the tag of an open one.
    TagInUse,
    /// No request is open under the completion's tag, or none of that number waits to act.
    Unexpected,
    /// Status and data don't fit the request, or the completion is a part of a split one.
    Mismatch,
    /// All 4,294,967,295 numbers of a requester are spent.
    NumbersUsed,
    /// An argument can't be right: the code under which `c/pciex.h` names it, from 2000 on.
    Argument(u32),
    /// Memory was refused.
    NoMemory,
}

impl fmt::Display for Error {
    fn fmt(&self, f: &mut fmt::Formatter<'_>) -> fmt::Result {
        match self {
            Error::Packet(number) => write!(f, "fault {number} {}", fault_name(*number)),
            Error::Told(text) => f.write_str(text),
            Error::OtherRequester => f.write_str("OtherRequester"),
            Error::TagInUse => f.write_str("TagInUse"),
            Error::Unexpected => f.write_str("Unexpected"),
            Error::Mismatch => f.write_str("Mismatch"),
            Error::NumbersUsed => f.write_str("NumbersUsed"),
            Error::Argument(code) => write!(f, "code {code}"),
            Error::NoMemory => f.write_str("memory"),
        }
    }
}

impl std::error::Error for Error {}

/// The room for a line or a packet.
pub(crate) struct Room([u8; 512]);

impl Room {
    pub(crate) fn new() -> Room {
        Room([0; 512])
    }

    pub(crate) fn pointer(&mut self) -> *mut u8 {
        self.0.as_mut_ptr()
    }

    pub(crate) fn length(&self) -> usize {
        self.0.len()
    }

    pub(crate) fn front(&self, count: u32) -> &[u8] {
        &self.0[..count as usize]
    }

    pub(crate) fn text(&self, count: u32) -> String {
        String::from_utf8_lossy(self.front(count)).into_owned()
    }
}

/// What a code from 2000 on says.
pub(crate) fn refused(code: u32) -> Error {
    match code {
        2003 => Error::NoMemory,
        _ => Error::Argument(code),
    }
}

/// The packet in the room, none where it has no byte.
pub(crate) fn packet(code: u32, room: &Room) -> Result<Option<Vec<u8>>, Error> {
    match code {
        0 => Ok(None),
        1..=999 => Ok(Some(room.front(code).to_vec())),
        1000..=1999 => Err(Error::Packet(code - 1000)),
        _ => Err(refused(code)),
    }
}

/// The line in the room, or the fault there.
pub(crate) fn line(code: u32, room: &Room) -> Result<String, Error> {
    match code {
        0..=999 => Ok(room.text(code)),
        1000..=1999 => Err(Error::Told(room.text(code - 1000))),
        _ => Err(refused(code)),
    }
}

/// The name of the fault of a TLP.
fn fault_name(number: u32) -> String {
    let mut room = Room::new();
    // SAFETY: the pointer and the length are those of an array that is borrowed for the call.
    let code = unsafe { raw::pciex_raw_fault_name(number, room.pointer(), room.length()) };
    line(code, &room).unwrap_or_default()
}
