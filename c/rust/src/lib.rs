//! The proved PCI Express memory device, fabric and checker, as safe Rust.
//!
//! The proofs are of the library that is called. Of this crate nobody proves anything: it keeps the rules that
//! `c/pciex.h` states, by types. Pointers and lengths are those of slices that are borrowed for the call and don't
//! overlap, a handle is owned by one value, which frees it, and no value is `Send`, since a handle stays on its thread.

mod device;
mod differ;
mod endpoint;
mod error;
mod fabric;
mod linked;
mod monitor;
mod raw;
mod tlp;

pub use device::{answer, Device};
pub use differ::differ;
pub use endpoint::{Endpoint, Handled};
pub use error::Error;
pub use fabric::{Fabric, Stopped};
pub use linked::{Arrived, Credits, DllpArrived, DllpRefusal, LinkStatus, LinkedEndpoint, Outgoing};
pub use monitor::Monitor;
pub use tlp::{decode_tlp, Body, Kind, Tlp};

use error::{line, refused, Room};

/// Whether the history of the text of a trace explains its records: `Ok` if and only if it does, but for
/// [`Error::NoMemory`]. Else the line that `pciex check` prints.
pub fn check(text: &[u8]) -> Result<(), Error> {
    let mut room = Room::new();
    // SAFETY: the pointers and lengths are those of two slices that are borrowed for the call.
    let code = unsafe { raw::pciex_raw_check(text.as_ptr(), text.len(), room.pointer(), room.length()) };
    line(code, &room).map(|_| ())
}

/// [`check`], and whether the `n` of the records are those of a history that grew: `Ok` if and only if both hold, but for
/// [`Error::NoMemory`]. Then each request that was answered before another was submitted acted before it: the trace is
/// linearizable. Else the line that `pciex check --clocked` prints.
pub fn check_clocked(text: &[u8]) -> Result<(), Error> {
    let mut room = Room::new();
    // SAFETY: as in `check`.
    let code = unsafe { raw::pciex_raw_check_clocked(text.as_ptr(), text.len(), room.pointer(), room.length()) };
    line(code, &room).map(|_| ())
}

/// What [`search`] says of a log.
#[derive(Clone, Debug, PartialEq, Eq)]
pub enum Sought {
    /// A trace with a history that explains the log.
    Found(String),
    /// No history does: `none` with the number of a record up to which there is none; `flaw` with the first bookkeeping
    /// mistake; or `fault` with the line that can't be read, and why.
    NotFound(String),
    /// It was given up after `limit` choices, or the work that `pciex search` does without `--work`: nothing is known.
    GivenUp,
}

/// Looks for a history that explains what requesters submitted and were answered: the text of a log, or of a trace, whose
/// history says nothing. No more than `limit` choices are looked at, and the work is bounded, to about half a minute. The
/// only error is [`Error::NoMemory`].
pub fn search(text: &[u8], limit: u64) -> Result<Sought, Error> {
    // Enough for the n's and the history that a trace has more than its log; if not, the library says how much is.
    let mut room = vec![0; 8 * text.len() + 512];
    loop {
        let mut length = 0;
        // SAFETY: the pointers and lengths are those of two slices and of a number that are borrowed for the call.
        let code = unsafe {
            raw::pciex_raw_search(text.as_ptr(), text.len(), limit, room.as_mut_ptr(), room.len(), &mut length)
        };
        let answer = |room: &[u8]| String::from_utf8_lossy(&room[..length]).trim_end().to_owned();
        match code {
            0 => return Ok(Sought::Found(answer(&room) + "\n")),
            1 => return Ok(Sought::NotFound(answer(&room))),
            3 => return Ok(Sought::GivenUp),
            2000 => room.resize(length, 0),
            _ => return Err(refused(code)),
        }
    }
}

/// How many bytes of a read or a write act at once: naturally aligned pieces, or all of them.
#[derive(Clone, Copy, Debug, PartialEq, Eq)]
pub enum Granularity {
    Whole = 0,
    Four = 4,
    Eight = 8,
    Sixteen = 16,
    SixtyFour = 64,
}

/// [`search`] for a memory whose reads and writes act in pieces, with the lines that `pciex search` prints on standard
/// error: why there is no history, what is wrong with a line, or how far a search came that was given up. There are none
/// for what is found.
pub fn search_with_reasons(text: &[u8], limit: u64, granularity: Granularity) -> Result<(Sought, Vec<String>), Error> {
    let (mut room, mut reasons) = (vec![0; 8 * text.len() + 512], vec![0; 4096]);
    loop {
        let (mut length, mut reasons_length) = (0, 0);
        // SAFETY: the pointers and lengths are those of three slices and of two numbers that are borrowed for the call.
        let code = unsafe {
            raw::pciex_raw_search_with_reasons(
                text.as_ptr(),
                text.len(),
                limit,
                granularity as u32,
                room.as_mut_ptr(),
                room.len(),
                &mut length,
                reasons.as_mut_ptr(),
                reasons.len(),
                &mut reasons_length,
            )
        };
        if code == 2000 || (code < 1000 && reasons_length > reasons.len()) {
            room.resize(length.max(room.len()), 0);
            reasons.resize(reasons_length.max(reasons.len()), 0);
            continue;
        }
        let answer = String::from_utf8_lossy(room.get(..length).unwrap_or(&[])).trim_end().to_owned();
        let sought = match code {
            0 => Sought::Found(answer + "\n"),
            1 => Sought::NotFound(answer),
            3 => Sought::GivenUp,
            _ => return Err(refused(code)),
        };
        let lines = String::from_utf8_lossy(&reasons[..reasons_length]);
        return Ok((sought, lines.lines().map(str::to_owned).collect()));
    }
}

/// The words of a TLP, or of a DLLP where there are four bytes, as `pciex decode` writes them.
pub fn decode(packet: &[u8]) -> Result<String, Error> {
    let mut room = Room::new();
    // SAFETY: as in `check`.
    let code = unsafe { raw::pciex_raw_decode(packet.as_ptr(), packet.len(), room.pointer(), room.length()) };
    line(code, &room)
}

/// The canonical bytes of the packet that a line of words spells.
pub fn encode(words: &str) -> Result<Vec<u8>, Error> {
    let mut room = Room::new();
    // SAFETY: as in `check`.
    let code = unsafe { raw::pciex_raw_encode(words.as_ptr(), words.len(), room.pointer(), room.length()) };
    line(code, &room)?;
    Ok(room.front(code).to_vec())
}

/// The version of the library.
pub fn version() -> String {
    let mut room = Room::new();
    // SAFETY: as in `check`.
    let code = unsafe { raw::pciex_raw_version(room.pointer(), room.length()) };
    room.text(code)
}

/// What the LCRC of a packet says of it.
#[derive(Clone, Copy, Debug, PartialEq, Eq)]
pub enum LcrcCheck {
    /// It is that of the packet.
    Good,
    /// It is neither that nor its complement, or the packet has fewer than four bytes.
    Failed,
    /// It is the complement: the sender nullified the packet. Without EDB treat it as failed.
    Nullified,
}

/// The LCRC of a packet, of its sequence number's two bytes and its TLP, in the order in which it is sent.
pub fn lcrc(packet: &[u8]) -> [u8; 4] {
    let mut field = [0; 4];
    // SAFETY: as in `check`. The room has the four bytes that the call requires.
    unsafe { raw::pciex_raw_lcrc(packet.as_ptr(), packet.len(), field.as_mut_ptr(), field.len()) };
    field
}

/// The check of a packet with its LCRC behind it.
pub fn check_packet(packet: &[u8]) -> LcrcCheck {
    // SAFETY: the pointer and the length are those of a slice that is borrowed for the call.
    match unsafe { raw::pciex_raw_lcrc_check(packet.as_ptr(), packet.len()) } {
        0 => LcrcCheck::Good,
        2 => LcrcCheck::Nullified,
        _ => LcrcCheck::Failed,
    }
}

/// The CRC of a DLLP, in the order in which it is sent.
pub fn dllp_crc(dllp: [u8; 4]) -> [u8; 2] {
    let mut field = [0; 2];
    // SAFETY: as in `lcrc`.
    unsafe { raw::pciex_raw_dllp_crc(dllp.as_ptr(), dllp.len(), field.as_mut_ptr(), field.len()) };
    field
}

/// Whether the last two bytes are the CRC of a DLLP's first four.
pub fn check_dllp(dllp: [u8; 6]) -> bool {
    // SAFETY: as in `check_packet`.
    unsafe { raw::pciex_raw_dllp_check(dllp.as_ptr(), dllp.len()) == 0 }
}
