//! Monitors of ports.
use crate::error::{line, refused, Error, Room};
use crate::raw::{self, Slot};

/// A monitor: what the ports of a memory carry goes in, and lines of a log or a trace come out.
#[derive(Debug)]
pub struct Monitor {
    slot: Slot,
}

/// What the monitor finds wrong, if it is that.
fn found(code: u32) -> Option<Error> {
    match code {
        1001..=1013 => Some(Error::Packet(code - 1000)),
        1020 => Some(Error::TagInUse),
        1021 => Some(Error::Unexpected),
        1022 => Some(Error::Mismatch),
        1023 => Some(Error::OtherRequester),
        1024 => Some(Error::NumbersUsed),
        _ => None,
    }
}

/// The line in the room, or what the monitor finds wrong.
fn said(code: u32, room: &Room) -> Result<String, Error> {
    match found(code) {
        Some(error) => Err(error),
        None => line(code, room),
    }
}

impl Monitor {
    /// The monitor that the line asks for, `log 0 4096 block 64` or `trace 0 4096 block 64`, and the first two lines of
    /// its log or its trace, with a line feed between them.
    pub fn new(asked: &str) -> Result<(Monitor, String), Error> {
        let mut room = Room::new();
        let mut slot = Slot::NONE;
        // SAFETY: the slot holds nothing; the pointers and lengths are those of two slices borrowed for the call.
        let code = unsafe {
            raw::pciex_raw_monitor_new(asked.as_ptr(), asked.len(), room.pointer(), room.length(), &mut slot)
        };
        let head = line(code, &room)?;
        Ok((Monitor { slot }, head))
    }

    /// The port of the requester, 1 to 7, carried a request: its line, `sub 1 0 add 40 07000000`.
    pub fn request(&mut self, requester: u8, packet: &[u8]) -> Result<String, Error> {
        let mut room = Room::new();
        let back: *mut Slot = &mut self.slot;
        // SAFETY: the slot holds a monitor and is used up by the call, which gives it back; the rest as in `new`.
        let code = unsafe {
            raw::pciex_raw_monitor_request(
                *back,
                requester,
                packet.as_ptr(),
                packet.len(),
                room.pointer(),
                room.length(),
                back,
            )
        };
        said(code, &room)
    }

    /// The port of the requester, 1 to 7, carried a completion: its line, `ans 1 0 data 00000000`.
    pub fn completion(&mut self, requester: u8, packet: &[u8]) -> Result<String, Error> {
        let mut room = Room::new();
        let back: *mut Slot = &mut self.slot;
        // SAFETY: as in `request`.
        let code = unsafe {
            raw::pciex_raw_monitor_completion(
                *back,
                requester,
                packet.as_ptr(),
                packet.len(),
                room.pointer(),
                room.length(),
                back,
            )
        };
        said(code, &room)
    }

    /// Gives up a tag of the requester, 1 to 7: the tag is free, and the request that was open under it has no answer.
    /// For after [`Error::Mismatch`], and for a completion that never came.
    pub fn give_up(&mut self, requester: u8, tag: u8) -> Result<(), Error> {
        let back: *mut Slot = &mut self.slot;
        // SAFETY: as in `request`.
        match unsafe { raw::pciex_raw_monitor_give_up(*back, requester, tag, back) } {
            0 => Ok(()),
            code => Err(found(code).unwrap_or_else(|| refused(code))),
        }
    }

    /// For a trace, the request of that number acted on the memory: the line of the history, `ent 1 0 add 40 07000000`.
    pub fn acted(&mut self, requester: u8, number: u32) -> Result<String, Error> {
        let mut room = Room::new();
        let back: *mut Slot = &mut self.slot;
        // SAFETY: as in `request`.
        let code = unsafe {
            raw::pciex_raw_monitor_acted(*back, requester, number, room.pointer(), room.length(), back)
        };
        said(code, &room)
    }

    /// How many requests wait for their completions.
    pub fn open(&mut self) -> usize {
        let back: *mut Slot = &mut self.slot;
        // SAFETY: as in `request`.
        unsafe { raw::pciex_raw_monitor_open(*back, back) }
    }
}

impl Drop for Monitor {
    fn drop(&mut self) {
        // SAFETY: the slot holds a monitor, and is never used again.
        unsafe { raw::pciex_raw_monitor_free(self.slot) };
    }
}
