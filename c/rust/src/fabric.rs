//! Fabrics.
use crate::error::{line, refused, Error, Room};
use crate::raw::{self, Slot};

/// A script that stopped at a line. The lines before it happened.
#[derive(Clone, Debug, PartialEq, Eq)]
pub struct Stopped {
    /// The results of the lines before it, each with a line feed.
    pub results: String,
    /// How many bytes of the script those lines have.
    pub done: usize,
    /// Why the line changed nothing.
    pub error: Error,
}

/// A fabric that the lines of a script drive.
#[derive(Debug)]
pub struct Fabric {
    slot: Slot,
}

impl Fabric {
    /// The fabric that a script's line asks for, `fabric 2 0 4096`. With `is_traced` it keeps a trace.
    pub fn new(asked: &str, is_traced: bool) -> Result<Fabric, Error> {
        let mut room = Room::new();
        let mut slot = Slot::NONE;
        // SAFETY: the slot holds nothing; the pointers and lengths are those of two slices borrowed for the call.
        let code = unsafe {
            raw::pciex_raw_fabric_new(
                asked.as_ptr(),
                asked.len(),
                is_traced,
                room.pointer(),
                room.length(),
                &mut slot,
            )
        };
        line(code, &room)?;
        Ok(Fabric { slot })
    }

    /// The event of a script's line happens, `submit 1 add 40 07000000`: what is seen of it, or why it is refused.
    pub fn event(&mut self, event: &str) -> Result<String, Error> {
        let mut room = Room::new();
        let back: *mut Slot = &mut self.slot;
        // SAFETY: the slot holds a fabric and is used up by the call, which gives it back; the rest as in `new`.
        let code = unsafe {
            raw::pciex_raw_fabric_event(*back, event.as_ptr(), event.len(), room.pointer(), room.length(), back)
        };
        line(code, &room)
    }

    /// The events of a script's lines happen, one after the other, up to one that fails: the results, each with a line
    /// feed. Empty lines and comments are skipped.
    pub fn script(&mut self, text: &str) -> Result<String, Stopped> {
        let mut room = vec![0; 1 << 16];
        let mut results = String::new();
        let mut rest = text;
        loop {
            let (mut done, mut length) = (0, 0);
            let back: *mut Slot = &mut self.slot;
            // SAFETY: as in `event`.
            let code = unsafe {
                raw::pciex_raw_fabric_script(
                    *back,
                    rest.as_ptr(),
                    rest.len(),
                    room.as_mut_ptr(),
                    room.len(),
                    &mut done,
                    &mut length,
                    back,
                )
            };
            results.push_str(&String::from_utf8_lossy(&room[..length]));
            rest = &rest[done..];
            let error = match code {
                0 => return Ok(results),
                2000 => continue,
                1000..=1999 => {
                    let name = &room[length..length + code as usize - 1000];
                    Error::Told(String::from_utf8_lossy(name).into_owned())
                }
                _ => refused(code),
            };
            return Err(Stopped { results, done: text.len() - rest.len(), error });
        }
    }

    /// Runs the fabric until nothing moves, as `settle` in a script does: the lines of the completions that its requesters
    /// collected, `ans 1 0 data 00000000`. Then it is quiet. After an error, which is [`Error::NoMemory`], some of the events
    /// have happened, and [`settled`](Self::settled) has what they collected.
    pub fn settle(&mut self) -> Result<Vec<String>, Error> {
        let back: *mut Slot = &mut self.slot;
        // SAFETY: as in `event`.
        let code = unsafe { raw::pciex_raw_fabric_settle(*back, back) };
        line(code, &Room::new())?;
        self.settled()
    }

    /// The lines of the completions that the last [`settle`](Self::settle) collected.
    pub fn settled(&mut self) -> Result<Vec<String>, Error> {
        let mut text = Vec::new();
        loop {
            let mut length = 0;
            let back: *mut Slot = &mut self.slot;
            // SAFETY: as in `event`.
            let code =
                unsafe { raw::pciex_raw_fabric_settled(*back, text.as_mut_ptr(), text.len(), &mut length, back) };
            if code != 2000 {
                line(code, &Room::new())?;
                return Ok(String::from_utf8_lossy(&text).lines().map(str::to_owned).collect());
            }
            text.resize(length, 0);
        }
    }

    /// The text of the trace and the history, as `pciex step --trace` writes it. Without a trace it has no records.
    pub fn trace(&mut self) -> Result<Vec<u8>, Error> {
        let mut text = Vec::new();
        loop {
            let mut length = 0;
            let back: *mut Slot = &mut self.slot;
            // SAFETY: as in `event`.
            let code =
                unsafe { raw::pciex_raw_fabric_trace(*back, text.as_mut_ptr(), text.len(), &mut length, back) };
            match code {
                2000 => text.resize(length, 0),
                _ => return line(code, &Room::new()).map(|_| text),
            }
        }
    }

    /// Whether all that was entered into the lanes was taken.
    pub fn is_quiet(&mut self) -> bool {
        let back: *mut Slot = &mut self.slot;
        // SAFETY: as in `event`.
        unsafe { raw::pciex_raw_fabric_quiet(*back, back) }
    }

    /// How many requests have acted on the memory.
    pub fn history_length(&mut self) -> usize {
        let back: *mut Slot = &mut self.slot;
        // SAFETY: as in `event`.
        unsafe { raw::pciex_raw_fabric_history_length(*back, back) }
    }

    /// Puts the memory's bytes as they are now to the front of `room`, which has as many or more.
    pub fn copy_bytes(&mut self, room: &mut [u8]) -> Result<(), Error> {
        let back: *mut Slot = &mut self.slot;
        // SAFETY: as in `event`.
        let code = unsafe { raw::pciex_raw_fabric_bytes(*back, room.as_mut_ptr(), room.len(), back) };
        line(code, &Room::new()).map(|_| ())
    }
}

impl Drop for Fabric {
    fn drop(&mut self) {
        // SAFETY: the slot holds a fabric, and is never used again.
        unsafe { raw::pciex_raw_fabric_free(self.slot) };
    }
}
