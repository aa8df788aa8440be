//! Endpoints.
use crate::error::{line, packet, refused, Error, Room};
use crate::raw::{self, Slot};

/// What became of a TLP at an [`Endpoint`].
#[derive(Clone, Copy, Debug, PartialEq, Eq)]
pub enum Handled {
    /// A request, which acted or waits.
    Accepted,
    /// A message without effect.
    Ignored,
    /// It has no effect and no completion; the registers report it.
    Unsupported,
    /// A completion: an endpoint has no requests.
    Unexpected,
    /// Bytes that no TLP has; the registers report it.
    Malformed,
}

/// What the code of a TLP says, if it is one.
pub(crate) fn handled(code: u32) -> Option<Handled> {
    match code {
        0 => Some(Handled::Accepted),
        1 => Some(Handled::Ignored),
        2 => Some(Handled::Unsupported),
        3 => Some(Handled::Unexpected),
        4 => Some(Handled::Malformed),
        _ => None,
    }
}

/// An endpoint: a memory device that a root complex enumerates, sets up and uses.
#[derive(Debug)]
pub struct Endpoint {
    slot: Slot,
    size: usize,
}

impl Endpoint {
    /// An endpoint with that Vendor ID and Device ID, whose memory is `size` zeros, a power of two from 4096 to 1,048,576,
    /// behind BAR 0.
    pub fn new(size: usize, vendor: u16, device: u16) -> Result<Endpoint, Error> {
        Endpoint::made(size, vendor, device, false)
    }

    /// As [`Endpoint::new`], but it keeps a trace.
    pub fn traced(size: usize, vendor: u16, device: u16) -> Result<Endpoint, Error> {
        Endpoint::made(size, vendor, device, true)
    }

    fn made(size: usize, vendor: u16, device: u16, is_traced: bool) -> Result<Endpoint, Error> {
        let mut slot = Slot::NONE;
        // SAFETY: the slot holds nothing.
        let code = unsafe { raw::pciex_raw_endpoint_new(size, vendor, device, is_traced, &mut slot) };
        line(code, &Room::new())?;
        Ok(Endpoint { slot, size })
    }

    /// A TLP for the endpoint, whatever its bytes are. A posted request acts now, a non-posted one when its completion is
    /// taken from [`Endpoint::completions`].
    pub fn take(&mut self, tlp: &[u8]) -> Result<Handled, Error> {
        let back: *mut Slot = &mut self.slot;
        // SAFETY: the slot holds an endpoint and is used up by the call, which gives it back; the pointer and the length
        // are those of a slice that is borrowed for the call.
        let code = unsafe { raw::pciex_raw_endpoint_tlp(*back, tlp.as_ptr(), tlp.len(), back) };
        handled(code).ok_or_else(|| refused(code))
    }

    /// The completions of the requests that wait, in order. Each request acts when its completion is taken, a read by one
    /// naturally aligned block of 128 bytes.
    pub fn completions(&mut self) -> impl Iterator<Item = Vec<u8>> + '_ {
        std::iter::from_fn(move || {
            let mut room = Room::new();
            let back: *mut Slot = &mut self.slot;
            // SAFETY: as in `take`.
            let code = unsafe { raw::pciex_raw_endpoint_next(*back, room.pointer(), room.length(), back) };
            packet(code, &room).unwrap_or_default()
        })
    }

    /// A reset: the registers are what they were at first, no request waits, and the memory stays.
    pub fn reset(&mut self) {
        let back: *mut Slot = &mut self.slot;
        // SAFETY: as in `take`.
        unsafe { raw::pciex_raw_endpoint_reset(*back, back) };
    }

    /// The memory as it is now.
    pub fn bytes(&mut self) -> Vec<u8> {
        let mut bytes = vec![0; self.size];
        let back: *mut Slot = &mut self.slot;
        // SAFETY: as in `take`. The buffer has as many bytes as the memory.
        unsafe { raw::pciex_raw_endpoint_bytes(*back, bytes.as_mut_ptr(), bytes.len(), back) };
        bytes
    }
}

impl Endpoint {
    /// The text of the trace and the history of its memory, as `pciex endpoint --trace` writes it;
    /// [`check_clocked`](crate::check_clocked) judges it. Without a trace it has no records. Out of memory if memory for a
    /// record ran out, too.
    pub fn trace(&mut self) -> Result<Vec<u8>, Error> {
        let mut text = Vec::new();
        loop {
            let mut length = 0;
            let back: *mut Slot = &mut self.slot;
            // SAFETY: as in `take`.
            let code =
                unsafe { raw::pciex_raw_endpoint_trace(*back, text.as_mut_ptr(), text.len(), &mut length, back) };
            match code {
                2000 => text.resize(length, 0),
                _ => return line(code, &Room::new()).map(|_| text),
            }
        }
    }
}

impl Drop for Endpoint {
    fn drop(&mut self) {
        // SAFETY: the slot holds an endpoint, and is never used again.
        unsafe { raw::pciex_raw_endpoint_free(self.slot) };
    }
}
