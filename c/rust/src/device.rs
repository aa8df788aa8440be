//! Memory devices.
use crate::error::{line, packet, Error, Room};
use crate::raw::{self, Slot};

/// One TLP at a device over the caller's bytes, whose first has the address `base`, by blocks of `block` bytes, 64 or
/// 128: the bytes of its completion, none for a posted write.
pub fn answer(bytes: &mut [u8], base: u64, block: u16, request: &[u8]) -> Result<Option<Vec<u8>>, Error> {
    let mut room = Room::new();
    // SAFETY: the pointers and lengths are those of three slices that are borrowed for the call, two of them uniquely.
    let code = unsafe {
        raw::pciex_raw_answer(
            bytes.as_mut_ptr(),
            bytes.len(),
            base,
            block,
            request.as_ptr(),
            request.len(),
            room.pointer(),
            room.length(),
        )
    };
    packet(code, &room)
}

/// A device with a history.
#[derive(Debug)]
pub struct Device {
    slot: Slot,
    size: usize,
}

impl Device {
    /// A device of `size` zeros at the address `base`, with an empty history, which serves accesses by blocks of `block`
    /// bytes, 64 or 128. The size is 128 to 1,048,576, and both it and the base are multiples of 128.
    pub fn new(base: u64, size: usize, block: u16) -> Result<Device, Error> {
        let mut slot = Slot::NONE;
        // SAFETY: the slot holds nothing.
        let code = unsafe { raw::pciex_raw_device_new(base, size, block, &mut slot) };
        line(code, &Room::new())?;
        Ok(Device { slot, size })
    }

    /// The request acts under that number, and stands in the history from then on: the bytes of its completion, none for
    /// a posted write.
    pub fn serve(&mut self, number: u32, request: &[u8]) -> Result<Option<Vec<u8>>, Error> {
        let mut room = Room::new();
        let back: *mut Slot = &mut self.slot;
        // SAFETY: the slot holds a device and is used up by the call, which gives it back; the rest as in `answer`.
        let code = unsafe {
            raw::pciex_raw_device_serve(
                *back,
                number,
                request.as_ptr(),
                request.len(),
                room.pointer(),
                room.length(),
                back,
            )
        };
        packet(code, &room)
    }

    /// How many requests have acted.
    pub fn history_length(&mut self) -> usize {
        let back: *mut Slot = &mut self.slot;
        // SAFETY: as in `serve`.
        unsafe { raw::pciex_raw_device_history_length(*back, back) }
    }

    /// The requester, the number and the operation of the request at that place of the history.
    pub fn entry(&mut self, place: usize) -> Result<String, Error> {
        let mut room = Room::new();
        let back: *mut Slot = &mut self.slot;
        // SAFETY: as in `serve`.
        let code = unsafe { raw::pciex_raw_device_entry(*back, place, room.pointer(), room.length(), back) };
        line(code, &room)
    }

    /// The bytes as they are now.
    pub fn bytes(&mut self) -> Vec<u8> {
        let mut bytes = vec![0; self.size];
        let back: *mut Slot = &mut self.slot;
        // SAFETY: as in `serve`. The device has so many bytes, so the call succeeds.
        unsafe { raw::pciex_raw_device_bytes(*back, bytes.as_mut_ptr(), bytes.len(), back) };
        bytes
    }
}

impl Drop for Device {
    fn drop(&mut self) {
        // SAFETY: the slot holds a device, and is never used again.
        unsafe { raw::pciex_raw_device_free(self.slot) };
    }
}
