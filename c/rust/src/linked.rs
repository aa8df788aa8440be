//! Endpoints behind their end of a link.
use crate::endpoint::{handled, Handled};
use crate::error::{line, refused, Error, Room};
use crate::raw::{self, Slot};
use std::fmt;

/// The credits that a [`LinkedEndpoint`] advertises, in header units and in data units of 16 bytes. Those of completions are
/// infinite, since it has no requests.
#[repr(C)]
#[derive(Clone, Copy, Debug, PartialEq, Eq)]
pub struct Credits {
    /// Posted headers, 1 to 127.
    pub ph: u8,
    /// Posted data, 8 to 2047.
    pub pd: u16,
    /// Non-posted headers, 1 to 127.
    pub nph: u8,
    /// Non-posted data, 2 to 2047.
    pub npd: u16,
}

impl Default for Credits {
    fn default() -> Credits {
        Credits { ph: 16, pd: 64, nph: 16, npd: 16 }
    }
}

/// What became of a packet at a [`LinkedEndpoint`].
#[derive(Clone, Copy, Debug, PartialEq, Eq)]
pub enum Arrived {
    /// It is accepted, and this became of its TLP.
    Accepted(Handled),
    /// It is accepted and discarded, since it needs more than the credits that were advertised: Receiver Overflow.
    Overflow,
    /// It was accepted before; an Ack is due.
    Duplicate,
    /// It is discarded, and a Nak is due.
    Nak,
    /// It is discarded, and nothing is sent: a Nak was scheduled before.
    Quiet,
    /// It is discarded, since the link isn't up.
    Dropped,
}

/// What became of a DLLP.
#[derive(Clone, Copy, Debug, PartialEq, Eq)]
pub enum DllpArrived {
    /// It took effect.
    Took,
    /// It is discarded: its check failed, its type isn't read, or it says nothing in this state of the link.
    Gone,
}

/// What is wrong with a DLLP. Nothing has changed then.
#[derive(Clone, Copy, Debug, PartialEq, Eq)]
pub enum DllpRefusal {
    /// It hasn't four bytes.
    Short,
    /// Its credits are scaled.
    Scaled,
    /// The number of an Ack or Nak is neither ACKD_SEQ nor that of an unacknowledged packet that was given out: a Data Link Protocol
    /// Error.
    NotOutstanding,
    /// More than 127 headers or 2047 data units of a class would be unused: a Flow Control Protocol Error.
    CreditLimit,
}

impl fmt::Display for DllpRefusal {
    fn fmt(&self, f: &mut fmt::Formatter<'_>) -> fmt::Result {
        fmt::Debug::fmt(self, f)
    }
}

impl std::error::Error for DllpRefusal {}

/// What is sent.
#[derive(Clone, Debug, PartialEq, Eq)]
pub enum Outgoing {
    /// A sequence number's two bytes and a TLP.
    Packet(Vec<u8>),
    /// A DLLP without its CRC.
    Dllp([u8; 4]),
}

/// The state of a link.
#[derive(Clone, Copy, Debug, PartialEq, Eq)]
pub enum LinkStatus {
    /// DL_Inactive.
    Inactive,
    /// DL_Init in FC_INIT1.
    Init1,
    /// DL_Init in FC_INIT2.
    Init2,
    /// DL_Active.
    Active,
    /// DL_Active, and the fourth replay without progress has stopped the sender until [`LinkedEndpoint::retrained`].
    Stopped,
}

/// An endpoint behind its end of a link: packets and DLLPs in, packets and DLLPs out. Their CRCs, framing, link training and
/// time are the caller's.
#[derive(Debug)]
pub struct LinkedEndpoint {
    slot: Slot,
    size: usize,
}

impl LinkedEndpoint {
    /// An endpoint as [`Endpoint::new`](crate::Endpoint::new) makes it, behind a link that is down, with these credits.
    pub fn new(size: usize, vendor: u16, device: u16, credits: Credits) -> Result<LinkedEndpoint, Error> {
        LinkedEndpoint::made(size, vendor, device, credits, false)
    }

    /// As [`LinkedEndpoint::new`], but it keeps a trace.
    pub fn traced(size: usize, vendor: u16, device: u16, credits: Credits) -> Result<LinkedEndpoint, Error> {
        LinkedEndpoint::made(size, vendor, device, credits, true)
    }

    fn made(size: usize, vendor: u16, device: u16, credits: Credits, is_traced: bool) -> Result<LinkedEndpoint, Error> {
        let mut slot = Slot::NONE;
        // SAFETY: the slot holds nothing.
        let code = unsafe { raw::pciex_raw_linked_new(size, vendor, device, &credits, is_traced, &mut slot) };
        line(code, &Room::new())?;
        Ok(LinkedEndpoint { slot, size })
    }

    /// A packet arrives, whatever its bytes are, with a good check or a failed one. Requests act, and their completions enter
    /// the replay buffer, as far as the peer's credits go. Without memory the packet is as if it was lost.
    pub fn packet(&mut self, packet: &[u8], good: bool) -> Result<Arrived, Error> {
        let back: *mut Slot = &mut self.slot;
        // SAFETY: the slot holds an endpoint and is used up by the call, which gives it back; the pointer and the length
        // are those of a slice that is borrowed for the call.
        match unsafe { raw::pciex_raw_linked_packet(*back, packet.as_ptr(), packet.len(), good, back) } {
            5 => Ok(Arrived::Overflow),
            6 => Ok(Arrived::Duplicate),
            7 => Ok(Arrived::Nak),
            8 => Ok(Arrived::Quiet),
            9 => Ok(Arrived::Dropped),
            code => match handled(code) {
                Some(handled) => Ok(Arrived::Accepted(handled)),
                None => Err(refused(code)),
            },
        }
    }

    /// A DLLP arrives, whatever its bytes are, with a good check or a failed one.
    pub fn dllp(&mut self, dllp: &[u8], good: bool) -> Result<DllpArrived, DllpRefusal> {
        let back: *mut Slot = &mut self.slot;
        // SAFETY: as in `packet`.
        match unsafe { raw::pciex_raw_linked_dllp(*back, dllp.as_ptr(), dllp.len(), good, back) } {
            0 => Ok(DllpArrived::Took),
            1 => Ok(DllpArrived::Gone),
            1001 => Err(DllpRefusal::Short),
            1003 => Err(DllpRefusal::Scaled),
            1004 => Err(DllpRefusal::NotOutstanding),
            _ => Err(DllpRefusal::CreditLimit),
        }
    }

    /// What is to be sent: a Nak or an Ack, InitFCs, UpdateFCs, then packets of the replay buffer.
    pub fn outgoing(&mut self) -> impl Iterator<Item = Outgoing> + '_ {
        std::iter::from_fn(move || {
            let mut room = Room::new();
            let mut is_dllp = false;
            let back: *mut Slot = &mut self.slot;
            // SAFETY: as in `packet`.
            let code = unsafe { raw::pciex_raw_linked_next(*back, room.pointer(), room.length(), &mut is_dllp, back) };
            let sent = room.front(code);
            match (is_dllp, sent) {
                (true, &[b0, b1, b2, b3]) => Some(Outgoing::Dllp([b0, b1, b2, b3])),
                (false, [_, ..]) => Some(Outgoing::Packet(sent.to_vec())),
                _ => None,
            }
        })
    }

    /// The state of the link.
    pub fn status(&mut self) -> LinkStatus {
        let back: *mut Slot = &mut self.slot;
        // SAFETY: as in `packet`.
        match unsafe { raw::pciex_raw_linked_status(*back, back) } {
            0 => LinkStatus::Inactive,
            1 => LinkStatus::Init1,
            2 => LinkStatus::Init2,
            3 => LinkStatus::Active,
            _ => LinkStatus::Stopped,
        }
    }

    /// The link is up: initialization begins, and the endpoint is reset. Its memory stays.
    pub fn up(&mut self) {
        let back: *mut Slot = &mut self.slot;
        // SAFETY: as in `packet`.
        unsafe { raw::pciex_raw_linked_up(*back, back) };
    }

    /// The link is down: all that it had is lost, and the endpoint is reset. Its memory stays.
    pub fn down(&mut self) {
        let back: *mut Slot = &mut self.slot;
        // SAFETY: as in `packet`.
        unsafe { raw::pciex_raw_linked_down(*back, back) };
    }

    /// A timer expired: InitFCs are due again, or an Ack and UpdateFCs.
    pub fn refresh(&mut self) {
        let back: *mut Slot = &mut self.slot;
        // SAFETY: as in `packet`.
        unsafe { raw::pciex_raw_linked_refresh(*back, back) };
    }

    /// REPLAY_TIMER expired: the unacknowledged packets are sent again.
    pub fn replay(&mut self) {
        let back: *mut Slot = &mut self.slot;
        // SAFETY: as in `packet`.
        unsafe { raw::pciex_raw_linked_replay(*back, back) };
    }

    /// The link was retrained: the sender is no longer stopped.
    pub fn retrained(&mut self) {
        let back: *mut Slot = &mut self.slot;
        // SAFETY: as in `packet`.
        unsafe { raw::pciex_raw_linked_retrained(*back, back) };
    }

    /// The memory as it is now.
    pub fn bytes(&mut self) -> Vec<u8> {
        let mut bytes = vec![0; self.size];
        let back: *mut Slot = &mut self.slot;
        // SAFETY: as in `packet`. The buffer has as many bytes as the memory.
        unsafe { raw::pciex_raw_linked_bytes(*back, bytes.as_mut_ptr(), bytes.len(), back) };
        bytes
    }

    /// The text of the trace and the history of its memory, as [`Endpoint::trace`](crate::Endpoint::trace) has it.
    pub fn trace(&mut self) -> Result<Vec<u8>, Error> {
        let mut text = Vec::new();
        loop {
            let mut length = 0;
            let back: *mut Slot = &mut self.slot;
            // SAFETY: as in `packet`.
            let code = unsafe { raw::pciex_raw_linked_trace(*back, text.as_mut_ptr(), text.len(), &mut length, back) };
            match code {
                2000 => text.resize(length, 0),
                _ => return line(code, &Room::new()).map(|_| text),
            }
        }
    }
}

impl Drop for LinkedEndpoint {
    fn drop(&mut self) {
        // SAFETY: the slot holds an endpoint, and is never used again.
        unsafe { raw::pciex_raw_linked_free(self.slot) };
    }
}
