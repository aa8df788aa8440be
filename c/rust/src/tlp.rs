//! The fields of a TLP.
use crate::error::Error;
use crate::raw::{self, Fields};
use std::ops::Range;

/// What a TLP asks or answers.
#[derive(Clone, Copy, Debug, PartialEq, Eq)]
pub enum Kind {
    MemoryRead,
    MemoryWrite,
    FetchAdd,
    Swap,
    /// Compare and swap.
    Cas,
    /// Cpl, without data.
    Completion,
    /// CplD.
    CompletionData,
}

/// What only requests or only completions have.
#[derive(Clone, Copy, Debug, PartialEq, Eq)]
pub enum Body {
    Request {
        /// A multiple of 4.
        address: u64,
        /// First DW BE and Last DW BE; 0 in an AtomicOp.
        first: u8,
        last: u8,
    },
    Completion {
        /// Completer ID.
        completer: u16,
        /// Completion Status: SC 0, UR 1, CA 4.
        status: u8,
        /// Byte Count, 1 to 4096.
        byte_count: u16,
        /// Lower Address.
        lower: u8,
    },
}

/// The fields of a TLP.
#[derive(Clone, Debug, PartialEq, Eq)]
pub struct Tlp {
    pub kind: Kind,
    /// Traffic Class, 0 to 7.
    pub tc: u8,
    /// Attributes: IDO 4, RO 2, NS 1.
    pub attr: u8,
    /// Length in DW, 1 to 1024; 0 in a completion without data.
    pub length: u16,
    /// Requester ID.
    pub requester: u16,
    pub tag: u8,
    pub body: Body,
    /// Where the payload is in the packet's bytes.
    pub payload: Range<usize>,
}

/// The fields of the TLP that the bytes spell. The only error is [`Error::Packet`].
pub fn decode_tlp(packet: &[u8]) -> Result<Tlp, Error> {
    let mut fields = Fields::default();
    // SAFETY: the pointer and the length are those of a slice, the struct is one of this function; both are borrowed for
    // the call.
    let code = unsafe { raw::pciex_raw_decode_tlp(packet.as_ptr(), packet.len(), &mut fields) };
    if code != 0 {
        return Err(Error::Packet(code - 1000));
    }
    let kind = match fields.kind {
        0x00 => Kind::MemoryRead,
        0x40 => Kind::MemoryWrite,
        0x4C => Kind::FetchAdd,
        0x4D => Kind::Swap,
        0x4E => Kind::Cas,
        0x0A => Kind::Completion,
        _ => Kind::CompletionData,
    };
    let body = match kind {
        Kind::Completion | Kind::CompletionData => Body::Completion {
            completer: fields.completer,
            status: fields.status,
            byte_count: fields.byte_count,
            lower: fields.lower,
        },
        _ => Body::Request { address: fields.address, first: fields.first, last: fields.last },
    };
    let start = fields.payload_start as usize;
    Ok(Tlp {
        kind,
        tc: fields.tc,
        attr: fields.attr,
        length: fields.length,
        requester: fields.requester,
        tag: fields.tag,
        body,
        payload: start..start + fields.payload_length as usize,
    })
}
