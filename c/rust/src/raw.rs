//! The library's own functions, as `c/pciex.h` declares them.
use crate::linked::Credits;
use std::ffi::c_void;

/// A handle. Nothing that this crate gives out has one that holds nothing.
#[repr(C)]
#[derive(Clone, Copy, Debug)]
pub(crate) struct Slot {
    pub(crate) at: *mut c_void,
}

impl Slot {
    pub(crate) const NONE: Slot = Slot { at: std::ptr::null_mut() };
}

/// The fields of a TLP.
#[repr(C)]
#[derive(Clone, Copy, Debug, Default)]
pub(crate) struct Fields {
    pub(crate) address: u64,
    pub(crate) payload_start: u32,
    pub(crate) payload_length: u32,
    pub(crate) length: u16,
    pub(crate) requester: u16,
    pub(crate) completer: u16,
    pub(crate) byte_count: u16,
    pub(crate) kind: u8,
    pub(crate) tc: u8,
    pub(crate) attr: u8,
    pub(crate) tag: u8,
    pub(crate) first: u8,
    pub(crate) last: u8,
    pub(crate) status: u8,
    pub(crate) lower: u8,
}

extern "C" {
    pub(crate) fn pciex_raw_answer(
        bytes: *mut u8, length: usize, base: u64, block: u16, packet: *const u8, packet_length: usize, room: *mut u8,
        room_length: usize,
    ) -> u32;
    pub(crate) fn pciex_raw_device_new(base: u64, size: usize, block: u16, device: *mut Slot) -> u32;
    pub(crate) fn pciex_raw_device_serve(
        device: Slot, number: u32, packet: *const u8, packet_length: usize, room: *mut u8, room_length: usize,
        back: *mut Slot,
    ) -> u32;
    pub(crate) fn pciex_raw_device_history_length(device: Slot, back: *mut Slot) -> usize;
    pub(crate) fn pciex_raw_device_entry(
        device: Slot, place: usize, room: *mut u8, room_length: usize, back: *mut Slot,
    ) -> u32;
    pub(crate) fn pciex_raw_device_bytes(device: Slot, room: *mut u8, room_length: usize, back: *mut Slot) -> u32;
    pub(crate) fn pciex_raw_device_free(device: Slot);
    pub(crate) fn pciex_raw_fabric_new(
        line: *const u8, line_length: usize, is_traced: bool, room: *mut u8, room_length: usize, fabric: *mut Slot,
    ) -> u32;
    pub(crate) fn pciex_raw_fabric_event(
        fabric: Slot, line: *const u8, line_length: usize, room: *mut u8, room_length: usize, back: *mut Slot,
    ) -> u32;
    pub(crate) fn pciex_raw_fabric_script(
        fabric: Slot, text: *const u8, text_length: usize, room: *mut u8, room_length: usize, done: *mut usize,
        length: *mut usize, back: *mut Slot,
    ) -> u32;
    pub(crate) fn pciex_raw_fabric_settle(fabric: Slot, back: *mut Slot) -> u32;
    pub(crate) fn pciex_raw_fabric_settled(
        fabric: Slot, room: *mut u8, room_length: usize, length: *mut usize, back: *mut Slot,
    ) -> u32;
    pub(crate) fn pciex_raw_fabric_trace(
        fabric: Slot, room: *mut u8, room_length: usize, length: *mut usize, back: *mut Slot,
    ) -> u32;
    pub(crate) fn pciex_raw_fabric_quiet(fabric: Slot, back: *mut Slot) -> bool;
    pub(crate) fn pciex_raw_fabric_history_length(fabric: Slot, back: *mut Slot) -> usize;
    pub(crate) fn pciex_raw_fabric_bytes(fabric: Slot, room: *mut u8, room_length: usize, back: *mut Slot) -> u32;
    pub(crate) fn pciex_raw_fabric_free(fabric: Slot);
    pub(crate) fn pciex_raw_monitor_new(
        line: *const u8, line_length: usize, room: *mut u8, room_length: usize, monitor: *mut Slot,
    ) -> u32;
    pub(crate) fn pciex_raw_monitor_request(
        monitor: Slot, requester: u8, packet: *const u8, packet_length: usize, room: *mut u8, room_length: usize,
        back: *mut Slot,
    ) -> u32;
    pub(crate) fn pciex_raw_monitor_completion(
        monitor: Slot, requester: u8, packet: *const u8, packet_length: usize, room: *mut u8, room_length: usize,
        back: *mut Slot,
    ) -> u32;
    pub(crate) fn pciex_raw_monitor_give_up(monitor: Slot, requester: u8, tag: u8, back: *mut Slot) -> u32;
    pub(crate) fn pciex_raw_monitor_acted(
        monitor: Slot, requester: u8, number: u32, room: *mut u8, room_length: usize, back: *mut Slot,
    ) -> u32;
    pub(crate) fn pciex_raw_monitor_open(monitor: Slot, back: *mut Slot) -> usize;
    pub(crate) fn pciex_raw_monitor_free(monitor: Slot);
    pub(crate) fn pciex_raw_endpoint_new(
        size: usize, vendor: u16, device: u16, is_traced: bool, endpoint: *mut Slot,
    ) -> u32;
    pub(crate) fn pciex_raw_endpoint_tlp(endpoint: Slot, tlp: *const u8, length: usize, back: *mut Slot) -> u32;
    pub(crate) fn pciex_raw_endpoint_next(endpoint: Slot, room: *mut u8, room_length: usize, back: *mut Slot) -> u32;
    pub(crate) fn pciex_raw_endpoint_reset(endpoint: Slot, back: *mut Slot);
    pub(crate) fn pciex_raw_endpoint_bytes(endpoint: Slot, room: *mut u8, room_length: usize, back: *mut Slot) -> u32;
    pub(crate) fn pciex_raw_endpoint_trace(
        endpoint: Slot, room: *mut u8, room_length: usize, length: *mut usize, back: *mut Slot,
    ) -> u32;
    pub(crate) fn pciex_raw_endpoint_free(endpoint: Slot);
    pub(crate) fn pciex_raw_linked_new(
        size: usize, vendor: u16, device: u16, credits: *const Credits, is_traced: bool, linked: *mut Slot,
    ) -> u32;
    pub(crate) fn pciex_raw_linked_packet(
        linked: Slot, packet: *const u8, length: usize, good: bool, back: *mut Slot,
    ) -> u32;
    pub(crate) fn pciex_raw_linked_dllp(
        linked: Slot, dllp: *const u8, length: usize, good: bool, back: *mut Slot,
    ) -> u32;
    pub(crate) fn pciex_raw_linked_next(
        linked: Slot, room: *mut u8, room_length: usize, is_dllp: *mut bool, back: *mut Slot,
    ) -> u32;
    pub(crate) fn pciex_raw_linked_status(linked: Slot, back: *mut Slot) -> u32;
    pub(crate) fn pciex_raw_linked_up(linked: Slot, back: *mut Slot);
    pub(crate) fn pciex_raw_linked_down(linked: Slot, back: *mut Slot);
    pub(crate) fn pciex_raw_linked_refresh(linked: Slot, back: *mut Slot);
    pub(crate) fn pciex_raw_linked_replay(linked: Slot, back: *mut Slot);
    pub(crate) fn pciex_raw_linked_retrained(linked: Slot, back: *mut Slot);
    pub(crate) fn pciex_raw_linked_bytes(linked: Slot, room: *mut u8, room_length: usize, back: *mut Slot) -> u32;
    pub(crate) fn pciex_raw_linked_trace(
        linked: Slot, room: *mut u8, room_length: usize, length: *mut usize, back: *mut Slot,
    ) -> u32;
    pub(crate) fn pciex_raw_linked_free(linked: Slot);
    pub(crate) fn pciex_raw_check(text: *const u8, length: usize, room: *mut u8, room_length: usize) -> u32;
    pub(crate) fn pciex_raw_check_clocked(text: *const u8, length: usize, room: *mut u8, room_length: usize) -> u32;
    pub(crate) fn pciex_raw_search(
        text: *const u8, text_length: usize, limit: u64, room: *mut u8, room_length: usize, length: *mut usize,
    ) -> u32;
    pub(crate) fn pciex_raw_search_with_reasons(
        text: *const u8, text_length: usize, limit: u64, granularity: u32, room: *mut u8, room_length: usize,
        length: *mut usize, reasons: *mut u8, reasons_room: usize, reasons_length: *mut usize,
    ) -> u32;
    pub(crate) fn pciex_raw_decode_tlp(packet: *const u8, length: usize, tlp: *mut Fields) -> u32;
    pub(crate) fn pciex_raw_decode(packet: *const u8, length: usize, room: *mut u8, room_length: usize) -> u32;
    pub(crate) fn pciex_raw_encode(line: *const u8, length: usize, room: *mut u8, room_length: usize) -> u32;
    pub(crate) fn pciex_raw_fault_name(number: u32, room: *mut u8, room_length: usize) -> u32;
    pub(crate) fn pciex_raw_version(room: *mut u8, room_length: usize) -> u32;
    pub(crate) fn pciex_raw_lcrc(packet: *const u8, length: usize, room: *mut u8, room_length: usize) -> u32;
    pub(crate) fn pciex_raw_lcrc_check(packet: *const u8, length: usize) -> u32;
    pub(crate) fn pciex_raw_dllp_crc(dllp: *const u8, length: usize, room: *mut u8, room_length: usize) -> u32;
    pub(crate) fn pciex_raw_dllp_check(dllp: *const u8, length: usize) -> u32;
}
