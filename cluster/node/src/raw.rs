//! The exports of the static library, as `sevunthi.h` has them. A `RawNode` is empty, or as the library has left it:
//! nothing else makes one, or changes it. So what takes no bytes is safe to call; of bytes the pointer and the length
//! have to belong together.

use std::ffi::c_void;

#[repr(C)]
pub(crate) struct RawNode {
    full: bool,
    at: *mut c_void,
}

impl RawNode {
    pub(crate) const fn empty() -> RawNode {
        RawNode { full: false, at: std::ptr::null_mut() }
    }
}

#[repr(C)]
#[derive(Clone, Copy, Default)]
pub(crate) struct RawInfo {
    pub(crate) written: usize,
    pub(crate) safe: usize,
    pub(crate) untaken: usize,
    pub(crate) entries: usize,
    pub(crate) generation: u32,
    pub(crate) head: u16,
    pub(crate) index: u8,
    pub(crate) runs: bool,
    pub(crate) is_deposed: bool,
    pub(crate) is_waiting: bool,
    pub(crate) is_saving: bool,
    pub(crate) has_room: bool,
}

pub(crate) type Take = unsafe extern "C" fn(&mut RawNode, *mut u8, usize, &mut usize) -> u32;

unsafe extern "C" {
    pub(crate) safe fn sevunthi_coordinator(node: &mut RawNode) -> u32;
    pub(crate) safe fn sevunthi_host(node: &mut RawNode, index: u8, factor: u8, segment: u16, free: bool) -> u32;
    pub(crate) fn sevunthi_come_back(node: &mut RawNode, file: *const u8, length: usize, known: usize) -> u32;
    pub(crate) safe fn sevunthi_free(node: &mut RawNode);
    pub(crate) fn sevunthi_step(node: &mut RawNode, work: *const u8, length: usize) -> u32;
    pub(crate) fn sevunthi_deliver(node: &mut RawNode, message: *const u8, length: usize) -> u32;
    pub(crate) safe fn sevunthi_start(node: &mut RawNode) -> u32;
    pub(crate) safe fn sevunthi_synced(node: &mut RawNode, count: usize) -> u32;
    pub(crate) safe fn sevunthi_save(node: &mut RawNode) -> u32;
    pub(crate) safe fn sevunthi_saved(node: &mut RawNode) -> u32;
    pub(crate) fn sevunthi_take_journal(node: &mut RawNode, to: *mut u8, length: usize, needed: &mut usize) -> u32;
    pub(crate) fn sevunthi_take_second(node: &mut RawNode, to: *mut u8, length: usize, needed: &mut usize) -> u32;
    pub(crate) fn sevunthi_leave(node: &mut RawNode, to: *mut u8, length: usize, needed: &mut usize) -> u32;
    pub(crate) safe fn sevunthi_info(node: &mut RawNode, info: &mut RawInfo) -> u32;
    pub(crate) fn sevunthi_tablets(node: &mut RawNode, to: *mut u8, length: usize, needed: &mut usize) -> u32;
    pub(crate) fn sevunthi_servers(node: &mut RawNode, to: *mut u8, length: usize, needed: &mut usize) -> u32;
    pub(crate) fn sevunthi_dues(
        node: &mut RawNode,
        heard: *const u8,
        heard_length: usize,
        silent: *const u8,
        silent_length: usize,
        stuck: *const u8,
        stuck_length: usize,
        to: *mut u8,
        length: usize,
        needed: &mut usize,
    ) -> u32;
    pub(crate) fn sevunthi_mac(
        key: *const u8,
        key_length: usize,
        message: *const u8,
        message_length: usize,
        to: *mut u8,
        length: usize,
    ) -> u32;
}
