//! The declarations of c/bwtree.h.
use std::ffi::{c_char, c_int};
use std::mem::{align_of, size_of};

pub(crate) const OK: u32 = 0;
pub(crate) const EXISTS: u32 = 2;
pub(crate) const REPLACED: u32 = 3;
pub(crate) const DIFFERS: u32 = 4;
pub(crate) const FULL: u32 = 5;
pub(crate) const SPENT: u32 = 6;
pub(crate) const NO_ROOM: u32 = 7;
pub(crate) const TOO_LONG: u32 = 21;
pub(crate) const BAD_LIMITS: u32 = 22;
pub(crate) const NO_MEMORY: u32 = 23;
pub(crate) const BAD_ORDER: u32 = 26;
pub(crate) const BAD_VERSION: u32 = 27;

#[repr(C)]
pub(crate) struct RawTree {
    pub held: u64,
    pub at: *const u8,
}

#[repr(C)]
#[derive(Default)]
pub(crate) struct RawLimits {
    pub actors: u64,
    pub pages: u64,
    pub records: u64,
    pub epoch: u64,
    pub large: u64,
    pub narrow_records: u64,
    pub wide_from: u64,
    pub narrow_words: u64,
    pub page_words: u64,
}

#[repr(C)]
pub(crate) struct RawRoom {
    pub free_pages: u64,
    pub free_records: u64,
}

#[repr(C)]
#[derive(Clone, Copy)]
pub(crate) struct RawBytes {
    pub length: u64,
    pub bytes: [u8; 64],
}

#[repr(C)]
#[derive(Clone, Copy)]
pub(crate) struct RawPair {
    pub key: RawBytes,
    pub value: RawBytes,
}

#[repr(C)]
#[derive(Clone, Copy)]
pub(crate) struct RawPage {
    pub count: u64,
    pub more: u64,
    pub next: RawBytes,
    pub pairs: [RawPair; 24],
}

impl RawBytes {
    pub const EMPTY: RawBytes = RawBytes { length: 0, bytes: [0; 64] };

    /// None where there are more than 64.
    pub fn of(bytes: &[u8]) -> Option<RawBytes> {
        let mut raw = RawBytes::EMPTY;
        raw.bytes.get_mut(..bytes.len())?.copy_from_slice(bytes);
        raw.length = bytes.len() as u64;
        Some(raw)
    }

    pub fn as_slice(&self) -> &[u8] {
        &self.bytes[..self.length as usize]
    }
}

impl RawPair {
    pub const EMPTY: RawPair = RawPair { key: RawBytes::EMPTY, value: RawBytes::EMPTY };
}

impl RawPage {
    pub const EMPTY: RawPage = RawPage { count: 0, more: 0, next: RawBytes::EMPTY, pairs: [RawPair::EMPTY; 24] };
}

extern "C" {
    fn bwtree_goes_with(version: *const c_char) -> c_int;
    pub(crate) fn bwtree_raw_limits_for_keys(actors: u64, keys: u64, limits: *mut RawLimits) -> u32;
    pub(crate) fn bwtree_raw_limits_for_many_keys(actors: u64, keys: u64, limits: *mut RawLimits) -> u32;
    pub(crate) fn bwtree_raw_limits_for_pairs(actors: u64, keys: u64, key_bytes: u64, value_bytes: u64, limits: *mut RawLimits) -> u32;
    pub(crate) fn bwtree_raw_open(limits: *const RawLimits, tree: *mut RawTree) -> u32;
    pub(crate) fn bwtree_raw_open_from(limits: *const RawLimits, pairs: *const RawPair, count: usize, tree: *mut RawTree) -> u32;
    pub(crate) fn bwtree_raw_close(tree: *const RawTree) -> u32;
    pub(crate) fn bwtree_raw_close_pairs(tree: *const RawTree, pairs: *mut RawPair, room: usize, count: *mut u64) -> u32;
    pub(crate) fn bwtree_raw_get(tree: *const RawTree, seat: u32, key: *const u8, key_length: usize, value: *mut RawBytes) -> u32;
    pub(crate) fn bwtree_raw_insert(
        tree: *const RawTree,
        seat: u32,
        key: *const u8,
        key_length: usize,
        value: *const u8,
        value_length: usize,
        old: *mut RawBytes,
    ) -> u32;
    pub(crate) fn bwtree_raw_upsert(
        tree: *const RawTree,
        seat: u32,
        key: *const u8,
        key_length: usize,
        value: *const u8,
        value_length: usize,
        old: *mut RawBytes,
    ) -> u32;
    pub(crate) fn bwtree_raw_delete(tree: *const RawTree, seat: u32, key: *const u8, key_length: usize, old: *mut RawBytes) -> u32;
    pub(crate) fn bwtree_raw_delete_if(
        tree: *const RawTree,
        seat: u32,
        key: *const u8,
        key_length: usize,
        expected: *const u8,
        expected_length: usize,
        old: *mut RawBytes,
    ) -> u32;
    pub(crate) fn bwtree_raw_add(tree: *const RawTree, seat: u32, key: *const u8, key_length: usize, number: u64, old: *mut RawBytes) -> u32;
    pub(crate) fn bwtree_raw_swap(
        tree: *const RawTree,
        seat: u32,
        key: *const u8,
        key_length: usize,
        expected: *const u8,
        expected_length: usize,
        value: *const u8,
        value_length: usize,
        old: *mut RawBytes,
    ) -> u32;
    pub(crate) fn bwtree_raw_tidy(tree: *const RawTree, seat: u32, key: *const u8, key_length: usize) -> u32;
    pub(crate) fn bwtree_raw_page(tree: *const RawTree, seat: u32, from: *const u8, from_length: usize, page: *mut RawPage) -> u32;
    pub(crate) fn bwtree_raw_back(tree: *const RawTree, seat: u32, upto: *const u8, upto_length: usize, page: *mut RawPage) -> u32;
    pub(crate) fn bwtree_raw_resume(tree: *const RawTree, seat: u32, budget: u32, old: *mut RawBytes, page: *mut RawPage) -> u32;
    pub(crate) fn bwtree_raw_room(tree: *const RawTree, seat: u32, room: *mut RawRoom) -> u32;
}

const _: () = assert!(size_of::<RawTree>() == 16 && size_of::<RawLimits>() == 72 && size_of::<RawRoom>() == 16);
const _: () = assert!(size_of::<RawBytes>() == 72 && size_of::<RawPair>() == 144 && size_of::<RawPage>() == 3544 && align_of::<RawPage>() == 8);

/// Whether the library goes with this version of the crate.
pub(crate) fn goes_with_this() -> bool {
    const VERSION: &str = concat!(env!("CARGO_PKG_VERSION"), "\0");
    // SAFETY: the text ends with a zero, and is only read.
    unsafe { bwtree_goes_with(VERSION.as_ptr().cast()) == 1 }
}
