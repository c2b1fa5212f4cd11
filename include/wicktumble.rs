//! The calls and names of wicktumble.h for hosts in Rust: the same names and numbers (tests/hosts compares the two).
//! wicktumble.h says what each means and what a host must do.
//!
//! Needs Rust 1.82 or later; compiles in the editions 2021 and 2024. Copy it beside your own files and write
//! `mod wicktumble;`, or use `#[path = ".."] mod wicktumble;`. The linker finds libwicktumble.a by `rustc -L DIR`, or
//! by `cargo:rustc-link-search=DIR` from a build script.
#![allow(dead_code, non_snake_case)]

pub const WT_VERSION_MAJOR: u64 = 2;
pub const WT_VERSION_MINOR: u64 = 0;
pub const WT_VERSION_PATCH: u64 = 2;

// What a call returns: docs/REFUSALS.md.
pub const WT_DONE: u64 = 0;
pub const WT_REFUSED_SHORT: u64 = 1;
pub const WT_REFUSED_NUMBER: u64 = 2;
pub const WT_REFUSED_COUNT: u64 = 3;
pub const WT_REFUSED_KIND: u64 = 4;
pub const WT_REFUSED_TAIL: u64 = 5;
pub const WT_REFUSED_FIELD: u64 = 6;
pub const WT_REFUSED_LINK: u64 = 7;
pub const WT_REFUSED_MEMORY: u64 = 8;
pub const WT_REFUSED_MANAGED: u64 = 9;
pub const WT_REFUSED_PORT: u64 = 10;
pub const WT_REFUSED_OVERLAP: u64 = 11;
pub const WT_REFUSED_RUNS: u64 = 12;
pub const WT_REFUSED_SETUP: u64 = 13;
pub const WT_REFUSED_SIZE: u64 = 14;
pub const WT_REFUSED_PIN: u64 = 15;
pub const WT_REFUSED_QUEUE: u64 = 16;
pub const WT_REFUSED_RING: u64 = 17;
pub const WT_REFUSED_AHEAD: u64 = 18;
pub const WT_REFUSED_HEAD: u64 = 19;
pub const WT_REFUSED_CHAIN: u64 = 20;
pub const WT_REFUSED_REACH: u64 = 21;
pub const WT_REFUSED_SHAPE: u64 = 22;
pub const WT_REFUSED_WIDTH: u64 = 23;
pub const WT_REFUSED_HOLE: u64 = 24;
pub const WT_REFUSED_SPLIT: u64 = 25;
pub const WT_REFUSED_UNPLUGGED: u64 = 26;
pub const WT_REFUSED_RECORD: u64 = 27;

// Words of each record.
pub const WT_MAP: usize = 289;
pub const WT_VIEW: usize = 1537;
pub const WT_DEVICE: usize = 37;
pub const WT_QUEUE: usize = 7;
pub const WT_RESULT: usize = 3;

// A map and its regions.
pub const WT_REGIONS: usize = 32;
pub const WT_MAP_COUNT: usize = 0;
pub const fn WT_MAP_REGION(n: usize) -> usize {
    1 + 9 * n
}
pub const WT_REGION_KIND: usize = 0;
pub const WT_REGION_PARENT: usize = 1;
pub const WT_REGION_OFFSET: usize = 2;
pub const WT_REGION_SIZE: usize = 3;
pub const WT_REGION_PRIORITY: usize = 4;
pub const WT_REGION_MEMORY_START: usize = 5;
pub const WT_REGION_PORT: usize = 6;
pub const WT_REGION_TARGET: usize = 7;
pub const WT_REGION_ALIAS_OFFSET: usize = 8;

// Kinds of regions.
pub const WT_KIND_CONTAINER: u64 = 0;
pub const WT_KIND_RAM: u64 = 1;
pub const WT_KIND_MMIO: u64 = 2;
pub const WT_KIND_ALIAS: u64 = 3;
pub const WT_KIND_MANAGED: u64 = 4;

// A view and its ranges.
pub const WT_RANGES: usize = 256;
pub const WT_VIEW_COUNT: usize = 0;
pub const fn WT_VIEW_RANGE(n: usize) -> usize {
    1 + 6 * n
}
pub const WT_RANGE_FIRST: usize = 0;
pub const WT_RANGE_LAST: usize = 1;
pub const WT_RANGE_REGION: usize = 2;
pub const WT_RANGE_OFFSET: usize = 3;
pub const WT_RANGE_KIND: usize = 4;
pub const WT_RANGE_BASE: usize = 5;

// A device.
pub const WT_BLOCKS: usize = 1024;
pub const WT_DEVICE_BLOCK_SIZE: usize = 0;
pub const WT_DEVICE_ADDR: usize = 1;
pub const WT_DEVICE_REGION_SIZE: usize = 2;
pub const WT_DEVICE_USABLE_SIZE: usize = 3;
pub const WT_DEVICE_REQUESTED_SIZE: usize = 4;
pub const WT_DEVICE_PLUGGED: usize = 5;
pub const WT_DEVICE_PINNED: usize = 21;

// A queue.
pub const WT_QUEUE_SIZE: usize = 0;
pub const WT_QUEUE_DESCRIPTORS: usize = 1;
pub const WT_QUEUE_AVAILABLE: usize = 2;
pub const WT_QUEUE_USED: usize = 3;
pub const WT_QUEUE_NEXT_AVAILABLE: usize = 4;
pub const WT_QUEUE_NEXT_USED: usize = 5;
pub const WT_QUEUE_STOP: usize = 6;

// A result, by the call that gave it.
pub const WT_RESULT_PLACE: usize = 0;
pub const WT_RESULT_REGION_A: usize = 0;
pub const WT_RESULT_REGION_B: usize = 1;
pub const WT_RESULT_FOUND: usize = 0;
pub const WT_RESULT_REGION: usize = 1;
pub const WT_RESULT_OFFSET: usize = 2;
pub const WT_RESULT_BLOCK: usize = 1;
pub const WT_RESULT_TARGET: usize = 0;
pub const WT_TO_MEMORY: u64 = 1;
pub const WT_TO_PORT: u64 = 2;
pub const WT_RESULT_MEMORY_PLACE: usize = 1;
pub const WT_RESULT_PORT: usize = 1;
pub const WT_RESULT_PORT_OFFSET: usize = 2;
pub const WT_RESULT_SERVED: usize = 0;
pub const WT_RESULT_NOTIFY: usize = 1;
pub const WT_RESULT_IDLE: usize = 2;

// Accesses and answers.
pub const WT_ACCESS: usize = 2;
pub const WT_ACCESS_ADDRESS: usize = 0;
pub const WT_ACCESS_WIDTH: usize = 1;
pub const WT_ANSWER: usize = 4;
pub const WT_ANSWER_NUMBER: usize = 0;
pub const WT_ANSWER_RESULT: usize = 1;

// Requests and responses, in bytes.
pub const WT_REQUEST: usize = 24;
pub const WT_REQUEST_TYPE: usize = 0;
pub const WT_REQUEST_ADDR: usize = 8;
pub const WT_REQUEST_BLOCKS: usize = 16;
pub const WT_PLUG: u64 = 0;
pub const WT_UNPLUG: u64 = 1;
pub const WT_UNPLUG_ALL: u64 = 2;
pub const WT_STATE: u64 = 3;
pub const WT_RESPONSE: usize = 10;
pub const WT_RESPONSE_TYPE: usize = 0;
pub const WT_RESPONSE_STATE: usize = 8;
pub const WT_ACK: u64 = 0;
pub const WT_NACK: u64 = 1;
pub const WT_BUSY: u64 = 2;
pub const WT_ERROR: u64 = 3;
pub const WT_STATE_PLUGGED: u64 = 0;
pub const WT_STATE_UNPLUGGED: u64 = 1;
pub const WT_STATE_MIXED: u64 = 2;

// The configuration, in bytes.
pub const WT_CONFIGURATION: usize = 56;
pub const WT_CONFIGURATION_BLOCK_SIZE: usize = 0;
pub const WT_CONFIGURATION_NODE_ID: usize = 8;
pub const WT_CONFIGURATION_ADDR: usize = 16;
pub const WT_CONFIGURATION_REGION_SIZE: usize = 24;
pub const WT_CONFIGURATION_USABLE_SIZE: usize = 32;
pub const WT_CONFIGURATION_PLUGGED_SIZE: usize = 40;
pub const WT_CONFIGURATION_REQUESTED_SIZE: usize = 48;

#[rustfmt::skip]
#[link(name = "wicktumble", kind = "static")]
unsafe extern "C" {
    pub fn wt_read_sheet(sheet: *const u8, sheet_len: usize, memory_length: u64,
                         map: *mut u64, map_words: usize, result: *mut u64, result_words: usize) -> u64;
    pub fn wt_check_map(map: *const u64, map_words: usize, memory_length: u64,
                        result: *mut u64, result_words: usize) -> u64;
    pub fn wt_walk(map: *const u64, map_words: usize, memory_length: u64, address: u64,
                   result: *mut u64, result_words: usize) -> u64;
    pub fn wt_flatten(map: *const u64, map_words: usize, memory_length: u64,
                      view: *mut u64, view_words: usize, result: *mut u64, result_words: usize) -> u64;
    pub fn wt_set_up(map: *const u64, map_words: usize, memory_length: u64,
                     block_size: u64, addr: u64, usable_size: u64, requested_size: u64,
                     device: *mut u64, device_words: usize, result: *mut u64, result_words: usize) -> u64;
    pub fn wt_set_requested_size(device: *mut u64, device_words: usize, size: u64) -> u64;
    pub fn wt_pin(device: *mut u64, device_words: usize, block: u64) -> u64;
    pub fn wt_unpin(device: *mut u64, device_words: usize, block: u64) -> u64;
    pub fn wt_system_reset(device: *mut u64, device_words: usize) -> u64;
    pub fn wt_configuration(device: *const u64, device_words: usize, bytes: *mut u8, bytes_len: usize) -> u64;
    pub fn wt_request(device: *mut u64, device_words: usize, request: *const u8, request_len: usize,
                      response: *mut u8, response_len: usize) -> u64;
    pub fn wt_block_of_byte(device: *const u64, device_words: usize, offset: u64,
                            result: *mut u64, result_words: usize) -> u64;
    pub fn wt_route(view: *const u64, view_words: usize, memory_length: u64,
                    device: *const u64, device_words: usize, address: u64, width: u64,
                    result: *mut u64, result_words: usize) -> u64;
    pub fn wt_route_all(view: *const u64, view_words: usize, memory_length: u64,
                        device: *const u64, device_words: usize, accesses: *const u64, access_words: usize,
                        answers: *mut u64, answer_words: usize) -> u64;
    pub fn wt_look_up(view: *const u64, view_words: usize, memory_length: u64, address: u64,
                      result: *mut u64, result_words: usize) -> u64;
    pub fn wt_make_queue(size: u64, descriptors: u64, available: u64, used: u64,
                         queue: *mut u64, queue_words: usize) -> u64;
    pub fn wt_reset_queue(queue: *mut u64, queue_words: usize) -> u64;
    pub fn wt_step(view: *const u64, view_words: usize, device: *mut u64, device_words: usize,
                   queue: *mut u64, queue_words: usize, memory: *mut u8, memory_len: usize,
                   result: *mut u64, result_words: usize) -> u64;
    pub fn wt_run(view: *const u64, view_words: usize, device: *mut u64, device_words: usize,
                  queue: *mut u64, queue_words: usize, memory: *mut u8, memory_len: usize, k: u64,
                  result: *mut u64, result_words: usize) -> u64;
}
