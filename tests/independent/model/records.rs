//! The records as words and bytes: how long each is, and where its fields lie. These numbers come from the header for hosts in
//! Rust. The rules about them stand in the other files.

#[allow(unsafe_code)] // it declares the library's calls; calling one needs `unsafe`, which is denied
#[path = "../../../include/wicktumble.rs"]
mod header;

/// Words of each record.
pub use header::{
    WT_DEVICE as DEVICE, WT_MAP as MAP, WT_QUEUE as QUEUE, WT_RESULT as RESULT, WT_VIEW as VIEW,
};

/// Bytes of the configuration, of a request and of a response.
pub use header::{
    WT_CONFIGURATION as CONFIGURATION, WT_REQUEST as REQUEST, WT_RESPONSE as RESPONSE,
};

/// Words of one access and of its answer, in the call that routes many.
pub use header::{WT_ACCESS as ACCESS, WT_ANSWER as ANSWER};

/// Where fields lie: words of a map, a view, a device and a queue; bytes of a request and of a response.
pub use header::{
    WT_DEVICE_ADDR, WT_DEVICE_BLOCK_SIZE, WT_DEVICE_PINNED, WT_DEVICE_PLUGGED,
    WT_DEVICE_REGION_SIZE, WT_DEVICE_REQUESTED_SIZE, WT_DEVICE_USABLE_SIZE, WT_MAP_COUNT,
    WT_MAP_REGION, WT_QUEUE_NEXT_AVAILABLE, WT_QUEUE_NEXT_USED, WT_QUEUE_SIZE, WT_QUEUE_STOP,
    WT_RANGE_BASE, WT_RANGE_FIRST, WT_RANGE_KIND, WT_RANGE_LAST, WT_RANGE_OFFSET, WT_RANGE_REGION,
    WT_REQUEST_ADDR, WT_REQUEST_BLOCKS, WT_REQUEST_TYPE, WT_RESPONSE_STATE, WT_RESPONSE_TYPE,
    WT_VIEW_COUNT, WT_VIEW_RANGE,
};

/// Words of one region in a map, of one range in a view, and of each of a device's two tables.
pub const REGION_WORDS: usize = WT_MAP_REGION(1) - WT_MAP_REGION(0);
pub const RANGE_WORDS: usize = WT_VIEW_RANGE(1) - WT_VIEW_RANGE(0);
pub const TABLE_WORDS: usize = WT_DEVICE_PINNED - WT_DEVICE_PLUGGED;

/// As many as there is room for.
pub const MOST_NODES: u64 = header::WT_REGIONS as u64;
pub const MOST_RUNS: u64 = header::WT_RANGES as u64;
pub const MOST_BLOCKS: u64 = header::WT_BLOCKS as u64;

/// 2^48: addresses, and offsets in a node, lie below it.
pub const LIMIT: u64 = 1 << 48;
