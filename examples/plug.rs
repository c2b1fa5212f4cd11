//! A guest plugs two blocks of memory: the smallest host around wicktumble.rs.
//!
//!     rustc -O --edition 2021 examples/plug.rs -L "$LIB" -o plug && ./plug
//!
//! examples/plug.c is the same program; both print examples/plug.expected.
#[path = "../include/wicktumble.rs"]
mod wicktumble;
use wicktumble::*;

/// Three regions: 0 RAM of 16 KiB at 0 (memory from 0); 1 the managed region, 8 blocks of 4,096 bytes at
/// 0x8000 (memory from 0x4000); 2 the root of 64 KiB. A number takes a byte for each seven bits, the lowest first:
/// docs/REFUSALS.md#the-sheet.
#[rustfmt::skip]
const SHEET: &[u8] = &[
    3,                                             // regions; then of each kind, parent + 1, offset, size, priority, ..
    WT_KIND_RAM as u8,       3, 0,                0x80, 0x80, 0x01, 0, 0,                // .. memory start
    WT_KIND_MANAGED as u8,   3, 0x80, 0x80, 0x02, 0x80, 0x80, 0x02, 0, 0x80, 0x80, 0x01, // .. memory start
    WT_KIND_CONTAINER as u8, 0, 0,                0x80, 0x80, 0x04, 0,
];

// The device, the queue, and the guest's buffers.
const BLOCK: u64 = 4096;
const MANAGED_AT: u64 = 0x8000;
const QUEUE_SIZE: u64 = 4;
const DESCRIPTORS: usize = 0x1000;
const AVAILABLE: usize = 0x1040;
const USED: usize = 0x1080;
const REQUEST: usize = 0x2000;
const RESPONSE: usize = 0x2100;
// Virtio's flags of a descriptor.
const NEXT: u64 = 1;
const WRITE: u64 = 2;

fn must(number: u64, call: &str) {
    if number != WT_DONE {
        println!("{call}: refused {number}");
        std::process::exit(1);
    }
}

fn print_bytes(name: &str, bytes: &[u8]) {
    let text: Vec<String> = bytes.iter().map(|b| format!("{b:02x}")).collect();
    println!("{name}: {}", text.join(" "));
}

fn main() {
    let mut memory = vec![0u8; 0x4000 + 0x8000]; // guest memory: RAM, then the blocks
    let length = memory.len() as u64;
    let (mut map, mut view) = ([0u64; WT_MAP], [0u64; WT_VIEW]);
    let (mut device, mut queue, mut result) =
        ([0u64; WT_DEVICE], [0u64; WT_QUEUE], [0u64; WT_RESULT]);
    let (m, v, d) = (map.as_mut_ptr(), view.as_mut_ptr(), device.as_mut_ptr());
    let (q, r) = (queue.as_mut_ptr(), result.as_mut_ptr());

    // The host: map, view, device, queue.
    let (sheet, bytes) = (SHEET.as_ptr(), SHEET.len());
    unsafe {
        must(wt_read_sheet(sheet, bytes, length, m, WT_MAP, r, WT_RESULT), "wt_read_sheet");
        must(wt_flatten(m, WT_MAP, length, v, WT_VIEW, r, WT_RESULT), "wt_flatten");
        let (usable, requested) = (8 * BLOCK, 4 * BLOCK);
        must(
            wt_set_up(
                m, WT_MAP, length, BLOCK, MANAGED_AT, usable, requested, d, WT_DEVICE, r, WT_RESULT,
            ),
            "wt_set_up",
        );
        let [descriptors, available, used] = [DESCRIPTORS, AVAILABLE, USED].map(|at| at as u64);
        must(wt_make_queue(QUEUE_SIZE, descriptors, available, used, q, WT_QUEUE), "wt_make_queue");
    }

    // Writes a little-endian number into guest RAM (address and memory place are the same there).
    let mut put = |address: usize, value: u64, bytes: usize| {
        memory[address..address + bytes].copy_from_slice(&value.to_le_bytes()[..bytes]);
    };
    // The guest: PLUG two blocks from the region's first on, and room for the response.
    put(REQUEST + WT_REQUEST_TYPE, WT_PLUG, 2);
    put(REQUEST + WT_REQUEST_ADDR, MANAGED_AT, 8);
    put(REQUEST + WT_REQUEST_BLOCKS, 2, 2);
    put(RESPONSE, u64::MAX, 8);
    put(RESPONSE + 8, u64::MAX, WT_RESPONSE - 8);
    let descriptors = [(2, REQUEST, WT_REQUEST, NEXT, 3), (3, RESPONSE, WT_RESPONSE, WRITE, 0)];
    for (entry, address, length, flags, next) in descriptors {
        let at = DESCRIPTORS + 16 * entry;
        put(at, address as u64, 8);
        put(at + 8, length as u64, 4);
        put(at + 12, flags, 2);
        put(at + 14, next, 2);
    }
    // The available ring: flags 0, entry 0 is head 2, idx 1.
    put(AVAILABLE, 0, 2);
    put(AVAILABLE + 4, 2, 2);
    put(AVAILABLE + 2, 1, 2);

    // The host again, while the guest does not run: one step.
    unsafe {
        let (start, bytes) = (memory.as_mut_ptr(), memory.len());
        must(wt_step(v, WT_VIEW, d, WT_DEVICE, q, WT_QUEUE, start, bytes, r, WT_RESULT), "wt_step");
    }
    println!("served {}, notify {}", result[WT_RESULT_SERVED], result[WT_RESULT_NOTIFY]);
    print_bytes("response", &memory[RESPONSE..RESPONSE + WT_RESPONSE]);
    print_bytes("used ring", &memory[USED..USED + 12]); // flags, idx, element 0: id and length
    println!("plugged blocks, word 0: {:x}", device[WT_DEVICE_PLUGGED]);
}
