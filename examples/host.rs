//! The life of a host: start, notifications, sizes, pins, accesses, KVM's memory slots, resets, save and restore.
//! docs/HOSTS.md goes through it. The guest below is a few lines that do what a driver does. examples/host.c is the
//! same program; both print examples/host.expected.
//!
//!     rustc -O --edition 2024 examples/host.rs -L target/staticlib -o target/host && target/host
#[path = "../include/wicktumble.rs"]
mod wicktumble;
use wicktumble::*;

// ---- the machine: guest memory, and what virtio's transport keeps

const PLUG_WORDS: usize = WT_BLOCKS / 64;
const PAGE: u64 = 4096;
// Virtio's device status.
const DRIVER_OK: u32 = 4;
const DEVICE_NEEDS_RESET: u32 = 64;

#[derive(Clone)]
struct Host {
    map: [u64; WT_MAP],
    view: [u64; WT_VIEW],
    device: [u64; WT_DEVICE],
    queue: [u64; WT_QUEUE],
    memory: Vec<u8>,
    queue_enabled: bool, // false: there is no queue yet
    status: u32,         // the device status
    generation: u32,     // the configuration generation
}

fn queue_interrupt() {
    println!("  queue interrupt");
}

fn configuration_interrupt() {
    println!("  configuration interrupt");
}

fn fail(what: &str, number: u64) {
    println!("{what}: {number}");
    std::process::exit(1);
}

/// A refusal here is an error of the host itself: a wrong map, or a damaged record.
fn must(number: u64, call: &str) {
    if number != WT_DONE {
        fail(call, number);
    }
}

fn is_set(words: &[u64], block: usize) -> bool {
    words[block / 64] >> (block % 64) & 1 == 1
}

/// A slot cut to its whole pages, of the guest and of the host alike, if it has any. (Memory begins at a page here.)
fn whole_pages((address, size, place): (u64, u64, u64)) -> Option<(u64, u64, u64)> {
    let skip = address.wrapping_neg() % PAGE;
    let whole = size.checked_sub(skip)? / PAGE * PAGE;
    (whole > 0 && address % PAGE == place % PAGE).then_some((address + skip, whole, place + skip))
}

impl Host {
    fn plugged(&self) -> &[u64] {
        &self.device[WT_DEVICE_PLUGGED..WT_DEVICE_PLUGGED + PLUG_WORDS]
    }

    fn ranges(&self) -> impl Iterator<Item = &[u64]> {
        (0..self.view[WT_VIEW_COUNT] as usize).map(|n| &self.view[WT_VIEW_RANGE(n)..WT_VIEW_RANGE(n + 1)])
    }

    // ---- start

    /// Whether the guest sees every byte of the managed region at addr + its offset in the region.
    fn addr_fits(&self) -> bool {
        let at_addr = |r: &&[u64]| {
            r[WT_RANGE_KIND] == WT_KIND_MANAGED
                && r[WT_RANGE_FIRST].wrapping_sub(r[WT_RANGE_OFFSET]) == self.device[WT_DEVICE_ADDR]
        };
        let bytes: u64 = self.ranges().filter(at_addr).map(|r| r[WT_RANGE_LAST] - r[WT_RANGE_FIRST] + 1).sum();
        bytes == self.device[WT_DEVICE_REGION_SIZE]
    }

    /// Usable size: all of the region. Requested size: 0 for now.
    fn start(sheet: &[u8], memory_length: usize, block_size: u64, addr: u64, region_size: u64) -> Host {
        let mut h = Host {
            map: [0; WT_MAP],
            view: [0; WT_VIEW],
            device: [0; WT_DEVICE],
            queue: [0; WT_QUEUE],
            memory: vec![0; memory_length],
            queue_enabled: false,
            status: 0,
            generation: 0,
        };
        let length = memory_length as u64;
        let (m, v, d) = (h.map.as_mut_ptr(), h.view.as_mut_ptr(), h.device.as_mut_ptr());
        let mut result = [0; WT_RESULT];
        let r = result.as_mut_ptr();
        // Each pointer is valid for its count, and no written record is passed twice.
        unsafe {
            let (bytes, count) = (sheet.as_ptr(), sheet.len());
            must(wt_read_sheet(bytes, count, length, m, WT_MAP, r, WT_RESULT), "wt_read_sheet");
            must(wt_flatten(m, WT_MAP, length, v, WT_VIEW, r, WT_RESULT), "wt_flatten");
            let sizes = (region_size, 0);
            let number =
                wt_set_up(m, WT_MAP, length, block_size, addr, sizes.0, sizes.1, d, WT_DEVICE, r, WT_RESULT);
            must(number, "wt_set_up");
        }
        if !h.addr_fits() {
            fail("not where the map has the managed region", addr);
        }
        h
    }

    /// The guest's driver has written the queue's size and addresses and enables it. false: do not enable it.
    fn enable_queue(&mut self, size: u64, descriptors: usize, available: usize, used: usize) -> bool {
        let [d, a, u] = [descriptors, available, used].map(|at| at as u64);
        let q = self.queue.as_mut_ptr();
        // 64 is the most that this host offers; the library's own limit is 256.
        self.queue_enabled = size <= 64 && unsafe { wt_make_queue(size, d, a, u, q, WT_QUEUE) == WT_DONE };
        self.queue_enabled
    }

    // ---- after a change of the plugged blocks

    fn managed_start(&self) -> usize {
        let regions = (0..self.map[WT_MAP_COUNT] as usize).map(|n| &self.map[WT_MAP_REGION(n)..]);
        let mut managed = regions.filter(|r| r[WT_REGION_KIND] == WT_KIND_MANAGED);
        managed.next().expect("wt_set_up refuses a map without one")[WT_REGION_MEMORY_START] as usize
    }

    /// After a call that may have changed the plugged words: first the slots, then the memory of the blocks that are
    /// gone. A host whose memory comes from mmap returns it to the system, with madvise and MADV_DONTNEED.
    fn blocks_changed(&mut self, before: &[u64]) {
        if before == self.plugged() {
            return;
        }
        self.update_slots();
        let size = self.device[WT_DEVICE_BLOCK_SIZE] as usize;
        for block in (0..WT_BLOCKS).filter(|&b| is_set(before, b)) {
            if !is_set(self.plugged(), block) {
                let at = self.managed_start() + block * size;
                self.memory[at..at + size].fill(0);
                println!("  block {block} given back");
            }
        }
    }

    // ---- the guest notifies: serve until nothing is left

    /// k such that descriptors times ranges, the work of the longest step, is about 65,536 for a whole call.
    fn steps_per_call(&self) -> u64 {
        let work = self.queue[WT_QUEUE_SIZE] * self.view[WT_VIEW_COUNT].max(1);
        (65536 / work).clamp(1, 256)
    }

    fn may_serve(&self) -> bool {
        self.queue_enabled && self.status & (DRIVER_OK | DEVICE_NEEDS_RESET) == DRIVER_OK
    }

    fn drain(&mut self) {
        let (mut number, mut notify, mut result) = (WT_DONE, 0, [0; WT_RESULT]);
        while self.may_serve() && number == WT_DONE && result[WT_RESULT_IDLE] == 0 {
            let (before, k) = (self.plugged().to_vec(), self.steps_per_call());
            let (v, d, q) = (self.view.as_ptr(), self.device.as_mut_ptr(), self.queue.as_mut_ptr());
            let (memory, length, r) = (self.memory.as_mut_ptr(), self.memory.len(), result.as_mut_ptr());
            number = unsafe { wt_run(v, WT_VIEW, d, WT_DEVICE, q, WT_QUEUE, memory, length, k, r, WT_RESULT) };
            if number == WT_REFUSED_RECORD {
                fail("wt_run", number); // an error of the host; result may be stale
            }
            self.blocks_changed(&before);
            if result[WT_RESULT_SERVED] != 0 {
                self.generation += 1; // the plugged size may have changed
            }
            notify |= result[WT_RESULT_NOTIFY]; // even if number is 17 to 22
        }
        if notify != 0 {
            queue_interrupt();
        }
        if number != WT_DONE {
            println!("  queue stopped: {number}"); // 17 to 22
            self.status |= DEVICE_NEEDS_RESET;
            configuration_interrupt();
        }
    }

    // ---- what the host itself wants

    fn configuration_changed(&mut self) {
        self.generation += 1;
        if self.status & DRIVER_OK != 0 {
            configuration_interrupt();
        }
    }

    fn resize(&mut self, size: u64) {
        let number = unsafe { wt_set_requested_size(self.device.as_mut_ptr(), WT_DEVICE, size) };
        must(number, "wt_set_requested_size");
        self.configuration_changed();
    }

    fn pin(&mut self, block: u64) {
        must(unsafe { wt_pin(self.device.as_mut_ptr(), WT_DEVICE, block) }, "wt_pin");
    }

    /// A guest whose UNPLUG was BUSY tries again at once.
    fn unpin(&mut self, block: u64) {
        must(unsafe { wt_unpin(self.device.as_mut_ptr(), WT_DEVICE, block) }, "wt_unpin");
        self.configuration_changed();
    }

    // ---- an access that has no memory slot

    /// A refused access of one byte: usually all ones for a read, nothing for a write.
    fn access(&self, address: u64, width: u64) {
        let (length, mut result) = (self.memory.len() as u64, [0; WT_RESULT]);
        let (v, d, r) = (self.view.as_ptr(), self.device.as_ptr(), result.as_mut_ptr());
        let number = unsafe { wt_route(v, WT_VIEW, length, d, WT_DEVICE, address, width, r, WT_RESULT) };
        match (number, result[WT_RESULT_TARGET]) {
            (WT_DONE, WT_TO_PORT) => {
                println!("{address:x}: port {}, register {:x}", result[WT_RESULT_PORT], result[WT_RESULT_PORT_OFFSET])
            }
            (WT_DONE, _) => println!("{address:x}: memory byte {:x}", result[WT_RESULT_MEMORY_PLACE]),
            _ => println!("{address:x}: refused {number}"),
        }
    }

    // ---- memory slots, as KVM_SET_USER_MEMORY_REGION takes them

    /// All RAM, and the plugged blocks of managed ranges: guest address, size, place in memory.
    fn memory_slots(&self) -> Vec<(u64, u64, u64)> {
        let block_size = self.device[WT_DEVICE_BLOCK_SIZE];
        let mut slots: Vec<(u64, u64, u64)> = Vec::new();
        // A range of a port has no slot: the guest's access exits to the host.
        for range in self.ranges().filter(|r| r[WT_RANGE_KIND] != WT_KIND_MMIO) {
            let (ram, end) = (range[WT_RANGE_KIND] == WT_KIND_RAM, range[WT_RANGE_LAST] + 1);
            let mut a = range[WT_RANGE_FIRST];
            while a < end {
                let offset = range[WT_RANGE_OFFSET] + a - range[WT_RANGE_FIRST];
                let block = offset / block_size;
                let next = if ram { end } else { end.min(a + (block + 1) * block_size - offset) };
                if ram || is_set(self.plugged(), block as usize) {
                    let place = range[WT_RANGE_BASE] + offset;
                    match slots.last_mut() {
                        Some(s) if s.0 + s.1 == a && s.2 + s.1 == place => s.1 += next - a,
                        _ => slots.push((a, next - a, place)),
                    }
                }
                a = next;
            }
        }
        slots
    }

    /// A host on KVM deletes its old slots here and adds these, with all vCPUs stopped.
    fn update_slots(&self) {
        for (address, size, place) in self.memory_slots().into_iter().filter_map(whole_pages) {
            println!("  slot: guest {address:x}, size {size:x}, memory byte {place:x}");
        }
    }

    // ---- resets

    /// The guest writes 0 to the device status, as a driver does first. Plugged blocks stay; there is no queue any
    /// more.
    fn reset_device(&mut self) {
        self.queue_enabled = false;
        self.status = 0;
    }

    /// The machine restarts: no block is plugged or pinned any more; the sizes stay.
    fn reset_machine(&mut self) {
        let before = self.plugged().to_vec();
        must(unsafe { wt_system_reset(self.device.as_mut_ptr(), WT_DEVICE) }, "wt_system_reset");
        self.blocks_changed(&before);
        self.reset_device();
        self.generation += 1;
    }
}

// ---- the guest: a driver of a few lines. Its RAM is at address 0, so an address there is a place in memory

const QUEUE_SIZE: usize = 4;
const DESCRIPTORS: usize = 0x1000;
const AVAILABLE: usize = 0x1040;
const USED: usize = 0x1080;
const REQUEST: usize = 0x2000;
const RESPONSE: usize = 0x2100;
const NEXT: u64 = 1;
const WRITE: u64 = 2;

fn put(memory: &mut [u8], address: usize, value: u64, bytes: usize) {
    memory[address..address + bytes].copy_from_slice(&value.to_le_bytes()[..bytes]);
}

fn put_descriptor(memory: &mut [u8], entry: usize, address: usize, length: usize, flags: u64) {
    let at = DESCRIPTORS + 16 * entry;
    put(memory, at, address as u64, 8);
    put(memory, at + 8, length as u64, 4);
    put(memory, at + 12, flags, 2);
    put(memory, at + 14, entry as u64 + 1, 2);
}

/// Resets the device, clears the rings, enables the queue and says that the driver is ready.
fn set_queue_up(h: &mut Host, size: u64) {
    h.reset_device();
    h.memory[AVAILABLE..REQUEST].fill(0);
    if h.enable_queue(size, DESCRIPTORS, AVAILABLE, USED) {
        h.status |= DRIVER_OK;
    }
    println!("guest: a queue of {size}: {}", if h.queue_enabled { "enabled" } else { "not enabled" });
}

/// Offers one chain (request, then response) and notifies the host.
fn ask(h: &mut Host, name: &str, kind: u64, address: u64, blocks: u64) {
    let memory = &mut h.memory;
    let offered = u16::from_le_bytes([memory[AVAILABLE + 2], memory[AVAILABLE + 3]]) as usize;
    put(memory, REQUEST + WT_REQUEST_TYPE, kind, 2);
    put(memory, REQUEST + WT_REQUEST_ADDR, address, 8);
    put(memory, REQUEST + WT_REQUEST_BLOCKS, blocks, 2);
    put_descriptor(memory, 0, REQUEST, WT_REQUEST, NEXT);
    put_descriptor(memory, 1, RESPONSE, WT_RESPONSE, WRITE);
    put(memory, AVAILABLE + 4 + 2 * (offered % QUEUE_SIZE), 0, 2);
    put(memory, AVAILABLE + 2, offered as u64 + 1, 2);
    println!("guest: {name}, {blocks} blocks from {address:x} on");
    h.drain();
    println!("  response {}", h.memory[RESPONSE + WT_RESPONSE_TYPE]);
}

// ---- the map: 16 KiB of RAM at 0, in it a window of 32 bytes with port 7 at 0x3010, and the managed region of 8
// blocks at 0x8000

/// Regions; then for each: kind, parent + 1, offset, size, priority field, memory start or port.
#[rustfmt::skip]
const SHEET: &[u8] = &[
    4,
    WT_KIND_RAM as u8,       4, 0,                0x80, 0x80, 0x01, 0, 0,
    WT_KIND_MMIO as u8,      4, 0x90, 0x60,       0x20,             129, 1, 7, // priority field 129: over the RAM
    WT_KIND_MANAGED as u8,   4, 0x80, 0x80, 0x02, 0x80, 0x80, 0x02, 0, 0x80, 0x80, 0x01,
    WT_KIND_CONTAINER as u8, 0, 0,                0x80, 0x80, 0x04, 0,
];
const MEMORY: usize = 0xc000;
const BLOCK: u64 = 4096;
const ADDR: u64 = 0x8000;
const REGION: u64 = 8 * BLOCK;

fn main() {
    let mut h = Host::start(SHEET, MEMORY, BLOCK, ADDR, REGION);
    println!("started");
    h.update_slots();
    h.drain(); // a notification before there is a queue
    set_queue_up(&mut h, 128);
    set_queue_up(&mut h, QUEUE_SIZE as u64);
    println!("requested size: 4 blocks");
    h.resize(4 * BLOCK);
    ask(&mut h, "PLUG", WT_PLUG, ADDR, 3);
    h.access(0xaff8, 8);
    h.access(0xb000, 8);
    h.access(0x3020, 4);
    h.access(0x3800, 4); // RAM, but in no whole page of it: there is no slot

    h.pin(1);
    println!("block 1 pinned, requested size: 0");
    h.resize(0);
    ask(&mut h, "UNPLUG", WT_UNPLUG, ADDR, 3);
    println!("block 1 unpinned");
    h.unpin(1);
    ask(&mut h, "UNPLUG", WT_UNPLUG, ADDR + BLOCK, 2);

    let saved = h.clone(); // save: the records and the transport's state, and the guest's memory
    println!("guest: 6 chains in a queue of 4");
    let offered = h.queue[WT_QUEUE_NEXT_AVAILABLE] + 6;
    put(&mut h.memory, AVAILABLE + 2, offered, 2);
    h.drain();
    set_queue_up(&mut h, QUEUE_SIZE as u64); // the driver resets the device and begins again
    ask(&mut h, "UNPLUG", WT_UNPLUG, ADDR, 1);
    println!("restored");
    h = saved;
    h.update_slots();
    ask(&mut h, "STATE", WT_STATE, ADDR, 8);

    println!("machine reset");
    h.reset_machine();
}
