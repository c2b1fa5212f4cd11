//! What the calls are measured on: views, accesses, a guest with its queue, and maps.
use crate::library;
use crate::model::{self, Node, Run, ALIAS, CONTAINER, MANAGED, MMIO, RAM};
use crate::plain;

// ----------------------------------------------------------------------------------------------- records

/// `count` ranges of a page with a hole after each: most of them RAM, some MMIO or managed.
pub fn pages(count: u64) -> Vec<Run> {
    let page = |i: u64| {
        let (node, kind, base) = match i % 8 {
            3 => (28, MMIO, 5),
            7 => (29, MANAGED, 2 << 20),
            _ => (i % 24, RAM, (i % 24) << 16),
        };
        let offset = (i / 8) * 4096 % 65536;
        Run { first: i * 8192, last: i * 8192 + 4095, node, offset, kind, base }
    };
    (0..count).map(page).collect()
}

/// The memory that `pages` needs.
pub const PAGES_MEMORY: u64 = 4 << 20;

/// A device with every block plugged.
pub fn full_device() -> plain::Device {
    let mut d = model::Device::fresh(4096, 1 << 32, 512 * 4096, 512 * 4096, 512 * 4096).unwrap();
    d.plugged[..512].fill(true);
    d.words()
}

/// 256 accesses with random ranges and widths, all of which succeed: an address and a width each.
pub fn accesses(runs: &[Run]) -> Vec<u64> {
    let mut seed = 88172645463325252u64;
    let mut words = Vec::new();
    for _ in 0..256 {
        seed ^= seed << 13;
        seed ^= seed >> 7;
        seed ^= seed << 17;
        let run = runs[(seed >> 20) as usize % runs.len()];
        let width = 1 << (seed % 4);
        words.extend([run.first + (seed >> 40) % 510 * 8, width]);
    }
    words
}

// ------------------------------------------------------------------------------------------------- guests

/// A guest whose queue is in the last range, with one chain (or two that take turns).
pub struct Guest {
    pub view: Vec<u64>,
    pub ranges: Vec<plain::Range>,
    pub device: plain::Device,
    pub queue: plain::Queue,
    pub memory: Vec<u8>,
    available: usize, // memory place of the available ring
}

const BLOCK: u64 = 4096;
const DEVICE_ADDR: u64 = 1 << 32;

impl Guest {
    /// The queue's areas begin at the address `start`, which is at `place` in the memory.
    fn new(
        runs: &[Run],
        device: model::Device,
        start: u64,
        memory: Vec<u8>,
        place: usize,
    ) -> Guest {
        Guest {
            view: model::view_words(runs),
            ranges: runs.iter().map(Run::words).collect(),
            device: device.words(),
            queue: [256, start, start + 0x2000, start + 0x3000, 0, 0, 0],
            memory,
            available: place + 0x2000,
        }
    }

    /// Offers `count` more chains than the device has seen.
    pub fn offer(&mut self, count: u16) {
        let index = (self.queue[4] as u16).wrapping_add(count);
        self.memory[self.available + 2..self.available + 4].copy_from_slice(&index.to_le_bytes());
    }
}

/// `count` ranges; the last is RAM of 64 KiB with all of the queue. `requests` are (type, blocks).
pub fn guest(count: u64, requests: &[(u16, u16)]) -> Guest {
    let start = count * 8192;
    let mut runs = pages(count - 1);
    runs.push(queue_range(start));
    guest_in(&runs, empty_device(), start, requests)
}

/// A device of 512 blocks, none of them plugged.
fn empty_device() -> model::Device {
    model::Device::fresh(BLOCK, DEVICE_ADDR, 512 * BLOCK, 512 * BLOCK, 256 * BLOCK).unwrap()
}

/// A small host: RAM with the queue, then a device's registers, then the managed region.
pub fn small_guest(requests: &[(u16, u16)]) -> Guest {
    small_host(empty_device(), requests)
}

/// The same host with a device of 1,024 blocks, all plugged except the first 64: a PLUG has fifteen full words to count.
pub fn plugged_guest(requests: &[(u16, u16)]) -> Guest {
    let blocks = 1024 * BLOCK;
    let mut device = model::Device::fresh(BLOCK, DEVICE_ADDR, blocks, blocks, blocks).unwrap();
    device.plugged[64..].fill(true);
    small_host(device, requests)
}

fn small_host(device: model::Device, requests: &[(u16, u16)]) -> Guest {
    let at = |first, size, node, kind, base| Run {
        first,
        last: first + size - 1,
        node,
        offset: 0,
        kind,
        base,
    };
    let runs = [
        queue_range(0),
        at(1 << 20, 4096, 1, MMIO, 5),
        at(DEVICE_ADDR, device.region, 2, MANAGED, 0),
    ];
    guest_in(&runs, device, 0, requests)
}

/// RAM of 64 KiB after the memory of the pages.
fn queue_range(start: u64) -> Run {
    Run { first: start, last: start + 65535, node: 31, offset: 0, kind: RAM, base: PAGES_MEMORY }
}

/// The queue starts at address `start`, in the range of `queue_range`.
fn guest_in(runs: &[Run], device: model::Device, start: u64, requests: &[(u16, u16)]) -> Guest {
    let place = PAGES_MEMORY;
    let mut memory = vec![0u8; place as usize + 65536];
    let mut put = |at: u64, bytes: &[u8]| {
        let at = (place + at) as usize;
        memory[at..at + bytes.len()].copy_from_slice(bytes);
    };
    // 0x0000 descriptors, 0x2000 available, 0x3000 used, 0x8000 requests, 0x9000 responses.
    for (i, &(kind, blocks)) in requests.iter().enumerate() {
        let i = i as u64;
        put(0x8000 + 64 * i, &kind.to_le_bytes());
        put(0x8008 + 64 * i, &DEVICE_ADDR.to_le_bytes());
        put(0x8010 + 64 * i, &blocks.to_le_bytes());
        let elements =
            [(start + 0x8000 + 64 * i, 24u32, 1u16, 2 * i + 1), (start + 0x9000, 10, 2, 0)];
        for (j, (address, length, flags, next)) in elements.into_iter().enumerate() {
            let at = 16 * (2 * i + j as u64);
            put(at, &address.to_le_bytes());
            put(at + 8, &length.to_le_bytes());
            put(at + 12, &flags.to_le_bytes());
            put(at + 14, &(next as u16).to_le_bytes());
        }
    }
    for entry in 0..256 {
        let head = 2 * (entry % requests.len() as u64) as u16;
        put(0x2004 + 2 * entry, &head.to_le_bytes());
    }
    Guest::new(runs, device, start, memory, place as usize)
}

/// What a long buffer is in.
#[derive(Clone, Copy)]
pub enum Element {
    OneRange,
    /// The same memory 255 times, in ranges that follow each other.
    ManyRanges,
    Managed,
}

/// A guest whose readable buffer has a given length. Most of its memory is never touched, so it takes no real memory.
pub fn long_guest(element: Element, length: u32) -> Guest {
    let room: u64 = (1 << 31) + (1 << 20);
    let run = |first, size, node, kind, base| Run {
        first,
        last: first + size - 1,
        node,
        offset: 0,
        kind,
        base,
    };
    let region = 1024 * BLOCK;
    let part = room / 128;
    let runs = match element {
        Element::OneRange => vec![run(0, room, 0, RAM, 0)],
        Element::ManyRanges => (0..255)
            .map(|i| run(i * part, part, i % 31, RAM, 0))
            .chain([run(1 << 40, 65536, 31, RAM, 1 << 30)])
            .collect(),
        Element::Managed => vec![run(0, region, 0, MANAGED, 0), run(region, 65536, 1, RAM, region)],
    };
    long_guest_in(runs, length, vec![0u8; room as usize])
}

/// The request is at address 0 in a buffer of `length`; the queue is in the last 64 KiB of the last run.
fn long_guest_in(runs: Vec<Run>, length: u32, mut memory: Vec<u8>) -> Guest {
    let last = runs[runs.len() - 1];
    let start = last.last - 65535;
    let place = (last.base + last.offset + (start - last.first)) as usize;
    memory[0..2].copy_from_slice(&3u16.to_le_bytes());
    memory[16..18].copy_from_slice(&1u16.to_le_bytes());
    for (at, address, length, flags) in
        [(place, 0, length, 1u16), (place + 16, start + 0x9000, 10, 2)]
    {
        memory[at..at + 8].copy_from_slice(&address.to_le_bytes());
        memory[at + 8..at + 12].copy_from_slice(&length.to_le_bytes());
        memory[at + 12..at + 14].copy_from_slice(&flags.to_le_bytes());
        memory[at + 14..at + 16].copy_from_slice(&1u16.to_le_bytes());
    }
    let blocks = 1024 * BLOCK;
    let mut device = model::Device::fresh(BLOCK, 0, blocks, blocks, blocks).unwrap();
    device.plugged.fill(true);
    Guest::new(&runs, device, start, memory, place)
}

/// The longest chain that a guest can make: `elements` buffers, of which all except the last are readable and cover all
/// `ranges` except the queue's own, which is the last. All 256 entries of the ring refer to it.
pub fn long_chain(managed: bool, ranges: u64, elements: u16) -> Guest {
    let part = if managed { 1024 * BLOCK } else { BLOCK };
    let (kind, nodes) = if managed { (MANAGED, 1) } else { (RAM, 31) };
    let run = |i| Run {
        first: i * part,
        last: (i + 1) * part - 1,
        node: i % nodes,
        offset: 0,
        kind,
        base: 0,
    };
    let start = 1 << 40;
    let queue =
        Run { first: start, last: start + 65535, node: 31, offset: 0, kind: RAM, base: part };
    let runs: Vec<Run> = (0..ranges - 1).map(run).chain([queue]).collect();
    let mut memory = vec![0u8; part as usize + 65536];
    memory[0..2].copy_from_slice(&3u16.to_le_bytes()); // STATE of one block
    memory[16..18].copy_from_slice(&1u16.to_le_bytes());
    for i in 0..elements {
        let last = i + 1 == elements;
        let (address, length) = if last { (start + 0x9000, 10) } else { (0, (ranges - 1) * part) };
        let at = part as usize + 16 * usize::from(i);
        memory[at..at + 8].copy_from_slice(&address.to_le_bytes());
        memory[at + 8..at + 12].copy_from_slice(&(length as u32).to_le_bytes());
        memory[at + 12..at + 14].copy_from_slice(&(if last { 2u16 } else { 1 }).to_le_bytes());
        memory[at + 14..at + 16].copy_from_slice(&(i + 1).to_le_bytes());
    }
    let blocks = 1024 * BLOCK;
    let mut device = model::Device::fresh(BLOCK, 0, blocks, blocks, blocks).unwrap();
    device.plugged.fill(true);
    Guest::new(&runs, device, start, memory, part as usize)
}

// --------------------------------------------------------------------------------------------------- maps

/// A map and the length of its memory.
pub struct Map {
    pub words: Vec<u64>,
    pub memory: u64,
}

/// Two leaves, doubled seven times: 256 runs.
pub fn doubled() -> Map {
    let unit = 4096;
    let mut nodes = vec![
        Node { kind: RAM, parent: 3, offset: 0, size: unit, ..Node::default() },
        Node { kind: MMIO, parent: 3, offset: unit, size: unit, port: 1, ..Node::default() },
        Node { kind: CONTAINER, size: 2 * unit, ..Node::default() },
    ];
    for _ in 0..7 {
        let below = nodes.len() - 1;
        let size = nodes[below].size;
        let parent = below as u64 + 3; // once as a child, and once through an alias beside it
        nodes[below].parent = parent;
        let target = below as u64;
        nodes.push(Node { kind: ALIAS, parent, offset: size, size, target, ..Node::default() });
        nodes.push(Node { kind: CONTAINER, size: 2 * size, ..Node::default() });
    }
    Map { words: model::map_words(&nodes), memory: unit }
}

/// 31 pages of RAM and MMIO side by side: an ordinary map.
pub fn ordinary() -> Map {
    let page = |i: u64| {
        let n = Node { parent: 32, offset: i * 8192, size: 4096, ..Node::default() };
        if i % 3 == 2 {
            Node { kind: MMIO, port: i, ..n }
        } else {
            Node { kind: RAM, start: i * 4096, ..n }
        }
    };
    let mut nodes: Vec<Node> = (0..31).map(page).collect();
    nodes.push(Node { kind: CONTAINER, size: 1 << 32, ..Node::default() });
    Map { words: model::map_words(&nodes), memory: 1 << 20 }
}

/// What is at the bottom of a tower.
#[derive(Clone, Copy, PartialEq)]
pub enum Bottom {
    /// Nothing: each address is searched along every way.
    Hole,
    /// A byte at each end and nothing between: many short runs, far apart.
    Ends,
    /// RAM everywhere: each way shows more of it.
    Whole,
}

/// Levels of containers. Each shows the one below `ways` times (once as a child, otherwise through aliases). These
/// overlap and are shifted so that all edges differ: there are ways^levels ways through it.
pub fn tower(ways: u64, levels: u32, shifted: bool, bottom: Bottom, leaf: u64) -> Vec<Node> {
    let end =
        |offset, start| Node { kind: RAM, parent: 3, offset, size: 1, start, ..Node::default() };
    let mut nodes = match bottom {
        Bottom::Ends => vec![end(0, 0), end(leaf - 1, 1)],
        _ => vec![],
    };
    let kind = if bottom == Bottom::Whole { RAM } else { CONTAINER };
    nodes.push(Node { kind, size: leaf, ..Node::default() });
    let mut shift = 1;
    for _ in 0..levels {
        let below = nodes.len() - 1;
        let parent = below as u64 + ways + 1; // parent + 1
        let size = nodes[below].size;
        nodes[below].parent = parent;
        nodes[below].priority = 100;
        for i in 1..ways {
            let offset = if shifted { i * shift } else { 0 };
            let (priority, target) = (100 + i, below as u64);
            nodes.push(Node {
                kind: ALIAS,
                parent,
                offset,
                size,
                priority,
                target,
                ..Node::default()
            });
        }
        let more = if shifted { (ways - 1) * shift } else { 0 };
        nodes.push(Node { kind: CONTAINER, size: size + more, ..Node::default() });
        shift *= ways;
    }
    nodes
}

/// The largest of QEMU's maps in tests/qemu-flat.txt: its name and its words.
pub fn largest_of_qemu() -> (String, Map) {
    let mut name = "";
    let mut best = (0, String::new(), vec![]);
    for line in include_str!("../tests/qemu-flat.txt").lines() {
        if let Some(rest) = line.strip_prefix("# ") {
            name = rest;
        } else if let Some(hex) = line.strip_prefix("sheet ") {
            let byte = |i| u8::from_str_radix(&hex[i..i + 2], 16).unwrap();
            let sheet: Vec<u8> = (0..hex.len()).step_by(2).map(byte).collect();
            let mut map = vec![0u64; model::MAP];
            let (number, _) = library::read_sheet(&sheet, 1 << 48, &mut map);
            if number == 0 && sheet.len() > best.0 {
                best = (sheet.len(), name.to_string(), map);
            }
        }
    }
    (best.1, Map { words: best.2, memory: 1 << 48 })
}

/// The worst map found: 59,049 ways through ten levels of aliases over RAM.
pub fn worst() -> Map {
    let leaf = 1 << 24;
    Map { words: model::map_words(&tower(3, 10, true, Bottom::Whole, leaf)), memory: leaf }
}
