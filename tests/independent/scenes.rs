//! Scenes: everything that a step is given. A guest, a queue with its rings in the guest's memory, and chains of elements, in
//! the rules or with a fault.
use crate::chance::*;
use crate::compare::*;
use crate::devices::damage_device;
use crate::guests::*;
use crate::model::*;
use crate::queues::damage_queue;
use crate::requests::random_request;
use crate::views::damage_view;
use std::fmt::Write as _;

#[derive(Clone, PartialEq)]
pub struct Scene {
    pub view: Vec<u64>,
    pub device: Vec<u64>,
    pub queue: Vec<u64>,
    pub result: Vec<u64>,
    pub memory: Vec<u8>,
    pub k: u64,
    /// Of view, device, queue, result and memory.
    pub lengths: [usize; 5],
}

impl Show for Scene {
    fn show(&self, beside: Option<&Scene>) -> String {
        let mut text = String::new();
        if beside.is_none() {
            let _ = writeln!(text, "k = {:#x}, lengths passed {:?}", self.k, self.lengths);
        }
        show_words(&mut text, "view", &self.view, beside.map(|s| &s.view[..]));
        show_words(&mut text, "device", &self.device, beside.map(|s| &s.device[..]));
        show_words(&mut text, "queue", &self.queue, beside.map(|s| &s.queue[..]));
        show_words(&mut text, "result", &self.result, beside.map(|s| &s.result[..]));
        show_bytes(&mut text, "memory", &self.memory, beside.map(|s| &s.memory[..]));
        text
    }
}

/// Sizes of queues for one step and for many.
const FOR_ONE: [u64; 10] = [1, 2, 2, 4, 4, 4, 8, 8, 16, MOST_DESCRIPTORS];
const FOR_MANY: [u64; 7] = [2, 4, 8, 16, 32, 64, MOST_DESCRIPTORS];
/// Reachable bytes that a full scene needs.
const FULL_BYTES: u64 = 16384;
/// The longest element: its length has 32 bits.
const LONGEST: u64 = u32::MAX as u64;
/// Flags of a descriptor that mean nothing.
const OTHER_FLAGS: u16 = !(NEXT | WRITE | INDIRECT);

/// One descriptor's address, length and flags.
struct Element {
    address: u64,
    length: u64,
    flags: u16,
}

impl Element {
    fn writable(&self) -> bool {
        self.flags & WRITE != 0
    }
}

/// A scene while it is built.
struct Builder {
    guest: Guest,
    queue: Queue,
    offered: u16,
    /// For a run of many steps.
    many: bool,
    /// With elements of up to 2^32 - 1 bytes.
    wide: bool,
    /// As many chains offered as there are, none at fault.
    full: bool,
    /// Faults are so many times rarer.
    rare: u64,
    /// Chains of as many descriptors as the queue has.
    long_chain: bool,
    /// Descriptors that no chain uses yet.
    free: Vec<u64>,
    heads: Vec<u64>,
    /// Written last: address and bytes.
    requests: Vec<(u64, Vec<u8>)>,
}

pub fn random_scene(r: &mut Rng, many: bool) -> Scene {
    let mut builder = Builder::new(r, many);
    builder.put_areas(r);
    builder.put_indices(r);
    builder.put_chains(r);
    builder.put_requests(r);
    builder.put_available(r);
    builder.scene(r)
}

/// Splits a total into a few parts, sometimes with empty ones.
fn split(r: &mut Rng, total: u64, most: u64) -> Vec<u64> {
    let mut parts = Vec::new();
    let mut rest = total;
    for _ in 0..r.below(most) {
        let part = if r.one_in(4) { 0 } else { r.below(rest + 1) };
        parts.push(part);
        rest -= part;
    }
    parts.push(rest);
    if r.one_in(10) {
        parts.push(0);
    }
    parts
}

/// Bytes of one direction: as many as are wanted, or seldom fewer or more.
fn total(r: &mut Rng, wanted: u64, fewer: &[u64], rare: u64) -> u64 {
    match r.below(20 * rare) {
        0 => r.pick(fewer),
        1 => wanted + 1,
        2 => wanted + r.below(4000),
        _ => wanted,
    }
}

impl Builder {
    /// A guest and the size of its queue.
    fn new(r: &mut Rng, many: bool) -> Builder {
        let wide = !many && r.one_in(5000);
        let mut guest = random_guest(r, wide);
        let full = many && r.one_in(30);
        if full {
            while guest.reachable_bytes() < FULL_BYTES {
                guest = random_guest(r, false);
            }
            guest.calm = true;
        }
        let size = if full {
            MOST_DESCRIPTORS
        } else {
            r.pick(if many { &FOR_MANY[..] } else { &FOR_ONE[..] })
        };
        let rare = match (full, guest.calm) {
            (true, _) => 100_000,
            (_, true) => 8, // faults are rarer in a calm scene
            _ => 1,
        };
        let queue = Queue {
            size,
            descriptors: 0,
            available: 0,
            used: 0,
            next_available: 0,
            next_used: 0,
            stop: 0,
        };
        Builder {
            guest,
            queue,
            offered: 0,
            many,
            wide,
            full,
            rare,
            long_chain: false,
            free: Vec::new(),
            heads: Vec::new(),
            requests: Vec::new(),
        }
    }

    /// Areas: mostly whole in reachable memory; sometimes on each other.
    fn put_areas(&mut self, r: &mut Rng) {
        let n = self.queue.size;
        let whole = self.guest.calm || !r.one_in(6);
        // The bytes that are wanted of an area: all of them, or its first few.
        let of = |all: u64, few: u64| if whole { all } else { few };
        let few = available_bytes(0);
        let descriptors =
            self.guest.spot(r, of(descriptors_bytes(n), DESCRIPTOR), DESCRIPTORS_ALIGN);
        let mut available = self.guest.spot(r, of(available_bytes(n), few), AVAILABLE_ALIGN);
        let mut used = self.guest.spot(r, of(used_bytes(n), few), USED_ALIGN);
        if r.one_in(20 * self.rare) {
            let on = descriptors.wrapping_add(DESCRIPTOR * r.below(n));
            let address = self.guest.alias_of(r, on).unwrap_or(available);
            available = address / AVAILABLE_ALIGN * AVAILABLE_ALIGN;
        }
        if r.one_in(12 * self.rare) {
            let on = r.pick(&[descriptors, available]).wrapping_add(2 * r.below(8));
            used = self.guest.alias_of(r, on).unwrap_or(used) / USED_ALIGN * USED_ALIGN;
        }
        self.queue = Queue { descriptors, available, used, ..self.queue };
    }

    /// The queue's two indices, and how many chains are offered.
    fn put_indices(&mut self, r: &mut Rng) {
        let n = self.queue.size;
        let near_the_end = |r: &mut Rng| u16::MAX.wrapping_sub(r.below(3) as u16);
        let seen = match r.below(4) {
            0 => 0,
            1 => near_the_end(r),
            2 => r.below(2 * n) as u16,
            _ => r.next() as u16,
        };
        let next_used = match r.below(4) {
            0 => seen,
            1 => near_the_end(r),
            2 => 0,
            _ => r.next() as u16,
        };
        (self.queue.next_available, self.queue.next_used) = (seen, next_used);
        self.offered = self.random_offered(r);
    }

    fn random_offered(&self, r: &mut Rng) -> u16 {
        let n = self.queue.size;
        if self.full {
            return MOST_DESCRIPTORS as u16;
        }
        if self.many {
            return match r.below(12 * self.rare) {
                0 => n as u16 + 1,
                1 => 1,
                _ => 1 + r.below(n) as u16,
            };
        }
        match r.below(16 * self.rare) {
            0 => 0,
            1 => n as u16,
            2 => n as u16 + 1,
            3 => r.pick(&[u16::MAX, 32768, 257, 512, r.0 as u16]),
            _ => 1 + r.below(n.min(3)) as u16,
        }
    }

    /// Descriptors, chain by chain, until they are used up.
    fn put_chains(&mut self, r: &mut Rng) {
        self.free = (0..self.queue.size).collect();
        for i in (1..self.free.len()).rev() {
            self.free.swap(i, r.below(i as u64 + 1) as usize);
        }
        let most_chains = if self.many { 1 + r.below(12) } else { 2 };
        self.long_chain = r.one_in(12);
        while (self.heads.len() as u64) < most_chains && !self.free.is_empty() {
            let mut elements = self.random_elements(r);
            if !self.full && r.one_in(6) {
                self.lay_on_the_queue(r, &mut elements);
            }
            if !self.full && r.one_in(12) {
                self.lay_on_the_request(r, &mut elements);
            }
            if self.wide || (!self.full && r.one_in(6)) {
                self.lengthen(r, &mut elements);
            }
            self.put_faults(r, &mut elements);
            if elements.len() > self.free.len() {
                if !self.heads.is_empty() {
                    break;
                }
                elements.truncate(self.free.len());
            }
            self.put_chain(r, &elements);
        }
    }

    /// Elements of enough bytes, readable ones first.
    fn random_elements(&mut self, r: &mut Rng) -> Vec<Element> {
        let (wanted, room) = (REQUEST as u64, RESPONSE as u64);
        let readable = total(r, wanted, &[0, 1, wanted - 2, wanted - 1], self.rare);
        let writable = total(r, room, &[0, 1, room - 2, room - 1], self.rare);
        let free = self.free.len();
        let parts = if free > 2 { (free as u64 / 2).min(3) } else { 1 };
        let mut elements: Vec<Element> = Vec::new();
        for (total, flags) in [(readable, 0), (writable, WRITE)] {
            for length in split(r, total, parts) {
                let address = if length == 0 { edge(r) } else { self.guest.spot(r, length, 1) };
                elements.push(Element { address, length, flags });
            }
        }
        if self.long_chain {
            while elements.len() < free {
                let at = r.below(2) as usize;
                elements.insert(at, Element { address: edge(r), length: 0, flags: 0 });
            }
        }
        elements
    }

    /// The response (or the request) on a place that matters: used slot, ring, a descriptor.
    fn lay_on_the_queue(&self, r: &mut Rng, elements: &mut [Element]) {
        let Queue { size, descriptors, available, used, next_available, next_used, .. } =
            self.queue;
        let slot = used.wrapping_add(RING_ENTRIES + USED_ENTRY * (u64::from(next_used) % size));
        let entry = available
            .wrapping_add(RING_ENTRIES + AVAILABLE_ENTRY * (u64::from(next_available) % size));
        let index = used.wrapping_add(RING_IDX);
        let on = r.pick(&[slot, slot, index, available, entry, descriptors]);
        let on = on.wrapping_add(r.below(12)).wrapping_sub(9);
        let flags = if r.0 % 8 == 0 { 0 } else { WRITE };
        let i = elements.iter().position(|e| e.flags == flags).unwrap_or(0);
        if let Some(address) = self.guest.alias_of(r, on) {
            if r.one_in(6) || self.guest.reaches(address, elements[i].length) {
                elements[i].address = address;
            }
        }
    }

    /// Response over the request.
    fn lay_on_the_request(&self, r: &mut Rng, elements: &mut [Element]) {
        let to = elements.len() - 1;
        let on = elements[0].address.wrapping_add(r.below(REQUEST as u64));
        elements[to].address = self.guest.alias_of(r, on).unwrap_or(elements[to].address);
    }

    /// A long element: to the end of what is reachable, one byte further, or far past it.
    fn lengthen(&self, r: &mut Rng, elements: &mut [Element]) {
        let i = r.below(elements.len() as u64) as usize;
        let room = self.guest.room_at(elements[i].address);
        let length = match r.below(6) {
            0 => room + r.below(2),
            1 => room.saturating_sub(1),
            2 if !self.guest.calm || r.one_in(8) => {
                r.pick(&[1 << 31, LONGEST, (1 << 31) - 1, 1 << 16])
            }
            _ => room,
        };
        elements[i].length = length.min(LONGEST);
    }

    /// A wrong flag, or a wild address.
    fn put_faults(&self, r: &mut Rng, elements: &mut [Element]) {
        if r.one_in(40 * self.rare) {
            let i = r.below(elements.len() as u64) as usize;
            elements[i].flags ^= r.pick(&[WRITE, INDIRECT]);
        }
        if r.one_in(40 * self.rare) {
            let i = r.below(elements.len() as u64) as usize;
            elements[i].address = match r.below(3) {
                0 => edge(r),
                1 => LIMIT - r.below(30),
                _ => 0u64.wrapping_sub(r.below(30)),
            };
        }
    }

    /// The request's bytes and the descriptors of one chain.
    fn put_chain(&mut self, r: &mut Rng, elements: &[Element]) {
        let numbers: Vec<u64> = self.free.drain(..elements.len()).collect();
        self.keep_request(r, elements);
        for (i, element) in elements.iter().enumerate() {
            let (flags, next) = self.flags_and_next(r, &numbers, i, element.flags);
            let mut descriptor = Vec::new();
            descriptor.extend(element.address.to_le_bytes());
            descriptor.extend((element.length as u32).to_le_bytes());
            descriptor.extend(flags.to_le_bytes());
            descriptor.extend(next.to_le_bytes());
            let at = self.queue.descriptors.wrapping_add(DESCRIPTOR * numbers[i]);
            self.guest.put(at, &descriptor);
        }
        self.heads.push(numbers[0]);
    }

    /// The request, byte by byte over the readable elements.
    fn keep_request(&mut self, r: &mut Rng, elements: &[Element]) {
        let response = elements.iter().find(|e| e.writable()).map_or(0, |e| e.address);
        let near = self.near_block(r, response);
        let mut bytes = random_request(r, &self.guest.device, near);
        if self.full && bytes[WT_REQUEST_TYPE] != PLUG as u8 {
            bytes[WT_REQUEST_TYPE] = STATE as u8; // nothing that takes blocks away
        }
        let mut left = &bytes[..];
        for element in elements.iter().filter(|e| !e.writable()) {
            let take = (element.length as usize).min(left.len());
            self.requests.push((element.address, left[..take].to_vec()));
            left = &left[take..];
        }
    }

    /// Often the block that the response or the used ring lies in.
    fn near_block(&self, r: &mut Rng, response: u64) -> Option<u64> {
        let used = self.queue.used;
        match r.below(3) {
            0 => self.guest.block_at(response).or(self.guest.block_at(used)),
            1 => self.guest.block_at(used),
            _ => None,
        }
    }

    /// The flags of element i of a chain, and its next; seldom a wrong one.
    fn flags_and_next(&self, r: &mut Rng, numbers: &[u64], i: usize, mut flags: u16) -> (u16, u16) {
        let n = self.queue.size as u16;
        let mut next = r.next() as u16;
        if i < numbers.len() - 1 {
            flags |= NEXT;
            next = numbers[i + 1] as u16;
            if r.one_in(80 * self.rare) {
                next = match r.below(3) {
                    0 => n + r.below(3) as u16,
                    1 => numbers[r.below(i as u64 + 1) as usize] as u16, // a loop
                    _ => r.next() as u16,
                };
            }
        } else if r.one_in(50 * self.rare) {
            flags |= NEXT;
            next = r.pick(&[numbers[0] as u16, r.0 as u16, n]);
        }
        if r.one_in(10) {
            flags |= (r.next() as u16) & OTHER_FLAGS;
        }
        (flags, next)
    }

    fn put_requests(&mut self, r: &mut Rng) {
        if r.one_in(2) {
            self.requests.reverse();
        }
        for (address, bytes) in &self.requests {
            self.guest.put(*address, bytes);
        }
    }

    /// The available ring.
    fn put_available(&mut self, r: &mut Rng) {
        let Queue { size: n, available, next_available: seen, .. } = self.queue;
        for i in 0..u64::from(self.offered).min(n) {
            let mut head = self.heads[(i % self.heads.len() as u64) as usize];
            if r.one_in(60 * self.rare) {
                head = match r.below(3) {
                    0 => n + r.below(2),
                    1 => r.next() & u64::from(u16::MAX),
                    _ => r.below(n),
                };
            }
            let at = u64::from(seen.wrapping_add(i as u16)) % n;
            let entry = available.wrapping_add(RING_ENTRIES + AVAILABLE_ENTRY * at);
            self.guest.put(entry, &(head as u16).to_le_bytes());
        }
        let flags = r.pick(&[0u16, 0, 0, NO_NOTIFY, 2, 0xfffe, 0xffff, 0x100]);
        self.guest.put(available, &flags.to_le_bytes());
        let idx = seen.wrapping_add(self.offered);
        self.guest.put(available.wrapping_add(RING_IDX), &idx.to_le_bytes());
    }

    /// The records, sometimes damaged, and all that is passed.
    fn scene(mut self, r: &mut Rng) -> Scene {
        let mut view = view_words(&self.guest.runs);
        if r.one_in(4) {
            view[WT_VIEW_RANGE(self.guest.runs.len())..].fill(u64::MAX);
        }
        let mut device = self.guest.device.words().to_vec();
        let stops = 1 + STOPS.end() - STOPS.start();
        self.queue.stop = if r.one_in(30) { STOPS.start() + r.below(stops) } else { 0 };
        let mut queue = self.queue.words().to_vec();
        if r.one_in(12 * self.rare) {
            match r.below(4) {
                0 => damage_view(r, &mut view),
                1 => damage_device(r, &mut device),
                _ => damage_queue(r, &mut queue),
            }
        }
        let k = self.random_k(r);
        let bytes = self.guest.memory.len();
        let lent = bytes - if r.one_in(60) { r.below(200).min(bytes as u64) as usize } else { 0 };
        Scene {
            view: guarded(r, &view),
            device: guarded(r, &device),
            queue: guarded(r, &queue),
            result: garbage(r, RESULT),
            memory: self.guest.memory,
            k,
            lengths: [
                length(r, VIEW),
                length(r, DEVICE),
                length(r, QUEUE),
                length(r, RESULT),
                lent,
            ],
        }
    }

    /// How many steps a run is asked for.
    fn random_k(&self, r: &mut Rng) -> u64 {
        let offered = u64::from(self.offered);
        let most = MOST_STEPS;
        match r.below(6) {
            _ if self.full => r.pick(&[most - 1, most, most + 1, 300, 511, u64::MAX]),
            0 => {
                let wide = 1 << 32; // past 32 bits
                r.pick(&[0, 1, 2, most - 1, most, most + 1, 65536, wide, wide + 1, u64::MAX])
            }
            1 => offered,
            2 => offered.saturating_sub(1),
            3 => most,
            _ => r.below(20),
        }
    }
}
