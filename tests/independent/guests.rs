//! Guests: a view, a device and a memory, and where in it a queue and its elements can lie.
use crate::chance::*;
use crate::devices::*;
use crate::maps::*;
use crate::model::*;
use crate::views::*;

/// The guest while a scene is built.
pub struct Guest {
    pub runs: Vec<Run>,
    pub device: Device,
    pub memory: Vec<u8>,
    /// Reachable addresses, joined: first and last.
    pub reachable: Vec<(u64, u64)>,
    /// A calm guest puts things only where they can be reached and nothing else lies.
    pub calm: bool,
    taken: Vec<bool>,
}

/// The longest stretch that a calm guest looks for.
const LONGEST_CLAIM: u64 = 1 << 14;

impl Guest {
    fn new(runs: Vec<Run>, device: Device, memory: Vec<u8>, calm: bool) -> Guest {
        let reachable = reachable_spans(&runs, &device);
        let taken = vec![false; memory.len()];
        Guest { runs, device, memory, reachable, calm, taken }
    }

    /// Writes where the view leads, plugged or not.
    pub fn put(&mut self, address: u64, bytes: &[u8]) {
        for (i, &byte) in bytes.iter().enumerate() {
            let a = address.wrapping_add(i as u64);
            if let Some(run) = find(&self.runs, a) {
                if has_memory(run.kind) {
                    self.memory[(run.base + run.offset_at(a)) as usize] = byte;
                }
            }
        }
    }

    /// Whether these bytes are reachable and nothing was put there; they are taken from now on.
    fn claim(&mut self, address: u64, need: u64) -> bool {
        if need > LONGEST_CLAIM || !self.reaches(address, need) {
            return false;
        }
        let places: Vec<usize> =
            (0..need).filter_map(|i| reach(&self.runs, &self.device, address + i)).collect();
        if places.iter().any(|&p| self.taken[p]) {
            return false;
        }
        places.iter().for_each(|&p| self.taken[p] = true);
        true
    }

    /// Whether all of these bytes are reachable.
    pub fn reaches(&self, address: u64, need: u64) -> bool {
        all_reachable(&self.runs, &self.device, address, need)
    }

    /// An address, mostly of `need` reachable bytes, often at the end of a run or across one.
    pub fn spot(&mut self, r: &mut Rng, need: u64, align: u64) -> u64 {
        if self.calm && !self.reachable.is_empty() && !r.one_in(200) {
            let mut address = 0;
            for _ in 0..20 {
                address = self.any_spot(r, need, align);
                if self.claim(address, need) {
                    break;
                }
            }
            return address;
        }
        self.any_spot(r, need, align)
    }

    fn any_spot(&self, r: &mut Rng, need: u64, align: u64) -> u64 {
        if self.reachable.is_empty() || r.one_in(60) {
            return match r.below(3) {
                0 => edge(r),
                _ => telling_address(r, &self.runs),
            } / align
                * align;
        }
        for _ in 0..12 {
            let address = if r.one_in(3) {
                self.across(r, need) / align * align
            } else {
                self.in_a_span(r, need, align)
            };
            if r.one_in(12) || self.reaches(address, need) {
                return address;
            }
        }
        let (first, _) = r.pick(&self.reachable);
        (first + align - 1) / align * align
    }

    /// Across the start of some run, or of some block.
    fn across(&self, r: &mut Rng, need: u64) -> u64 {
        let run = r.pick(&self.runs);
        let mut start = run.first;
        if run.kind == MANAGED && r.one_in(2) {
            let to_block = self.device.block_size - run.offset % self.device.block_size;
            start += to_block.min(run.last - run.first);
        }
        start.saturating_sub(r.below(need + 1))
    }

    /// In reachable addresses, often at their start or end.
    fn in_a_span(&self, r: &mut Rng, need: u64, align: u64) -> u64 {
        let (first, last) = r.pick(&self.reachable);
        let room = (last - first + 1).saturating_sub(need);
        let at = match r.below(4) {
            0 => first,
            1 => first + room,
            _ => first + r.below(room + 1),
        };
        if r.one_in(2) {
            (at + align - 1) / align * align
        } else {
            at / align * align
        }
    }

    /// Another address (or the same) of the memory place that `address` leads to.
    pub fn alias_of(&self, r: &mut Rng, address: u64) -> Option<u64> {
        let run = find(&self.runs, address).filter(|run| has_memory(run.kind))?;
        let place = run.base + run.offset_at(address);
        let address_in = |b: &Run| {
            let inside = place.checked_sub(b.base + b.offset)?;
            (inside <= b.last - b.first).then_some(b.first + inside)
        };
        let all: Vec<u64> =
            self.runs.iter().filter(|b| has_memory(b.kind)).filter_map(address_in).collect();
        (!all.is_empty()).then(|| r.pick(&all))
    }

    /// The block of the byte at an address, where it is in a managed run.
    pub fn block_at(&self, address: u64) -> Option<u64> {
        let run = find(&self.runs, address)?;
        (run.kind == MANAGED).then(|| run.offset_at(address) / self.device.block_size)
    }

    /// Reachable bytes from an address on.
    pub fn room_at(&self, address: u64) -> u64 {
        let span = self.reachable.iter().find(|s| s.0 <= address && address <= s.1);
        span.map_or(0, |s| s.1 - address + 1)
    }

    pub fn reachable_bytes(&self) -> u64 {
        self.reachable.iter().map(|s| s.1 - s.0 + 1).sum()
    }
}

pub fn reachable_spans(runs: &[Run], device: &Device) -> Vec<(u64, u64)> {
    let mut spans: Vec<(u64, u64)> = Vec::new();
    let mut add = |first: u64, last: u64| match spans.last_mut() {
        Some(before) if before.1 + 1 == first => before.1 = last,
        _ => spans.push((first, last)),
    };
    for run in runs {
        match run.kind {
            RAM => add(run.first, run.last),
            MANAGED => {
                let mut offset = run.offset;
                let end = run.offset + (run.last - run.first);
                while offset <= end {
                    let block = offset / device.block_size;
                    let block_last = (block * device.block_size + device.block_size - 1).min(end);
                    if device.plugged[block as usize] {
                        let at = run.first + (offset - run.offset);
                        add(at, at + (block_last - offset));
                    }
                    offset = block_last + 1;
                }
            }
            _ => {}
        }
    }
    spans
}

/// As many windows as a view holds, each on the whole memory, by RAM or by the region, one after the other.
fn carpet(r: &mut Rng, memory_length: u64, device: &Device) -> Vec<Run> {
    let mut at = r.pick(&[0, 4096]);
    let managed_in = r.pick(&[2, 8, 1000]);
    let mut runs = Vec::new();
    for _ in 0..MOST_RUNS {
        let (node, kind, size) = if r.one_in(managed_in) {
            (1, MANAGED, memory_length.min(device.region))
        } else {
            (0, RAM, memory_length)
        };
        let size = size - r.pick(&[0, 0, 0, 1, 7]);
        runs.push(Run { first: at, last: at + size - 1, node, offset: 0, kind, base: 0 });
        at += size + if r.one_in(400) { 1 } else { 0 };
    }
    runs
}

/// More than 2^32 reachable bytes: the longest elements that there are.
fn wide_guest(r: &mut Rng) -> Guest {
    let memory_length = (1 << 24) + 4096;
    let device = device_of(r, SMALLEST_BLOCK, MOST_BLOCKS);
    let mut runs = carpet(r, memory_length, &device);
    if r.one_in(2) {
        runs.iter_mut().for_each(|run| (run.node, run.kind) = (0, RAM));
        for i in 1..runs.len() {
            let size = runs[i].last - runs[i].first;
            runs[i].first = runs[i - 1].last + 1;
            runs[i].last = runs[i].first + size;
        }
    }
    Guest::new(runs, device, vec![0; memory_length as usize], true)
}

pub fn random_guest(r: &mut Rng, wide: bool) -> Guest {
    if wide {
        return wide_guest(r);
    }
    let memory_length =
        r.pick(&[2048, 8192, 16384, 24576, 40960, 49152]) + r.pick(&[0, 0, 0, 1, 100]);
    let block_size = r.pick(&[
        SMALLEST_BLOCK,
        SMALLEST_BLOCK,
        SMALLEST_BLOCK,
        SMALLEST_BLOCK,
        2 * SMALLEST_BLOCK,
        LARGEST_BLOCK,
    ]);
    let blocks = r.pick(&[1, 2, 4, 8, 8, 8, 12, 64, 130, MOST_BLOCKS]);
    let device = device_of(r, block_size, blocks);
    let mut runs = match r.below(9) {
        // Few places of memory many times over: elements of millions of bytes.
        8 => carpet(r, memory_length, &device),
        0..=3 => machine(r, memory_length, &device),
        4 => scraps(r, memory_length),
        5 => runs_of_map(r, memory_length, &device),
        _ => random_view(r, memory_length, &device),
    };
    runs.truncate(MOST_RUNS as usize);
    let from = r.below((noise().len() as u64) - memory_length) as usize;
    let memory = if r.one_in(4) {
        vec![0; memory_length as usize]
    } else {
        noise()[from..from + memory_length as usize].to_vec()
    };
    let calm = r.one_in(2);
    Guest::new(runs, device, memory, calm)
}

/// A machine: RAM, a device, the region, and aliases of RAM and region.
fn machine(r: &mut Rng, memory_length: u64, device: &Device) -> Vec<Run> {
    let half = memory_length / 2 / 16 * 16;
    let part = (memory_length - half).min(device.region);
    let ram = Run { first: 0, last: half - 1, node: 0, offset: 0, kind: RAM, base: 0 };
    let window = Run { first: half, last: half + 15, node: 2, offset: 0, kind: MMIO, base: 9 };
    let mut at = half + r.pick(&[16, 16, 4096]);
    let (first, last) = (at, at + part - 1);
    let managed = Run { first, last, node: 1, offset: 0, kind: MANAGED, base: half };
    let mut runs = vec![ram, window, managed];
    at += part + r.pick(&[0, 0, 64]);
    for _ in 0..r.below(4) {
        // A window on one of the two.
        let whole = r.pick(&[ram, managed]);
        let size = whole.size();
        let offset = r.pick(&[0, r.0 % size, size / 2]);
        let length = 1 + r.below(size - offset);
        runs.push(Run { first: at, last: at + length - 1, offset, ..whole });
        at += length + r.pick(&[0, 0, 3, 4096]);
    }
    if r.one_in(4) {
        let up = LIMIT - 1 - runs[runs.len() - 1].last;
        runs.iter_mut().for_each(|run| {
            run.first += up;
            run.last += up;
        });
    }
    runs
}

/// Scraps of memory in any order, one after the other, and few of a window.
fn scraps(r: &mut Rng, memory_length: u64) -> Vec<Run> {
    let mut at = r.pick(&[0, 0, 4096]);
    let mut runs = Vec::new();
    let wide = r.pick(&[8, 40, 200, 600]);
    for i in 0..r.pick(&[20, 60, MOST_RUNS]) {
        let length = 1 + r.below(wide);
        let offset = r.below(memory_length - length);
        let (node, kind, base) = if r.one_in(6) { (5, MMIO, 77) } else { (3, RAM, 0) };
        let run = Run { first: at, last: at + length - 1, node, offset, kind, base };
        at += length + if i % 16 == 15 { r.below(3) } else { 0 };
        if kind == MMIO && r.one_in(2) {
            at = run.first;
        } else {
            runs.push(run);
        }
    }
    runs
}

/// The runs of a random map where it is accepted.
fn runs_of_map(r: &mut Rng, memory_length: u64, device: &Device) -> Vec<Run> {
    let (mut nodes, _) = plain_map(r);
    let length = nodes.iter().map(|n| n.start + n.size).max().unwrap_or(0);
    if let Some(n) = nodes.iter_mut().find(|n| n.kind == MANAGED) {
        n.size = n.size.min(device.region);
    }
    match check_nodes(&nodes, length.min(memory_length)) {
        Ok(()) => Tree::new(nodes).runs(),
        Err(_) => random_view(r, memory_length, device),
    }
}
