//! Flat views that come from no map, and damaged ones.
use crate::chance::*;
use crate::maps::PORTS;
use crate::model::*;

/// The kind of a node, and its memory start or port.
type Backing = (u64, u64);

/// A view that keeps its rules for this memory length and region, not from a map: ranges of one memory
/// place twice, runs cut in two, nodes that follow each other without a gap.
pub fn random_view(r: &mut Rng, memory_length: u64, device: &Device) -> Vec<Run> {
    let count = r.pick(&[0, 1, 2, 3, 4, 6, 8, 12, 16, 16, 24, 40, 100, MOST_RUNS]);
    let style = r.below(4);
    let nodes: Vec<Backing> = (0..MOST_NODES).map(|_| random_backing(r, memory_length)).collect();
    let few = 1 + r.below(MOST_NODES);
    let mut runs: Vec<Run> = Vec::new();
    let mut cursor = r.pick(&[0, 0, 1, 4096, 100]);
    for _ in 0..count {
        let before = runs.last().copied();
        let node = match before {
            Some(b) if r.one_in(3) => b.node,
            _ => r.below(few),
        };
        let (kind, base) = nodes[node as usize];
        let bound = usable_bytes(kind, base, memory_length, device.region);
        if bound == 0 {
            continue;
        }
        let gap = r.pick(&[0, 0, 0, 0, 0, 1, 2, 5, 8, 4000]);
        let before = before.filter(|b| b.node == node);
        let offset = random_offset(r, before, gap, bound, device.block_size);
        if offset >= bound {
            continue;
        }
        let length = random_length(r, style).min(bound - offset);
        let first = cursor + gap;
        cursor = first + length;
        runs.push(Run { first, last: cursor - 1, node, offset, kind, base });
    }
    move_to_the_end(r, &mut runs);
    runs
}

fn random_backing(r: &mut Rng, memory_length: u64) -> Backing {
    let kind = r.pick(&[RAM, RAM, RAM, RAM, MANAGED, MANAGED, MANAGED, MMIO]);
    let base = match kind {
        MMIO if r.one_in(6) => edge(r),
        MMIO => r.below(PORTS),
        RAM | MANAGED if r.one_in(3) => 0,
        RAM | MANAGED => r.below(memory_length),
        kind => unreachable!("kind {kind} is not picked"),
    };
    (kind, base)
}

/// Bytes of a node that a run may use.
fn usable_bytes(kind: u64, base: u64, memory_length: u64, region: u64) -> u64 {
    match kind {
        MMIO => LIMIT,
        MANAGED => (memory_length - base.min(memory_length)).min(region),
        RAM => (memory_length - base.min(memory_length)).min(LIMIT),
        kind => unreachable!("no run has kind {kind}"),
    }
}

/// Where a run begins in its node: where the run before of the same node ends, or as if there were no gap, or elsewhere.
fn random_offset(r: &mut Rng, before: Option<Run>, gap: u64, bound: u64, block_size: u64) -> u64 {
    if let Some(b) = before {
        if r.one_in(2) {
            return b.offset + b.size() + if r.one_in(2) { gap } else { 0 };
        }
    }
    match r.below(4) {
        0 => 0,
        1 => (r.below(bound / block_size + 1) * block_size).saturating_sub(r.below(24)),
        2 => bound - 1 - r.below(bound.min(40)),
        _ => r.below(bound),
    }
}

fn random_length(r: &mut Rng, style: u64) -> u64 {
    match style {
        0 => 1 + r.below(12),
        1 => 1 + r.below(200),
        2 => 4096 * (1 + r.below(4)),
        _ => r.pick(&[1, 3, 8, 16, 40, 4096, 5000, 20000]),
    }
}

/// Sometimes up to the very end of the address space, or seldom so that the last run ends too late.
fn move_to_the_end(r: &mut Rng, runs: &mut [Run]) {
    if let (Some(last), true) = (runs.last().map(|b| b.last), r.one_in(5)) {
        let up = (LIMIT - 1 - last) - r.pick(&[0, 0, 0, 1, 5]).min(LIMIT - 1 - last);
        let up = if r.one_in(2) { up } else { up / 4096 * 4096 };
        let up = if r.one_in(8) { LIMIT - last + r.below(2) } else { up };
        for run in runs {
            run.first += up;
            run.last += up;
        }
    }
}

/// Breaks a view's words.
pub fn damage_view(r: &mut Rng, words: &mut [u64]) {
    let count = words[WT_VIEW_COUNT].min(MOST_RUNS);
    if count == 0 || r.one_in(10) {
        words[WT_VIEW_COUNT] = if r.one_in(2) { edge(r) } else { shake(r, words[WT_VIEW_COUNT]) };
        return;
    }
    let i = WT_VIEW_RANGE(r.below(count) as usize);
    let j = WT_VIEW_RANGE(r.below(count) as usize);
    let (first, last) = (i + WT_RANGE_FIRST, i + WT_RANGE_LAST);
    let (kind, base, offset) = (i + WT_RANGE_KIND, i + WT_RANGE_BASE, i + WT_RANGE_OFFSET);
    let later = i > WT_VIEW_RANGE(0);
    match r.below(10) {
        0 => words[first] = words[last].wrapping_add(r.below(3)),
        1 => words[last] = words[first].wrapping_sub(r.below(3)),
        2 if later => words[first] = words[last - RANGE_WORDS], // overlaps by one
        3 if later => {
            // Out of order.
            for k in i..i + RANGE_WORDS {
                words.swap(k, k - RANGE_WORDS);
            }
        }
        4 => words[i + WT_RANGE_REGION] = words[j + WT_RANGE_REGION],
        5 => words[kind] = r.pick(&[0, 1, 2, 3, 4, 5, 256, 257, 258, 260, u64::MAX]),
        6 => words[base] = shake(r, words[base]),
        7 => words[offset] = words[offset].wrapping_add(r.pick(&[1, 2, 4096, LIMIT, 1 << 63])),
        _ => {
            let k = i + r.below(RANGE_WORDS as u64) as usize;
            words[k] = if r.one_in(2) { edge(r) } else { shake(r, words[k]) };
        }
    }
}
