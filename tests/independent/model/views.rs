//! A run list (a flat view): its words, 27 for runs, and what it gives an address.
use super::maps::*;
use super::records::*;

/// One entry of a run list; `base` is the memory start (RAM, managed) or the port (MMIO).
#[derive(Clone, Copy, PartialEq, Eq, Debug, Default)]
pub struct Run {
    pub first: u64,
    pub last: u64,
    pub node: u64,
    pub offset: u64,
    pub kind: u64,
    pub base: u64,
}

impl Run {
    pub fn words(&self) -> [u64; RANGE_WORDS] {
        [self.first, self.last, self.node, self.offset, self.kind, self.base]
    }

    pub fn of_words(w: &[u64]) -> Run {
        Run { first: w[0], last: w[1], node: w[2], offset: w[3], kind: w[4], base: w[5] }
    }

    /// The offset in the node at address `a` of this run.
    pub fn offset_at(&self, a: u64) -> u64 {
        self.offset + (a - self.first)
    }

    /// How many addresses it has.
    pub fn size(&self) -> u64 {
        self.last - self.first + 1
    }
}

/// The words of a view; ranges past the count are zeros.
pub fn view_words(runs: &[Run]) -> Vec<u64> {
    let mut words = vec![0; VIEW];
    words[WT_VIEW_COUNT] = runs.len() as u64;
    for (i, run) in runs.iter().enumerate().take(MOST_RUNS as usize) {
        words[WT_VIEW_RANGE(i)..WT_VIEW_RANGE(i + 1)].copy_from_slice(&run.words());
    }
    words
}

/// 27 for runs. `region` is the device's region size, None where no device is given.
pub fn check_view(view: &[u64], memory_length: u64, region: Option<u64>) -> Option<Vec<Run>> {
    let count = view[WT_VIEW_COUNT];
    if count > MOST_RUNS {
        return None;
    }
    let ranges = view[WT_VIEW_RANGE(0)..].chunks(RANGE_WORDS);
    let runs: Vec<Run> = ranges.take(count as usize).map(Run::of_words).collect();
    let each = runs.iter().all(|run| run_ok(run, memory_length, region));
    (each && pairs_ok(&runs)).then_some(runs)
}

/// What 27 asks of one run.
fn run_ok(r: &Run, memory_length: u64, region: Option<u64>) -> bool {
    if !has_memory(r.kind) && r.kind != MMIO {
        return false;
    }
    if r.node >= MOST_NODES || r.first > r.last || r.last >= LIMIT {
        return false;
    }
    let offset_at_last = u128::from(r.offset) + u128::from(r.last - r.first);
    if offset_at_last >= u128::from(LIMIT) {
        return false;
    }
    if has_memory(r.kind) && u128::from(r.base) + offset_at_last >= u128::from(memory_length) {
        return false;
    }
    match (r.kind, region) {
        (MANAGED, Some(region)) => offset_at_last < u128::from(region),
        _ => true,
    }
}

/// What 27 asks of two runs: in order and apart, and of one node with equal kind, memory start or port.
fn pairs_ok(runs: &[Run]) -> bool {
    for (i, a) in runs.iter().enumerate() {
        for (j, b) in runs.iter().enumerate() {
            if i < j && a.last >= b.first {
                return false;
            }
            if a.node == b.node && (a.kind != b.kind || a.base != b.base) {
                return false;
            }
        }
    }
    true
}

/// "A list gives an address a in an entry the entry's node at offset + a - first."
pub fn find(runs: &[Run], address: u64) -> Option<&Run> {
    let i = runs.partition_point(|r| r.last < address);
    runs.get(i).filter(|r| r.first <= address)
}
