//! Which bytes a step can reach: in a RAM run, or in a managed run in a plugged block.
use super::devices::Device;
use super::maps::*;
use super::views::*;

/// The memory place of a reachable byte: in a RAM run, or in a managed run in a plugged block.
pub fn reach(runs: &[Run], device: &Device, address: u64) -> Option<usize> {
    let run = find(runs, address)?;
    let offset = run.offset_at(address);
    match run.kind {
        RAM => Some((run.base + offset) as usize),
        MANAGED if device.plugged[device.block_of(offset)] => Some((run.base + offset) as usize),
        _ => None,
    }
}

/// Whether every byte of an element is reachable. Runs do not overlap, so it is enough to count the
/// reachable bytes of the element run by run, and block by block in a managed run.
pub fn all_reachable(runs: &[Run], device: &Device, address: u64, length: u64) -> bool {
    let end = u128::from(address) + u128::from(length); // one past the element; no wrap
    let mut reachable: u128 = 0;
    for run in runs {
        // The part of the element in this run, [from, to).
        let from = u128::from(address.max(run.first));
        let to = end.min(u128::from(run.last) + 1);
        if from >= to {
            continue;
        }
        match run.kind {
            RAM => reachable += to - from,
            MANAGED => {
                let first = run.offset_at(from as u64);
                let last = run.offset_at((to - 1) as u64);
                for block in device.block_of(first)..=device.block_of(last) {
                    if device.plugged[block] {
                        let block_first = block as u64 * device.block_size;
                        let block_last = block_first + device.block_size - 1;
                        reachable += u128::from(last.min(block_last) - first.max(block_first) + 1);
                    }
                }
            }
            _ => {}
        }
    }
    reachable == u128::from(length)
}
