//! Routing of one access: 23 to 26.
use super::devices::Device;
use super::maps::*;
use super::refusals::*;
use super::views::*;

/// "Access width not 1, 2, 4, 8" is refused.
pub const WIDTHS: [u64; 4] = [1, 2, 4, 8];

#[derive(Clone, Copy, PartialEq, Eq, Debug)]
pub enum Route {
    Memory(u64),
    Port(u64, u64),
}

/// Routes one access, or the first of 23 to 26 that holds.
pub fn route(
    runs: &[Run],
    device: Option<&Device>,
    address: u64,
    width: u64,
) -> Result<Route, u64> {
    if !WIDTHS.contains(&width) {
        return Err(WIDTH);
    }
    let Some(run) = find(runs, address) else { return Err(HOLE) };
    let offset = run.offset_at(address);
    for i in 1..width {
        match find(runs, address + i) {
            Some(r) if r.node == run.node && r.offset_at(address + i) == offset + i => {}
            _ => return Err(SPLIT),
        }
    }
    if run.kind == MANAGED {
        for i in 0..width {
            match device {
                Some(d) if d.plugged[d.block_of(offset + i)] => {}
                _ => return Err(UNPLUGGED),
            }
        }
    }
    Ok(match run.kind {
        MMIO => Route::Port(run.base, offset),
        kind if has_memory(kind) => Route::Memory(run.base + offset),
        kind => unreachable!("27 refuses a run of kind {kind}"),
    })
}
