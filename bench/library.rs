//! The library's calls over slices (include/wicktumble.h).

#[path = "../include/wicktumble.rs"]
mod wicktumble;
use wicktumble::*;

pub type Answer = (u64, [u64; WT_RESULT]);

#[inline]
fn with_result(call: impl FnOnce(*mut u64) -> u64) -> Answer {
    let mut result = [0u64; WT_RESULT];
    let number = call(result.as_mut_ptr());
    (number, result)
}

pub fn read_sheet(sheet: &[u8], memory_length: u64, map: &mut [u64]) -> Answer {
    let (s, m) = (sheet.as_ptr(), map.as_mut_ptr());
    with_result(|r| unsafe {
        wt_read_sheet(s, sheet.len(), memory_length, m, map.len(), r, WT_RESULT)
    })
}

pub fn check_map(map: &[u64], memory_length: u64) -> Answer {
    with_result(|r| unsafe { wt_check_map(map.as_ptr(), map.len(), memory_length, r, WT_RESULT) })
}

pub fn walk(map: &[u64], memory_length: u64, address: u64) -> Answer {
    with_result(|r| unsafe {
        wt_walk(map.as_ptr(), map.len(), memory_length, address, r, WT_RESULT)
    })
}

pub fn flatten(map: &[u64], memory_length: u64, view: &mut [u64]) -> Answer {
    let (m, v) = (map.as_ptr(), view.as_mut_ptr());
    with_result(|r| unsafe { wt_flatten(m, map.len(), memory_length, v, view.len(), r, WT_RESULT) })
}

pub fn route(
    view: &[u64],
    memory_length: u64,
    device: &[u64; WT_DEVICE],
    address: u64,
    width: u64,
) -> Answer {
    let (v, d) = (view.as_ptr(), device.as_ptr());
    with_result(|r| unsafe {
        wt_route(v, view.len(), memory_length, d, WT_DEVICE, address, width, r, WT_RESULT)
    })
}

pub fn route_all(
    view: &[u64],
    memory_length: u64,
    device: &[u64; WT_DEVICE],
    accesses: &[u64],
    answers: &mut [u64],
) -> u64 {
    let (v, d, a) = (view.as_ptr(), device.as_ptr(), accesses.as_ptr());
    let (to, words) = (answers.as_mut_ptr(), answers.len());
    unsafe {
        wt_route_all(v, view.len(), memory_length, d, WT_DEVICE, a, accesses.len(), to, words)
    }
}

pub fn step(
    view: &[u64],
    d: &mut [u64; WT_DEVICE],
    q: &mut [u64; WT_QUEUE],
    memory: &mut [u8],
) -> Answer {
    let (v, d, q, m) = (view.as_ptr(), d.as_mut_ptr(), q.as_mut_ptr(), memory.as_mut_ptr());
    with_result(|r| unsafe {
        wt_step(v, view.len(), d, WT_DEVICE, q, WT_QUEUE, m, memory.len(), r, WT_RESULT)
    })
}

pub fn run(
    view: &[u64],
    d: &mut [u64; WT_DEVICE],
    q: &mut [u64; WT_QUEUE],
    memory: &mut [u8],
    k: u64,
) -> Answer {
    let (v, d, q, m) = (view.as_ptr(), d.as_mut_ptr(), q.as_mut_ptr(), memory.as_mut_ptr());
    with_result(|r| unsafe {
        wt_run(v, view.len(), d, WT_DEVICE, q, WT_QUEUE, m, memory.len(), k, r, WT_RESULT)
    })
}
