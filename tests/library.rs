//! The functions of include/wicktumble.h, on slices, for the tests in Rust.
#![allow(dead_code)]

#[path = "../include/wicktumble.rs"]
pub mod raw;

pub fn read_sheet(s: &[u8], length: u64, m: &mut [u64], r: &mut [u64]) -> u64 {
    unsafe {
        let (m, ml) = (m.as_mut_ptr(), m.len());
        raw::wt_read_sheet(s.as_ptr(), s.len(), length, m, ml, r.as_mut_ptr(), r.len())
    }
}
pub fn check_map(m: &[u64], length: u64, r: &mut [u64]) -> u64 {
    unsafe { raw::wt_check_map(m.as_ptr(), m.len(), length, r.as_mut_ptr(), r.len()) }
}
pub fn walk(m: &[u64], length: u64, address: u64, r: &mut [u64]) -> u64 {
    unsafe { raw::wt_walk(m.as_ptr(), m.len(), length, address, r.as_mut_ptr(), r.len()) }
}
pub fn flatten(m: &[u64], length: u64, v: &mut [u64], r: &mut [u64]) -> u64 {
    unsafe {
        let (v, vl) = (v.as_mut_ptr(), v.len());
        raw::wt_flatten(m.as_ptr(), m.len(), length, v, vl, r.as_mut_ptr(), r.len())
    }
}
#[allow(clippy::too_many_arguments)]
pub fn set_up(m: &[u64], length: u64, block: u64, addr: u64, usable: u64, requested: u64, d: &mut [u64], r: &mut [u64]) -> u64 {
    unsafe {
        let (d, dl) = (d.as_mut_ptr(), d.len());
        raw::wt_set_up(m.as_ptr(), m.len(), length, block, addr, usable, requested, d, dl, r.as_mut_ptr(), r.len())
    }
}
pub fn set_requested_size(d: &mut [u64], size: u64) -> u64 {
    unsafe { raw::wt_set_requested_size(d.as_mut_ptr(), d.len(), size) }
}
pub fn pin(d: &mut [u64], block: u64) -> u64 {
    unsafe { raw::wt_pin(d.as_mut_ptr(), d.len(), block) }
}
pub fn unpin(d: &mut [u64], block: u64) -> u64 {
    unsafe { raw::wt_unpin(d.as_mut_ptr(), d.len(), block) }
}
pub fn system_reset(d: &mut [u64]) -> u64 {
    unsafe { raw::wt_system_reset(d.as_mut_ptr(), d.len()) }
}
pub fn configuration(d: &[u64], bytes: &mut [u8]) -> u64 {
    unsafe { raw::wt_configuration(d.as_ptr(), d.len(), bytes.as_mut_ptr(), bytes.len()) }
}
pub fn request(d: &mut [u64], q: &[u8], a: &mut [u8]) -> u64 {
    unsafe { raw::wt_request(d.as_mut_ptr(), d.len(), q.as_ptr(), q.len(), a.as_mut_ptr(), a.len()) }
}
pub fn block_of_byte(d: &[u64], offset: u64, r: &mut [u64]) -> u64 {
    unsafe { raw::wt_block_of_byte(d.as_ptr(), d.len(), offset, r.as_mut_ptr(), r.len()) }
}
pub fn look_up(v: &[u64], length: u64, address: u64, r: &mut [u64]) -> u64 {
    unsafe { raw::wt_look_up(v.as_ptr(), v.len(), length, address, r.as_mut_ptr(), r.len()) }
}
pub fn route(v: &[u64], length: u64, d: &[u64], address: u64, width: u64, r: &mut [u64]) -> u64 {
    unsafe {
        raw::wt_route(v.as_ptr(), v.len(), length, d.as_ptr(), d.len(), address, width, r.as_mut_ptr(), r.len())
    }
}
pub fn route_all(v: &[u64], length: u64, d: &[u64], accesses: &[u64], answers: &mut [u64]) -> u64 {
    unsafe {
        raw::wt_route_all(v.as_ptr(), v.len(), length, d.as_ptr(), d.len(), accesses.as_ptr(), accesses.len(), answers.as_mut_ptr(), answers.len())
    }
}
pub fn make_queue(size: u64, desc: u64, available: u64, used: u64, q: &mut [u64]) -> u64 {
    unsafe { raw::wt_make_queue(size, desc, available, used, q.as_mut_ptr(), q.len()) }
}
pub fn reset_queue(q: &mut [u64]) -> u64 {
    unsafe { raw::wt_reset_queue(q.as_mut_ptr(), q.len()) }
}
pub fn step(v: &[u64], d: &mut [u64], q: &mut [u64], m: &mut [u8], r: &mut [u64]) -> u64 {
    unsafe {
        raw::wt_step(v.as_ptr(), v.len(), d.as_mut_ptr(), d.len(), q.as_mut_ptr(), q.len(), m.as_mut_ptr(), m.len(), r.as_mut_ptr(), r.len())
    }
}
pub fn run(v: &[u64], d: &mut [u64], q: &mut [u64], m: &mut [u8], k: u64, r: &mut [u64]) -> u64 {
    unsafe {
        raw::wt_run(v.as_ptr(), v.len(), d.as_mut_ptr(), d.len(), q.as_mut_ptr(), q.len(), m.as_mut_ptr(), m.len(), k, r.as_mut_ptr(), r.len())
    }
}
