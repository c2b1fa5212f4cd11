//! Requests of the guest on a device record, and the block of a byte. Kind: request.
use crate::chance::*;
use crate::compare::*;
use crate::devices::*;
use crate::ffi;
use crate::model::*;
use crate::report::Tally;

/// Bytes of a buffer for a request and for a response, with some behind it that nobody may write.
pub const REQUEST_ROOM: usize = REQUEST + 8;
pub const RESPONSE_ROOM: usize = RESPONSE + 6;

/// A request, of this block or another: in the rules, at their edges, and wild.
pub fn random_request(r: &mut Rng, d: &Device, near: Option<u64>) -> [u8; REQUEST] {
    let blocks = d.region / d.block_size;
    let mut request = [0u8; REQUEST];
    for byte in &mut request {
        *byte = r.next() as u8;
    }
    let kind = match r.below(12) {
        0..=3 => PLUG,
        4..=6 => UNPLUG,
        7 => UNPLUG_ALL,
        8..=10 => STATE,
        _ => r.pick(&[STATE + 1, STATE + 2, 256, 257, 258, 259, u16::MAX]),
    };
    let mut block = near.unwrap_or_else(|| r.below(blocks + 2));
    if r.one_in(8) {
        block = (d.usable / d.block_size).saturating_sub(r.below(2));
    }
    let addr = match r.below(14) {
        0 => edge(r),
        1 => d.addr.wrapping_sub(d.block_size),
        2 => inside_block(r, d, block),
        3 => 0u64.wrapping_sub(d.block_size),
        _ => d.addr.wrapping_add(d.block_size * block),
    };
    let count = match r.below(10) {
        0 => r.pick(&[0, 255, 256, 257, MOST_BLOCKS as u16, u16::MAX, 32768]),
        1 => blocks.saturating_sub(block) as u16,
        2 => (blocks.saturating_sub(block) + 1) as u16,
        3 => ((d.usable / d.block_size).saturating_sub(block)) as u16,
        4 => r.below(6) as u16,
        _ => 1 + r.below(2) as u16,
    };
    put_request(&mut request, kind, addr, count);
    request
}

/// An address behind the start of a block, of no block itself.
pub fn inside_block(r: &mut Rng, d: &Device, block: u64) -> u64 {
    let start = d.addr + d.block_size * block;
    start.wrapping_add(r.pick(&[1, SMALLEST_BLOCK / 2, d.block_size / 2]))
}

/// A request's fields; its padding stays as it is.
pub fn put_request(request: &mut [u8], kind: u16, addr: u64, count: u16) {
    request[WT_REQUEST_TYPE..][..2].copy_from_slice(&kind.to_le_bytes());
    request[WT_REQUEST_ADDR..][..8].copy_from_slice(&addr.to_le_bytes());
    request[WT_REQUEST_BLOCKS..][..2].copy_from_slice(&count.to_le_bytes());
}

/// wt_request on words 0 (device), bytes 0 (request) and 1 (response).
pub fn request_both(tally: &mut Tally, state: &mut State) -> Result<u64, String> {
    both(tally, "wt_request", state, [ffi::request, calls::request], |s, request| {
        s.device_and_bytes(request)
    })
}

/// wt_block_of_byte on words 0 (device) and 1 (result), number 0 (offset).
fn block_both(tally: &mut Tally, state: &mut State) -> Result<u64, String> {
    let calls = [ffi::block_of_byte, calls::block_of_byte];
    both(tally, "wt_block_of_byte", state, calls, |s, block_of_byte| {
        let n = s.n(0);
        let (device, result) = s.w2(0, 1);
        block_of_byte(device, n, result)
    })
}

/// Requests one after the other on one record, and bytes of its region.
pub fn request_case(r: &mut Rng, tally: &mut Tally) -> Result<(), String> {
    let d = random_device(r);
    let words = given_device(r, &d, 5);
    let mut state = State {
        words: vec![
            ("device", guarded(r, &words), length(r, DEVICE)),
            ("result", garbage(r, RESULT), length(r, RESULT)),
        ],
        bytes: vec![
            ("request", r.bytes(REQUEST_ROOM), length(r, REQUEST)),
            ("response", r.bytes(RESPONSE_ROOM), length(r, RESPONSE)),
        ],
        numbers: vec![("offset", 0)],
    };
    for _ in 0..6 {
        state.bytes[0].1[..REQUEST].copy_from_slice(&random_request(r, &d, None));
        request_both(tally, &mut state)?;
        state.numbers[0].1 = match r.below(6) {
            0 => edge(r),
            1 => shake(r, d.region),
            2 => (d.block_size * r.below(d.region / d.block_size + 1)).wrapping_sub(r.below(2)),
            _ => r.below(d.region),
        };
        block_both(tally, &mut state)?;
    }
    Ok(())
}
