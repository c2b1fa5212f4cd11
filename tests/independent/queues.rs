//! Queues: made and reset. Kind: queue.
use crate::chance::*;
use crate::compare::*;
use crate::ffi;
use crate::model::*;
use crate::report::Tally;

/// The largest index of a ring, and the stops that a queue can have.
const LAST_INDEX: u64 = INDICES - 1;
const STOP_OR_NONE: [u64; 7] = [0, RING, AHEAD, HEAD, CHAIN, REACH, SHAPE];

/// An address of an area, often one that ends at 2^48 or one step past it.
fn area(r: &mut Rng, bytes: u64, align: u64) -> u64 {
    match r.below(5) {
        0 => (LIMIT - bytes) / align * align,
        1 => (LIMIT - bytes) / align * align + align,
        2 => r.below(LIMIT / align - bytes) * align,
        _ => r.below(100) * align,
    }
}

/// What wt_make_queue is given: mostly right, or wrong in one number.
fn make_state(r: &mut Rng) -> State {
    let size = 1u64 << r.below(9);
    let mut numbers = vec![
        ("size", size),
        ("descriptors", area(r, descriptors_bytes(size), DESCRIPTORS_ALIGN)),
        ("available", area(r, available_bytes(size), AVAILABLE_ALIGN)),
        ("used", area(r, used_bytes(size), USED_ALIGN)),
    ];
    if r.one_in(3) {
        let i = r.below(4) as usize;
        numbers[i].1 = match r.below(3) {
            0 => edge(r),
            1 => shake(r, numbers[i].1),
            _ => numbers[i].1.wrapping_add(1 << r.below(5)),
        };
    }
    let words = vec![("queue", garbage(r, QUEUE), length(r, QUEUE))];
    State { words, bytes: vec![], numbers }
}

/// Indices and a stop, seldom damaged.
fn put_history(r: &mut Rng, queue: &mut [u64]) {
    queue[WT_QUEUE_NEXT_AVAILABLE] = r.pick(&[0, 1, LAST_INDEX, r.0 % INDICES]);
    queue[WT_QUEUE_NEXT_USED] = r.pick(&[0, 1, LAST_INDEX, r.0 / INDICES % INDICES]);
    queue[WT_QUEUE_STOP] = r.pick(&STOP_OR_NONE);
    if r.one_in(3) {
        damage_queue(r, queue);
    }
}

/// Breaks one word of a queue.
pub fn damage_queue(r: &mut Rng, queue: &mut [u64]) {
    let i = r.below(QUEUE as u64) as usize;
    queue[i] = if r.one_in(2) { edge(r) } else { shake(r, queue[i]) };
}

pub fn queue_case(r: &mut Rng, tally: &mut Tally) -> Result<(), String> {
    let mut state = make_state(r);
    let calls = [ffi::make_queue, calls::make_queue];
    let made = both(tally, "wt_make_queue", &mut state, calls, |s, make_queue| {
        let (size, descriptors, available, used) = (s.n(0), s.n(1), s.n(2), s.n(3));
        make_queue(size, descriptors, available, used, s.w(0))
    })?;
    if made == 0 {
        put_history(r, &mut state.words[0].1);
    }
    let calls = [ffi::reset_queue, calls::reset_queue];
    both(tally, "wt_reset_queue", &mut state, calls, |s, reset| reset(s.w(0))).map(|_| ())
}
