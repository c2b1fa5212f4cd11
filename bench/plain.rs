//! The peer of the benchmark: what a good engineer would write in Rust without proofs. Records stay in the
//! caller's words, nothing is copied or allocated, lookup is a binary search, blocks are bits of words.
//!
//! `validate_*` is 27, in one pass each. The calls named `*_validated`, and `route_all`, do it every time, as the library
//! must. The others trust their records.
//!
//! tests/independent/model has the same rules and shares no code with this file, on purpose. The model is naive, so that it
//! can be read beside document 01: it copies every record out of its words, and a table of blocks is a `Vec<bool>`. This file is
//! written for speed. A rule taken from there would make the peer slow; a rule taken from here would make the model hard to
//! trust. Also, two readings of the paper, each compared with the library, are better evidence than one. The two share only
//! the records' lengths and positions, 2^48, and the numbers of the kinds.
#![allow(dead_code)]

use crate::model::{
    DEVICE, LIMIT, MANAGED, MMIO, MOST_NODES, MOST_RUNS, QUEUE, RAM, RANGE_WORDS, REQUEST,
    RESPONSE, RESULT, TABLE_WORDS, VIEW, WT_DEVICE_PINNED as PINNED, WT_DEVICE_PLUGGED as PLUGGED,
};

pub type Range = [u64; RANGE_WORDS]; // first, last, node, offset, kind, base
pub type Device = [u64; DEVICE];
pub type Queue = [u64; QUEUE];

const TABLE: std::ops::Range<usize> = PLUGGED..PLUGGED + TABLE_WORDS;
const PINS: std::ops::Range<usize> = PINNED..PINNED + TABLE_WORDS;

// ------------------------------------------------------------------------------------------------ 27

pub fn validate_view(view: &[u64], memory_length: u64, region: Option<u64>) -> Option<&[Range]> {
    let (&count, rest) = view.split_first()?;
    if view.len() != VIEW || count > MOST_RUNS {
        return None;
    }
    let ranges = rest.as_chunks::<RANGE_WORDS>().0.get(..count as usize)?;
    let mut nodes = [(0, 0); MOST_NODES as usize]; // kind and base of each node met; kind 0: not met
    let mut next = 0;
    for &[first, last, node, offset, kind, base] in ranges {
        if first < next || first > last || last >= LIMIT || node >= MOST_NODES || offset >= LIMIT {
            return None;
        }
        let end = offset + (last - first);
        if end >= LIMIT {
            return None;
        }
        match kind {
            MMIO => {}
            RAM | MANAGED => {
                if base.checked_add(end)? >= memory_length {
                    return None;
                }
                if kind == MANAGED && region.is_some_and(|region| end >= region) {
                    return None;
                }
            }
            _ => return None,
        }
        let met = &mut nodes[node as usize];
        if met.0 == 0 {
            *met = (kind, base);
        } else if *met != (kind, base) {
            return None;
        }
        next = last + 1;
    }
    Some(ranges)
}

pub fn validate_device(d: &Device) -> bool {
    let [block, addr, region, usable, requested, ..] = *d;
    if !block.is_power_of_two() || !(1 << 12..=1 << 30).contains(&block) {
        return false;
    }
    let mask = block - 1;
    if region == 0
        || (region | addr | usable | requested) & mask != 0
        || region > block << 10
        || addr > LIMIT - region
        || requested > usable
        || usable > region
    {
        return false;
    }
    let blocks = usable >> block.trailing_zeros();
    for i in 0..TABLE_WORDS as u64 {
        let (plugged, pinned) = (d[PLUGGED + i as usize], d[PINNED + i as usize]);
        let allowed = match blocks.saturating_sub(64 * i) {
            0 => 0,
            n if n >= 64 => u64::MAX,
            n => (1 << n) - 1,
        };
        if plugged & !allowed != 0 || pinned & !plugged != 0 {
            return false;
        }
    }
    true
}

pub fn validate_queue(q: &Queue) -> bool {
    let [n, descriptors, available, used, seen, count, stop] = *q;
    n.is_power_of_two()
        && n <= 256
        && descriptors % 16 == 0
        && available % 2 == 0
        && used % 4 == 0
        && descriptors <= LIMIT - 16 * n
        && available <= LIMIT - (6 + 2 * n)
        && used <= LIMIT - (6 + 8 * n)
        && seen <= 65535
        && count <= 65535
        && (stop == 0 || (17..=22).contains(&stop))
}

// ------------------------------------------------------------------------------------------ routing

#[inline]
pub fn find(ranges: &[Range], address: u64) -> Option<usize> {
    let i = ranges.partition_point(|r| r[1] < address);
    (i < ranges.len() && ranges[i][0] <= address).then_some(i)
}

#[inline]
fn plugged(d: &Device, offset: u64) -> bool {
    let block = offset >> d[0].trailing_zeros();
    d[PLUGGED + (block / 64) as usize % TABLE_WORDS] >> (block % 64) & 1 == 1
}

/// 0 and the result, or 23 to 26.
#[inline]
pub fn route(
    ranges: &[Range],
    device: Option<&Device>,
    address: u64,
    width: u64,
) -> (u64, [u64; RESULT]) {
    if !matches!(width, 1 | 2 | 4 | 8) {
        return (23, [0; RESULT]);
    }
    let Some(mut i) = find(ranges, address) else { return (24, [0; RESULT]) };
    let [first, _, node, offset, kind, base] = ranges[i];
    let offset = offset + (address - first);
    let end = address + width;
    // Ranges that continue with the same node at the next offset.
    while end - 1 > ranges[i][1] {
        let last = ranges[i][1];
        i += 1;
        match ranges.get(i) {
            Some(r) if r[0] == last + 1 && r[2] == node && r[3] == offset + (r[0] - address) => {}
            _ => return (25, [0; RESULT]),
        }
    }
    match kind {
        RAM => (0, [1, base + offset, 0]),
        MMIO => (0, [2, base, offset]),
        MANAGED => match device {
            Some(d) if plugged(d, offset) && plugged(d, offset + width - 1) => {
                (0, [1, base + offset, 0])
            }
            _ => (26, [0; RESULT]),
        },
        _ => (27, [0; RESULT]),
    }
}

/// wt_route's work: validate, then route.
pub fn route_validated(
    view: &[u64],
    memory_length: u64,
    device: Option<&Device>,
    address: u64,
    width: u64,
) -> (u64, [u64; RESULT]) {
    if device.is_some_and(|d| !validate_device(d)) {
        return (27, [0; RESULT]);
    }
    match validate_view(view, memory_length, device.map(|d| d[2])) {
        None => (27, [0; RESULT]),
        Some(ranges) => route(ranges, device, address, width),
    }
}

/// wt_route_all's work: validate once, then route each. An answer is the number and the result.
pub fn route_all(
    view: &[u64],
    memory_length: u64,
    device: Option<&Device>,
    accesses: &[u64],
    answers: &mut [u64],
) -> u64 {
    if device.is_some_and(|d| !validate_device(d)) || answers.len() != 2 * accesses.len() {
        return 27;
    }
    let Some(ranges) = validate_view(view, memory_length, device.map(|d| d[2])) else { return 27 };
    for (access, answer) in accesses.chunks_exact(2).zip(answers.chunks_exact_mut(4)) {
        let (number, result) = route(ranges, device, access[0], access[1]);
        answer[0] = number;
        answer[1..4].copy_from_slice(&result);
    }
    0
}

// ------------------------------------------------------------------------------------------- device

fn bit_mask(word: u64, first: u64, end: u64) -> u64 {
    let from = first.max(64 * word);
    let to = end.min(64 * word + 64);
    if from >= to {
        return 0;
    }
    let ones = if to - from == 64 { u64::MAX } else { (1 << (to - from)) - 1 };
    ones << (from % 64)
}

/// Answer and state of a request.
pub fn request(d: &mut Device, request: &[u8; REQUEST]) -> (u16, u16) {
    let kind = u16::from_le_bytes([request[0], request[1]]);
    let address = u64::from_le_bytes(request[8..16].try_into().unwrap());
    let count = u64::from(u16::from_le_bytes([request[16], request[17]]));
    let [block, addr, _, usable, requested, ..] = *d;
    if kind == 2 {
        if d[PINS].iter().any(|&w| w != 0) {
            return (2, 0);
        }
        d[TABLE].fill(0);
        return (0, 0);
    }
    if kind > 3 || address & (block - 1) != 0 || count == 0 || address < addr {
        return (3, 0);
    }
    let start = address - addr;
    if start > usable || count * block > usable - start {
        return (3, 0);
    }
    let first = start / block;
    let end = first + count;
    let words = first / 64..(end - 1) / 64 + 1;
    let (mut any, mut all) = (false, true);
    for w in words.clone() {
        let mask = bit_mask(w, first, end);
        let bits = d[PLUGGED + w as usize] & mask;
        any |= bits != 0;
        all &= bits == mask;
    }
    match kind {
        0 => {
            if any {
                return (3, 0);
            }
            let plugged: u64 = d[TABLE].iter().map(|w| u64::from(w.count_ones())).sum();
            if (plugged + count) * block > requested {
                return (1, 0);
            }
            for w in words {
                d[PLUGGED + w as usize] |= bit_mask(w, first, end);
            }
            (0, 0)
        }
        1 => {
            if !all {
                return (3, 0);
            }
            if words.clone().any(|w| d[PINNED + w as usize] & bit_mask(w, first, end) != 0) {
                return (2, 0);
            }
            for w in words {
                d[PLUGGED + w as usize] &= !bit_mask(w, first, end);
            }
            (0, 0)
        }
        _ => (
            0,
            if all {
                0
            } else if !any {
                1
            } else {
                2
            },
        ),
    }
}

// --------------------------------------------------------------------------------------------- step

/// The reachable bytes from an address on that are contiguous in memory: place and count.
#[inline]
fn chunk(ranges: &[Range], d: &Device, address: u64) -> Option<(usize, u64)> {
    let [first, last, _, offset, kind, base] = ranges[find(ranges, address)?];
    let offset = offset + (address - first);
    let left = last - address + 1;
    match kind {
        RAM => Some(((base + offset) as usize, left)),
        MANAGED if plugged(d, offset) => {
            Some(((base + offset) as usize, left.min(d[0] - (offset & (d[0] - 1)))))
        }
        _ => None,
    }
}

#[inline]
fn read<const N: usize>(
    ranges: &[Range],
    d: &Device,
    memory: &[u8],
    address: u64,
) -> Option<[u8; N]> {
    let mut bytes = [0; N];
    let mut done = 0;
    while done < N {
        let (place, count) = chunk(ranges, d, address + done as u64)?;
        let count = (count.min((N - done) as u64)) as usize;
        bytes[done..done + count].copy_from_slice(&memory[place..place + count]);
        done += count;
    }
    Some(bytes)
}

#[inline]
fn places<const N: usize>(ranges: &[Range], d: &Device, address: u64) -> Option<[usize; N]> {
    let mut places = [0; N];
    let mut done = 0;
    while done < N {
        let (place, count) = chunk(ranges, d, address + done as u64)?;
        for i in 0..count.min((N - done) as u64) as usize {
            places[done] = place + i;
            done += 1;
        }
    }
    Some(places)
}

/// Whether every byte of a buffer is reachable: range by range, block by block.
fn reachable(ranges: &[Range], d: &Device, address: u64, length: u64) -> bool {
    if length == 0 {
        return true;
    }
    let Some(last_byte) = address.checked_add(length - 1) else { return false };
    let mut i = ranges.partition_point(|r| r[1] < address);
    let mut at = address;
    loop {
        let Some(&[first, last, _, offset, kind, _]) = ranges.get(i) else { return false };
        if first > at {
            return false;
        }
        let stop = last.min(last_byte);
        match kind {
            RAM => {}
            MANAGED => {
                let shift = d[0].trailing_zeros();
                let from = (offset + (at - first)) >> shift;
                let end = ((offset + (stop - first)) >> shift) + 1;
                for w in from / 64..(end - 1) / 64 + 1 {
                    let mask = bit_mask(w, from, end);
                    if d[PLUGGED + w as usize] & mask != mask {
                        return false;
                    }
                }
            }
            _ => return false,
        }
        if stop == last_byte {
            return true;
        }
        at = last + 1;
        i += 1;
    }
}

pub enum Outcome {
    Stopped(u64),
    Idle,
    Served(bool),
}

pub fn step(ranges: &[Range], d: &mut Device, q: &mut Queue, memory: &mut [u8]) -> Outcome {
    if q[6] != 0 {
        return Outcome::Stopped(q[6]);
    }
    match try_step(ranges, d, q, memory) {
        Err(number) => {
            q[6] = number;
            Outcome::Stopped(number)
        }
        Ok(None) => Outcome::Idle,
        Ok(Some(notify)) => Outcome::Served(notify),
    }
}

/// A call's number and its result.
pub fn answer(outcome: Outcome) -> (u64, [u64; RESULT]) {
    match outcome {
        Outcome::Stopped(number) => (number, [0; RESULT]),
        Outcome::Idle => (0, [0; RESULT]),
        Outcome::Served(notify) => (0, [1, notify.into(), 0]),
    }
}

fn try_step(
    ranges: &[Range],
    d: &mut Device,
    q: &mut Queue,
    memory: &mut [u8],
) -> Result<Option<bool>, u64> {
    let [n, descriptors, available, used, seen, count, _] = *q;
    let [f0, f1, i0, i1] = read::<4>(ranges, d, memory, available).ok_or(17u64)?;
    let flags = u16::from_le_bytes([f0, f1]);
    let index = u16::from_le_bytes([i0, i1]);
    let ahead = index.wrapping_sub(seen as u16);
    if ahead == 0 {
        return Ok(None);
    }
    if u64::from(ahead) > n {
        return Err(18);
    }
    let entry = read::<2>(ranges, d, memory, available + 4 + 2 * (seen & (n - 1))).ok_or(17u64)?;
    let head = u64::from(u16::from_le_bytes(entry));
    if head >= n {
        return Err(19);
    }
    let (mut request_bytes, mut got) = ([0u8; REQUEST], 0usize);
    let (mut response_places, mut room) = ([0usize; RESPONSE], 0usize);
    let mut writable_before = false;
    let mut number = head;
    let mut length_so_far = 0;
    loop {
        let b = read::<16>(ranges, d, memory, descriptors + 16 * number).ok_or(17u64)?;
        let address = u64::from_le_bytes(b[0..8].try_into().unwrap());
        let length = u64::from(u32::from_le_bytes(b[8..12].try_into().unwrap()));
        let flags = u16::from_le_bytes([b[12], b[13]]);
        let next = u64::from(u16::from_le_bytes([b[14], b[15]]));
        let writable = flags & 2 != 0;
        if flags & 4 != 0 || (writable_before && !writable) {
            return Err(20);
        }
        writable_before |= writable;
        if !reachable(ranges, d, address, length) {
            return Err(21);
        }
        // Take what is still needed from this buffer.
        let mut at = 0;
        if writable {
            while at < length && room < RESPONSE {
                let (place, count) = chunk(ranges, d, address + at).ok_or(21u64)?;
                for i in 0..count.min(length - at).min((RESPONSE - room) as u64) {
                    response_places[room] = place + i as usize;
                    room += 1;
                    at += 1;
                }
            }
        } else {
            while at < length && got < REQUEST {
                let (place, count) = chunk(ranges, d, address + at).ok_or(21u64)?;
                let count = count.min(length - at).min((REQUEST - got) as u64);
                let end = got + count as usize;
                request_bytes[got..end].copy_from_slice(&memory[place..place + count as usize]);
                got = end;
                at += count;
            }
        }
        length_so_far += 1;
        if flags & 1 == 0 {
            break;
        }
        if next >= n || length_so_far == n {
            return Err(20);
        }
        number = next;
    }
    if got < REQUEST || room < RESPONSE {
        return Err(22);
    }
    let slot = places::<8>(ranges, d, used + 4 + 8 * (count & (n - 1))).ok_or(17u64)?;
    let index_places = places::<2>(ranges, d, used + 2).ok_or(17u64)?;

    let (answer, state) = request(d, &request_bytes);
    let mut response = [0u8; RESPONSE];
    response[0..2].copy_from_slice(&answer.to_le_bytes());
    response[8..10].copy_from_slice(&state.to_le_bytes());
    q[4] = (seen + 1) & 0xffff;
    q[5] = (count + 1) & 0xffff;
    let element = (head | (RESPONSE as u64) << 32).to_le_bytes();
    for (place, byte) in response_places.iter().zip(response) {
        memory[*place] = byte;
    }
    for (place, byte) in slot.iter().zip(element) {
        memory[*place] = byte;
    }
    for (place, byte) in index_places.iter().zip((q[5] as u16).to_le_bytes()) {
        memory[*place] = byte;
    }
    Ok(Some(flags & 1 == 0))
}

/// wt_step's work: validate, then step. The number and the result.
pub fn step_validated(
    view: &[u64],
    d: &mut Device,
    q: &mut Queue,
    memory: &mut [u8],
) -> (u64, [u64; RESULT]) {
    if !validate_device(d) || !validate_queue(q) {
        return (27, [0; RESULT]);
    }
    match validate_view(view, memory.len() as u64, Some(d[2])) {
        None => (27, [0; RESULT]),
        Some(ranges) => answer(step(ranges, d, q, memory)),
    }
}

/// wt_run's work: validate once, then up to k steps.
pub fn run_validated(
    view: &[u64],
    d: &mut Device,
    q: &mut Queue,
    memory: &mut [u8],
    k: u64,
) -> (u64, [u64; RESULT]) {
    if !validate_device(d) || !validate_queue(q) {
        return (27, [0; RESULT]);
    }
    match validate_view(view, memory.len() as u64, Some(d[2])) {
        None => (27, [0; RESULT]),
        Some(ranges) => run(ranges, d, q, memory, k),
    }
}

pub fn run(
    ranges: &[Range],
    d: &mut Device,
    q: &mut Queue,
    memory: &mut [u8],
    k: u64,
) -> (u64, [u64; RESULT]) {
    let (mut served, mut notified) = (0, false);
    for _ in 0..k.min(256) {
        match step(ranges, d, q, memory) {
            Outcome::Served(notify) => {
                served += 1;
                notified |= notify;
            }
            Outcome::Idle => return (0, [served, notified.into(), 1]),
            Outcome::Stopped(number) => return (number, [served, notified.into(), 0]),
        }
    }
    (0, [served, notified.into(), 0])
}
