//! Devices: random records, damaged ones, set-up from a map, and the host's calls. Kind: set-up.
use crate::chance::*;
use crate::compare::*;
use crate::ffi;
use crate::maps::*;
use crate::model::*;
use crate::report::Tally;

/// The words of a device before its two tables.
const SIZE_WORDS: u64 = WT_DEVICE_PLUGGED as u64;
/// Bytes behind a configuration that nobody may write.
const CONFIGURATION_ROOM: usize = CONFIGURATION + 8;

/// A device record that keeps its rules.
pub fn random_device(r: &mut Rng) -> Device {
    let block_size = 1u64 << r.pick(&[12, 12, 12, 12, 13, 16, 20, 29, 30]);
    let blocks = r.pick(&[
        1,
        2,
        3,
        4,
        6,
        8,
        16,
        63,
        64,
        65,
        127,
        128,
        129,
        500,
        MOST_BLOCKS - 1,
        MOST_BLOCKS,
    ]);
    device_of(r, block_size, blocks)
}

pub fn device_of(r: &mut Rng, block_size: u64, blocks: u64) -> Device {
    let region = block_size * blocks;
    let most = (LIMIT - region) / block_size;
    let addr = block_size * r.pick(&[0, 1, 16, most / 2, most - 1, most]).min(most);
    let usable = if r.one_in(2) { blocks } else { r.below(blocks + 1) };
    let requested = if r.one_in(2) { usable } else { r.below(usable + 1) };
    let mut d =
        Device::fresh(block_size, addr, region, usable * block_size, requested * block_size)
            .expect("in the rules");
    let dense = r.pick(&[0, 1, 4, 7, 8, 8]);
    let pins = r.pick(&[0, 0, 0, 1, 4]);
    for b in 0..usable as usize {
        d.plugged[b] = r.below(8) < dense;
        d.pinned[b] = d.plugged[b] && r.below(8) < pins;
    }
    if r.one_in(4) {
        // One block counted too many or too few shows in the answer to a PLUG.
        let plugged = d.plugged.iter().filter(|&&p| p).count() as u64;
        d.requested = block_size * usable.min(plugged + r.below(3));
    }
    d
}

/// A device record's words, broken in one word.
pub fn damage_device(r: &mut Rng, words: &mut [u64]) {
    match r.below(7) {
        6 => damage_block_size(r, words),
        0 => {
            // A plugged or pinned bit somewhere.
            let bit = 1u64 << r.below(WORD_BLOCKS as u64);
            words[WT_DEVICE_PLUGGED + r.below(2 * TABLE_WORDS as u64) as usize] ^= bit;
        }
        1 => {
            // One past the usable part or the region.
            let size = words[r.pick(&[WT_DEVICE_REGION_SIZE, WT_DEVICE_USABLE_SIZE])];
            let end = size / words[WT_DEVICE_BLOCK_SIZE].max(1);
            if end < MOST_BLOCKS {
                let from = r.pick(&[WT_DEVICE_PLUGGED, WT_DEVICE_PINNED]);
                words[from + end as usize / WORD_BLOCKS] |= 1 << (end as usize % WORD_BLOCKS);
            }
        }
        2 => {
            let i = r.below(SIZE_WORDS) as usize;
            words[i] = edge(r);
        }
        3 => {
            let i = r.below(SIZE_WORDS) as usize;
            words[i] = shake(r, words[i]);
        }
        4 => {
            let i = 1 + r.below(SIZE_WORDS - 1) as usize;
            let block = words[WT_DEVICE_BLOCK_SIZE];
            words[i] = words[i].wrapping_add(r.pick(&[block, block / 2, 0u64.wrapping_sub(block)]));
        }
        _ => {
            let i = r.below(DEVICE as u64) as usize;
            words[i] = edge(r);
        }
    }
}

/// Another block size, and perhaps the sizes with it.
fn damage_block_size(r: &mut Rng, words: &mut [u64]) {
    let given = words[WT_DEVICE_BLOCK_SIZE];
    let block = r.pick(&[SMALLEST_BLOCK / 2, 2 * LARGEST_BLOCK, given / 2, given * 2, given * 3]);
    words[WT_DEVICE_BLOCK_SIZE] = block;
    if r.one_in(2) {
        for word in &mut words[WT_DEVICE_ADDR..WT_DEVICE_PLUGGED] {
            *word = (*word / given.max(1)).wrapping_mul(block);
        }
    }
}

/// Set-up from a map, and then host calls on a record with some history.
pub fn host_case(r: &mut Rng, tally: &mut Tally) -> Result<(), String> {
    set_up_both(r, tally)?;
    host_calls(r, tally)
}

/// The values of a device; seldom a block size out of bounds, and all else in order.
fn suited_values(r: &mut Rng) -> Device {
    let mut suited = random_device(r);
    if r.one_in(12) {
        let block =
            r.pick(&[SMALLEST_BLOCK / 2, SMALLEST_BLOCK / 2, 2 * LARGEST_BLOCK, 6144, 1024]);
        for size in
            [&mut suited.addr, &mut suited.region, &mut suited.usable, &mut suited.requested]
        {
            *size = (*size / suited.block_size).wrapping_mul(block);
        }
        suited.block_size = block;
    }
    suited
}

/// A map whose managed node, where there is one, has this size; and a memory length.
fn map_with_managed(r: &mut Rng, size: u64) -> (Vec<Node>, u64) {
    if !r.one_in(2) {
        let nodes = vec![
            Node { kind: MANAGED, parent: 2, size, ..Node::default() },
            Node { kind: CONTAINER, size: LIMIT, ..Node::default() },
        ];
        return (nodes, size);
    }
    let (mut nodes, mut memory_length) = random_map(r);
    if let Some(n) = nodes.iter_mut().find(|n| n.kind == MANAGED) {
        n.size = size;
        n.start = 0;
        memory_length = size;
    }
    (nodes, memory_length)
}

/// Everything that wt_set_up is given.
fn set_up_state(r: &mut Rng) -> State {
    let suited = suited_values(r);
    let (mut nodes, memory_length) = map_with_managed(r, suited.region);
    if r.one_in(10) {
        damage_nodes(r, &mut nodes);
    }
    let mut state = State {
        words: vec![
            ("map", guarded(r, &map_words(&nodes)), length(r, MAP)),
            ("device", garbage(r, DEVICE), length(r, DEVICE)),
            ("result", garbage(r, RESULT), length(r, RESULT)),
        ],
        bytes: vec![],
        numbers: vec![
            ("memory_length", memory_length),
            ("block_size", suited.block_size),
            ("addr", suited.addr),
            ("usable_size", suited.usable),
            ("requested_size", suited.requested),
        ],
    };
    if r.one_in(4) {
        let i = 1 + r.below(4) as usize;
        let old = state.n(i);
        state.numbers[i].1 = match r.below(4) {
            0 => edge(r),
            1 => old.wrapping_add(suited.block_size),
            2 => suited.region.wrapping_add(suited.block_size * r.below(2)),
            _ => shake(r, old),
        };
    }
    state
}

fn set_up_both(r: &mut Rng, tally: &mut Tally) -> Result<u64, String> {
    let mut state = set_up_state(r);
    both(tally, "wt_set_up", &mut state, [ffi::set_up, calls::set_up], |s, set_up| {
        let n: Vec<u64> = s.numbers.iter().map(|n| n.1).collect();
        let (map, rest) = s.words.split_at_mut(1);
        let (device, result) = w2_mut(rest, 0, 1);
        set_up(passed(&map[0]), n[0], n[1], n[2], n[3], n[4], device, result)
    })
}

/// A device record's words, seldom damaged.
pub fn given_device(r: &mut Rng, d: &Device, damaged_in: u64) -> Vec<u64> {
    let mut words = d.words().to_vec();
    if r.one_in(damaged_in) {
        damage_device(r, &mut words);
    }
    words
}

fn host_calls(r: &mut Rng, tally: &mut Tally) -> Result<(), String> {
    let d = random_device(r);
    let words = given_device(r, &d, 5);
    let mut state = State {
        words: vec![("device", guarded(r, &words), length(r, DEVICE))],
        bytes: vec![("configuration", r.bytes(CONFIGURATION_ROOM), length(r, CONFIGURATION))],
        numbers: vec![("value", 0)],
    };
    for _ in 0..6 {
        let block = random_block(r, &d);
        match r.below(12) {
            0..=3 => host_both(tally, "wt_pin", &mut state, [ffi::pin, calls::pin], block)?,
            4..=6 => host_both(tally, "wt_unpin", &mut state, [ffi::unpin, calls::unpin], block)?,
            7 | 8 => {
                let calls = [ffi::set_requested_size, calls::set_requested_size];
                let size = random_size(r, &d);
                host_both(tally, "wt_set_requested_size", &mut state, calls, size)?
            }
            9 if r.one_in(3) => {
                let calls = [ffi::system_reset, calls::system_reset];
                both(tally, "wt_system_reset", &mut state, calls, |s, reset| reset(s.w(0)))?
            }
            _ => {
                let calls = [ffi::configuration, calls::configuration];
                both(tally, "wt_configuration", &mut state, calls, |s, configuration| {
                    configuration(passed(&s.words[0]), passed_mut(&mut s.bytes[0]))
                })?
            }
        };
    }
    Ok(())
}

/// A host call with one number on the device, words 0.
fn host_both(
    tally: &mut Tally,
    name: &str,
    state: &mut State,
    calls: [fn(&mut [u64], u64) -> u64; 2],
    value: u64,
) -> Result<u64, String> {
    state.numbers[0].1 = value;
    both(tally, name, state, calls, |s, call| {
        let n = s.n(0);
        call(s.w(0), n)
    })
}

/// A block to pin or unpin, often a plugged one.
fn random_block(r: &mut Rng, d: &Device) -> u64 {
    let blocks = d.region / d.block_size;
    match r.below(8) {
        0 => edge(r),
        1 => blocks,
        2 => blocks - 1,
        3 => r.below(blocks) + r.pick(&[256, MOST_BLOCKS, 65536, 1 << 32, 1 << 63]),
        4 => r.below(blocks),
        _ => {
            let plugged: Vec<u64> = (0..MOST_BLOCKS).filter(|&b| d.plugged[b as usize]).collect();
            if plugged.is_empty() {
                0
            } else {
                r.pick(&plugged)
            }
        }
    }
}

/// A requested size.
fn random_size(r: &mut Rng, d: &Device) -> u64 {
    let blocks = d.region / d.block_size;
    match r.below(6) {
        0 => edge(r),
        1 => d.region + d.block_size,
        2 => d.region,
        3 => d.block_size * r.below(blocks + 1) + SMALLEST_BLOCK * r.below(2),
        _ => d.block_size * r.below(blocks + 1),
    }
}
