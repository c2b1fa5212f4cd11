//! The model tested by itself: the worked values of the paper, and slower ways to the same answers. Kind: self.
use crate::chance::*;
use crate::guests::*;
use crate::maps::*;
use crate::model::{self, *};
use crate::report::Tally;

fn demand(holds: bool, what: &str) -> Result<(), String> {
    if holds {
        Ok(())
    } else {
        Err(format!("self test of the model: {what}"))
    }
}

/// The worked values of the paper, on the model.
pub fn worked_values() -> Result<(), String> {
    worked_maps()?;
    worked_requests()?;
    worked_distances()
}

/// The map of 001, its variant with B made MMIO, and two sheets that are refused.
fn worked_maps() -> Result<(), String> {
    let hex = |text: &str| -> Vec<u8> {
        text.split_whitespace().map(|b| u8::from_str_radix(b, 16).unwrap()).collect()
    };
    let text =
        "05 02 03 00 80 20 00 04 02 03 80 40 80 20 00 05 00 05 80 40 80 80 01 82 01 02 05 00 \
                80 c0 01 81 01 06 00 00 00 80 80 02 00";
    let lines = |nodes: Vec<Node>| -> Vec<(u64, u64, u64, u64)> {
        Tree::new(nodes).runs().iter().map(|r| (r.first, r.last, r.node, r.offset)).collect()
    };
    let nodes = model::read_sheet(&hex(text), PROGRAM_MEMORY).map_err(|e| format!("{e:?}"))?;
    let expected = [
        (0, 0x1fff, 3, 0),
        (0x2000, 0x2fff, 0, 0),
        (0x3000, 0x3fff, 3, 0x3000),
        (0x4000, 0x4fff, 1, 0),
        (0x5000, 0x5fff, 3, 0x5000),
    ];
    demand(lines(nodes.clone()) == expected, "the map of 001")?;
    let mut changed = nodes;
    changed[2].kind = MMIO;
    changed[2].port = 7;
    let seen: Vec<u64> = lines(changed).iter().map(|l| l.2).collect();
    demand(seen == [3, 0, 2, 1, 2], "B made MMIO: C D B E B")?;
    let place =
        |sheet: &[u8]| model::read_sheet(sheet, PROGRAM_MEMORY).map_err(|e| (e.number, e.place.0));
    demand(place(&[]) == Err((SHORT, 0)), "the empty sheet")?;
    demand(place(&[0x80, 0]) == Err((NUMBER, 1)), "80 00")
}

/// "Block 4,096, addr 0x10000, region 8 blocks, usable 6, requested 4."
fn worked_device() -> Device {
    const BLOCK: u64 = 4096;
    Device::fresh(BLOCK, 0x10000, 8 * BLOCK, 6 * BLOCK, 4 * BLOCK).unwrap()
}

/// P1 to P11, and the two addresses that are below addr and at the end of all numbers.
fn worked_requests() -> Result<(), String> {
    let plug = |addr, n| worked_device().answer(PLUG, addr, n);
    let mut d = worked_device();
    demand(d.answer(PLUG, 0x10000, 4) == (ACK, 0), "P1")?;
    demand(d.answer(PLUG, 0x10000, 1) == (ERROR, 0), "P7")?;
    demand(plug(0x10000, 5) == (NACK, 0), "P2")?;
    demand(plug(0x15000, 1) == (ACK, 0), "P3")?;
    demand(plug(0x15000, 2) == (ERROR, 0), "P4")?;
    demand(plug(0x10800, 1) == (ERROR, 0), "P5")?;
    demand(plug(0x10000, 0) == (ERROR, 0), "P6")?;
    demand(plug(0xf000, 1) == (ERROR, 0), "addr 0xf000")?;
    demand(plug(0u64.wrapping_sub(4096), 1) == (ERROR, 0), "addr 2^64 - 4,096")?;
    let mut d = worked_device();
    demand(d.answer(PLUG, 0x10000, 2) == (ACK, 0), "two blocks")?;
    demand(d.answer(STATE, 0x10000, 2) == (ACK, ALL_PLUGGED), "P8")?;
    demand(d.answer(STATE, 0x10000, 3) == (ACK, MIXED), "P9")?;
    demand(d.pin(1).is_ok(), "pin")?;
    demand(d.answer(UNPLUG, 0x10000, 2) == (BUSY, 0), "P10")?;
    demand(d.answer(UNPLUG, 0x10000, 3) == (ERROR, 0), "P11")
}

/// P12: n = 4, all in RAM; the head is too high, so that a step that gets past 18 gives 19.
fn worked_distances() -> Result<(), String> {
    let cases = [(0u16, 5u16, AHEAD), (0, 4, HEAD), (65535, 1, HEAD), (65535, 4, AHEAD)];
    for (seen, idx, expected) in cases {
        let runs = [Run { first: 0, last: 4095, node: 0, offset: 0, kind: RAM, base: 0 }];
        let mut memory = vec![0xff; 4096];
        memory[2..4].copy_from_slice(&idx.to_le_bytes());
        let mut queue = Queue::make(4, 0, 0, 256).unwrap();
        queue.next_available = seen;
        let outcome = model::step(&runs, &mut worked_device(), &mut queue, &mut memory);
        demand(outcome == Outcome::Stopped(expected), "P12")?;
    }
    Ok(())
}

/// The model against slower ways.
pub fn self_case(r: &mut Rng, _: &mut Tally) -> Result<(), String> {
    let (nodes, length) = random_map(r);
    if check_nodes(&nodes, length).is_ok() {
        runs_beside_walk(r, Tree::new(nodes), length)?;
    }
    reach_beside_bytes(r)
}

/// The run list against the walk at every address of a small map, or at some; and against what a list of longest runs is.
fn runs_beside_walk(r: &mut Rng, tree: Tree, length: u64) -> Result<(), String> {
    let runs = tree.runs();
    let answer = |a: u64| find(&runs, a).map(|run| (run.node, run.offset_at(a)));
    let size = tree.nodes[tree.root()].size;
    let addresses: Vec<u64> = if size <= 600 {
        (0..size + 3).collect()
    } else {
        (0..60).map(|_| telling_address(r, &runs)).chain([0, size - 1, size]).collect()
    };
    for a in addresses {
        demand(tree.walk(tree.root(), a) == answer(a), "runs beside the walk")?;
    }
    for pair in runs.windows(2) {
        let joined = pair[0].last + 1 == pair[1].first
            && pair[0].node == pair[1].node
            && pair[0].offset + (pair[1].first - pair[0].first) == pair[1].offset;
        demand(pair[0].last < pair[1].first && !joined, "runs ascend and are longest")?;
    }
    if runs.len() as u64 <= MOST_RUNS {
        let kept = check_view(&view_words(&runs), length, None).is_some();
        demand(kept, "a list just made keeps 27's rules")?;
    }
    Ok(())
}

/// Reach of an element against each of its bytes, and against the joined spans.
fn reach_beside_bytes(r: &mut Rng) -> Result<(), String> {
    let mut guest = random_guest(r, false);
    for _ in 0..6 {
        let need = r.pick(&[0, 1, 2, 9, 24, 100, 5000]);
        let address = guest.spot(r, need, 1);
        let slow = (0..need).all(|i| {
            address.checked_add(i).is_some_and(|a| reach(&guest.runs, &guest.device, a).is_some())
        });
        let what = "reach of an element beside a scan of its bytes";
        demand(guest.reaches(address, need) == slow, what)?;
        let inside = need == 0
            || guest.reachable.iter().any(|s| {
                s.0 <= address && u128::from(address) + u128::from(need) <= u128::from(s.1) + 1
            });
        demand(inside == slow, "reach of an element beside the joined spans")?;
    }
    Ok(())
}
