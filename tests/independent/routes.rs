//! Accesses: one, many at once, and look-ups, on given views. Kinds: route, look-up.
use crate::chance::*;
use crate::compare::*;
use crate::devices::*;
use crate::ffi;
use crate::maps::*;
use crate::model::*;
use crate::report::Tally;
use crate::views::*;

/// An access around the end of a run or of a block.
fn random_access(r: &mut Rng, runs: &[Run], block_size: u64) -> (u64, u64) {
    let width = random_width(r);
    if runs.is_empty() || r.one_in(16) {
        return (edge(r), width);
    }
    let run = r.pick(runs);
    let inside = run.size();
    let from = match r.below(4) {
        0 => run.first,
        1 => run.last,
        2 => {
            // At a multiple of the block size in the node.
            let to_block = block_size - run.offset % block_size;
            let blocks = (inside.saturating_sub(to_block)) / block_size;
            run.first + (to_block + block_size * r.below(blocks + 1)).min(inside)
        }
        _ => run.first + r.below(inside),
    };
    (from.wrapping_add(r.below(11)).wrapping_sub(8), width)
}

/// A width, seldom a wrong one.
fn random_width(r: &mut Rng) -> u64 {
    if !r.one_in(16) {
        return r.pick(&WIDTHS);
    }
    let right = r.pick(&WIDTHS);
    if r.one_in(2) {
        shake(r, right)
    } else {
        edge(r)
    }
}

/// A view and a device for it.
struct Routing {
    /// Words: view and device. Behind them a call puts its result, or its accesses and answers.
    state: State,
    runs: Vec<Run>,
    block_size: u64,
}

fn routing(r: &mut Rng) -> Routing {
    let d = if r.one_in(2) { random_device(r) } else { device_of(r, SMALLEST_BLOCK, 16) };
    let memory_length = match r.below(10) {
        0 => 1 + r.below(100),
        1 => u64::MAX,
        2 => LIMIT,
        3 => d.region,
        _ => 65536 + r.below(65536),
    };
    let runs = view_for(r, memory_length, &d);
    let memory_length = if r.one_in(10) {
        // Exactly what the view needs, or one byte less.
        needed_memory(&runs).saturating_sub(r.below(2))
    } else {
        memory_length
    };
    let mut view = view_words(&runs);
    if r.one_in(2) {
        view[WT_VIEW_RANGE(runs.len())..].fill(u64::MAX);
    }
    let mut device = d.words().to_vec();
    if r.one_in(4) {
        if r.one_in(3) {
            damage_device(r, &mut device);
        } else {
            damage_view(r, &mut view);
        }
    }
    let device_length = if r.one_in(6) { 0 } else { length(r, DEVICE) };
    let state = State {
        words: vec![
            ("view", guarded(r, &view), length(r, VIEW)),
            ("device", guarded(r, &device), device_length),
        ],
        bytes: vec![],
        numbers: vec![("memory_length", memory_length)],
    };
    Routing { state, runs, block_size: d.block_size }
}

/// The runs of a map, or of none.
fn view_for(r: &mut Rng, memory_length: u64, d: &Device) -> Vec<Run> {
    let mut runs = if r.one_in(4) {
        let (nodes, length) = random_map(r);
        match check_nodes(&nodes, length) {
            Ok(()) => Tree::new(nodes).runs(),
            Err(_) => random_view(r, memory_length, d),
        }
    } else {
        random_view(r, memory_length, d)
    };
    runs.truncate(MOST_RUNS as usize);
    runs
}

/// The shortest memory in which all runs lie.
fn needed_memory(runs: &[Run]) -> u64 {
    let in_memory = runs.iter().filter(|run| has_memory(run.kind));
    let ends = in_memory
        .map(|run| run.base.saturating_add(run.offset + (run.last - run.first)).saturating_add(1));
    ends.max().unwrap_or(0)
}

/// Some single accesses, and then many at once on another view.
pub fn route_case(r: &mut Rng, tally: &mut Tally) -> Result<(), String> {
    route_each(r, tally)?;
    route_all(r, tally)
}

fn route_each(r: &mut Rng, tally: &mut Tally) -> Result<(), String> {
    let Routing { mut state, runs, block_size } = routing(r);
    state.words.push(("result", garbage(r, RESULT), length(r, RESULT)));
    state.numbers.extend([("address", 0), ("width", 0)]);
    for _ in 0..4 {
        (state.numbers[1].1, state.numbers[2].1) = random_access(r, &runs, block_size);
        both(tally, "wt_route", &mut state, [ffi::route, calls::route], |s, route| {
            let (n, a, w) = (s.n(0), s.n(1), s.n(2));
            let (records, result) = s.words.split_at_mut(2);
            let (view, device) = (passed(&records[0]), passed(&records[1]));
            route(view, n, device, a, w, passed_mut(&mut result[0]))
        })?;
    }
    Ok(())
}

fn route_all(r: &mut Rng, tally: &mut Tally) -> Result<(), String> {
    let Routing { mut state, runs, block_size } = routing(r);
    let count = 1 + r.below(20) as usize;
    let mut accesses = vec![];
    for _ in 0..count {
        let (address, width) = random_access(r, &runs, block_size);
        accesses.extend([address, width]);
    }
    let access_words = length(r, count * ACCESS);
    let answer_words = length(r, count * ANSWER);
    state.words.push(("accesses", guarded(r, &accesses), access_words));
    state.words.push(("answers", garbage(r, count * ANSWER), answer_words));
    let calls = [ffi::route_all, calls::route_all];
    both(tally, "wt_route_all", &mut state, calls, |s, route_all| {
        let n = s.n(0);
        let (records, answers) = s.words.split_at_mut(3);
        let (view, device) = (passed(&records[0]), passed(&records[1]));
        route_all(view, n, device, passed(&records[2]), passed_mut(&mut answers[0]))
    })
    .map(|_| ())
}

pub fn look_up_case(r: &mut Rng, tally: &mut Tally) -> Result<(), String> {
    let Routing { mut state, runs, .. } = routing(r);
    state.words[1] = ("result", garbage(r, RESULT), length(r, RESULT));
    state.numbers.push(("address", 0));
    for _ in 0..4 {
        state.numbers[1].1 = telling_address(r, &runs);
        both(tally, "wt_look_up", &mut state, [ffi::look_up, calls::look_up], |s, look_up| {
            let (n, a) = (s.n(0), s.n(1));
            let (view, result) = s.w2(0, 1);
            look_up(view, n, a, result)
        })?;
    }
    Ok(())
}
