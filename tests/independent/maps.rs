//! Maps: random ones, mostly acceptable, and damaged ones. Kinds: check, walk, flatten.
use crate::chance::*;
use crate::compare::*;
use crate::ffi;
use crate::layers::{ladder, slices, stripes, tower};
use crate::model::{self, *};
use crate::parked::parked;
use crate::report::Tally;

/// Priority fields: often none, the ends, and those around priority 0.
const PRIORITIES: [u64; 8] =
    [0, 0, 0, 1, FIELD_OF_ZERO - 1, FIELD_OF_ZERO, FIELD_OF_ZERO + 1, MOST_FIELD];
/// Ports that there are.
pub const PORTS: u64 = MOST_FIELD + 1;
/// The memory length of document 01's program.
pub const PROGRAM_MEMORY: u64 = 65536;

/// Kinds, each as often as it is chosen.
const MIXES: [&[u64]; 4] = [
    &[CONTAINER, CONTAINER, RAM, RAM, RAM, MMIO, MMIO, ALIAS, ALIAS, ALIAS, MANAGED],
    &[CONTAINER, RAM, MMIO, MMIO, ALIAS, ALIAS, ALIAS, ALIAS, ALIAS, ALIAS, MANAGED],
    &[CONTAINER, CONTAINER, CONTAINER, RAM, RAM, RAM, RAM, MMIO, MANAGED],
    &[RAM, MMIO],
];

/// A map, mostly acceptable, and a memory length for it.
pub fn random_map(r: &mut Rng) -> (Vec<Node>, u64) {
    match r.below(20) {
        0 | 1 => stripes(r),
        2 => ladder(r),
        3 => tower(r),
        4 => slices(r),
        5 => {
            let (nodes, memory_length, _) = parked(r);
            (nodes, memory_length)
        }
        _ => plain_map(r),
    }
}

/// A small grid of addresses, so that regions meet, nest, cover and cross.
struct Grid {
    unit: u64,
    span: u64,
}

impl Grid {
    fn random(r: &mut Rng) -> Grid {
        let unit = r.pick(&[1, 1, 1, 1, 16, 4096, 4096, 1 << 20, 1 << 40, 1 << 43]);
        Grid { unit, span: 1 + r.pick(&[3, 8, 16, 31]).min(LIMIT / unit - 1) }
    }

    /// A place on the grid, or seldom beside it.
    fn place(&self, r: &mut Rng) -> u64 {
        let grid = r.below(self.span + 1) * self.unit;
        let moved = match r.below(24) {
            0 => grid + 1,
            1 => grid.saturating_sub(1),
            2 if self.unit > 1 => grid + r.below(self.unit),
            3 => r.pick(&[0, LIMIT, LIMIT - 1, LIMIT - self.unit]),
            _ => grid,
        };
        moved.min(LIMIT)
    }
}

/// Random regions on a grid.
pub fn plain_map(r: &mut Rng) -> (Vec<Node>, u64) {
    let count = match r.below(8) {
        0 => 1 + r.below(3),
        1 => MOST_NODES,
        2 => 20 + r.below(13),
        _ => 2 + r.below(14),
    } as usize;
    let grid = Grid::random(r);
    let mut nodes = vec![Node::default(); count];
    choose_kinds(r, &mut nodes);
    let mut cursor = 0;
    let ports = r.next();
    let distinct = r.one_in(2);
    for i in 0..count {
        choose_parent(r, &mut nodes, i);
        let offset = grid.place(r);
        let size = grid.place(r).max(1);
        let alias_offset = if r.one_in(3) { 0 } else { grid.place(r) };
        let target = r.below(i as u64);
        let priority =
            if distinct { 1 + (i as u64 * 37 + ports) % MOST_FIELD } else { r.pick(&PRIORITIES) };
        let node = &mut nodes[i];
        node.size = size;
        node.priority = priority;
        if i == count - 1 {
            let whole = grid.span * grid.unit;
            node.size = r.pick(&[whole, (whole * 2).min(LIMIT), LIMIT, size]);
        } else {
            node.offset = offset;
        }
        match node.kind {
            kind if has_memory(kind) => lay_in_memory(r, node, grid.unit, &mut cursor),
            MMIO => node.port = (ports + 3 * i as u64) % PORTS,
            ALIAS => (node.target, node.alias_offset) = (target, alias_offset),
            _ => {}
        }
    }
    if !r.one_in(20) {
        part_priorities(r, &mut nodes);
    }
    (nodes, near_length(r, cursor))
}

/// Kinds of all nodes but the root, which stays a container.
fn choose_kinds(r: &mut Rng, nodes: &mut [Node]) {
    let mut managed = false;
    let mix = r.pick(&MIXES);
    let root = nodes.len() - 1;
    for (i, node) in nodes[..root].iter_mut().enumerate() {
        node.kind = r.pick(mix);
        if (node.kind == ALIAS && i == 0) || (node.kind == MANAGED && managed && !r.one_in(40)) {
            node.kind = RAM;
        }
        managed |= node.kind == MANAGED;
    }
}

/// Mostly a parent, often one of the next nodes; the root has none.
fn choose_parent(r: &mut Rng, nodes: &mut [Node], i: usize) {
    let count = nodes.len();
    if i == count - 1 {
        return;
    }
    let parents: Vec<usize> =
        (i + 1..count).filter(|&j| nodes[j].kind != ALIAS && nodes[j].kind != MANAGED).collect();
    if !r.one_in(8) {
        let near = r.below(parents.len() as u64).min(r.below(parents.len() as u64));
        nodes[i].parent = parents[near as usize] as u64 + 1;
    }
}

/// A memory start behind all that lies in memory so far.
fn lay_in_memory(r: &mut Rng, node: &mut Node, unit: u64, cursor: &mut u64) {
    if *cursor + node.size > LIMIT {
        node.size = 1 + r.below(16);
    }
    node.start = *cursor + if r.one_in(6) { r.below(unit + 1) } else { 0 };
    if node.start > LIMIT {
        node.start = *cursor;
    }
    *cursor = node.start + node.size;
}

/// A memory length for a map that needs so many bytes.
fn near_length(r: &mut Rng, needed: u64) -> u64 {
    match r.below(16) {
        0 => edge(r),
        1 => needed.saturating_sub(1),
        2 => needed + 1,
        3 => u64::MAX,
        4 => PROGRAM_MEMORY,
        _ => needed,
    }
}

/// Gives siblings of equal priority that overlap other priorities.
fn part_priorities(r: &mut Rng, nodes: &mut [Node]) {
    for j in 0..nodes.len() {
        for _ in 0..60 {
            if !(0..j).any(|i| siblings_clash(nodes, &nodes[i], &nodes[j])) {
                break;
            }
            nodes[j].priority = r.below(MOST_FIELD + 1);
        }
    }
}

/// Breaks a map in one to three places.
pub fn damage_nodes(r: &mut Rng, nodes: &mut [Node]) {
    for _ in 0..1 + r.below(3) {
        let count = nodes.len() as u64;
        let i = r.below(count) as usize;
        let mut j = r.below(count) as usize;
        if r.one_in(2) {
            // A partner of the same kind, where there is one.
            let same: Vec<usize> =
                (0..nodes.len()).filter(|&k| k != i && nodes[k].kind == nodes[i].kind).collect();
            if !same.is_empty() {
                j = r.pick(&same);
            }
        }
        let other = nodes[j];
        damage_node(r, &mut nodes[i], &other, [i as u64, j as u64, count]);
    }
}

/// Breaks node i, often by what node j has.
fn damage_node(r: &mut Rng, node: &mut Node, other: &Node, [i, j, count]: [u64; 3]) {
    match r.below(16) {
        0 => node.kind = r.pick(&[0, 1, 2, 3, 4, 4, 5, 255, 256, 257, u64::MAX]),
        1 => node.parent = r.pick(&[0, i, i + 1, i + 2, count, count + 1]),
        2 => node.parent = j + 1,
        3 => node.target = r.pick(&[i, i + 1, j, count]),
        4 => node.start = other.start,
        5 => node.start = other.start.wrapping_add(other.size).wrapping_sub(r.below(3)),
        6 if node.kind == MMIO && other.kind == MMIO => node.port = other.port,
        6 if node.kind == RAM => node.kind = MANAGED,
        7 => (node.priority, node.parent) = (other.priority, other.parent),
        8 => (node.priority, node.offset) = (other.priority, other.offset),
        9 => node.kind = other.kind,
        _ => {
            let mut words = node.words();
            let field = r.below(REGION_WORDS as u64) as usize;
            words[field] = if r.one_in(2) { edge(r) } else { shake(r, words[field]) };
            *node = Node::of_words(&words);
        }
    }
}

/// A map's words for a call: accepted or damaged, and garbage in the regions past the count.
fn given_map(r: &mut Rng, damaged: bool) -> (Vec<u64>, u64) {
    let (mut nodes, memory_length) = random_map(r);
    if damaged {
        damage_nodes(r, &mut nodes);
    }
    let mut words = map_words(&nodes);
    if r.one_in(2) {
        for word in &mut words[WT_MAP_REGION(nodes.len())..] {
            *word = r.next();
        }
    }
    if damaged && r.one_in(12) {
        let count = words[WT_MAP_COUNT];
        words[WT_MAP_COUNT] = if r.one_in(2) { edge(r) } else { shake(r, count) };
    }
    if damaged && r.one_in(40) {
        words.iter_mut().for_each(|w| *w = u64::MAX);
        words[WT_MAP_COUNT] = 1 + r.below(MOST_NODES);
    }
    (words, memory_length)
}

/// The state of a call on a map: the map and the result, and the memory length.
pub fn state_of_map(map: Buffer<u64>, result: Buffer<u64>, memory_length: u64) -> State {
    State {
        words: vec![map, result],
        bytes: vec![],
        numbers: vec![("memory_length", memory_length)],
    }
}

fn map_state(r: &mut Rng, damaged: bool) -> State {
    let (words, memory_length) = given_map(r, damaged);
    let map = ("map", guarded(r, &words), length(r, MAP));
    let result = ("result", garbage(r, RESULT), length(r, RESULT));
    state_of_map(map, result, memory_length)
}

/// wt_check_map on words 0 (map) and 1 (result), number 0 (memory length).
pub fn check_both(tally: &mut Tally, state: &mut State) -> Result<u64, String> {
    both(tally, "wt_check_map", state, [ffi::check_map, calls::check_map], |s, check_map| {
        let n = s.n(0);
        let (map, result) = s.w2(0, 1);
        check_map(map, n, result)
    })
}

/// wt_walk on words 0 (map) and 1 (result), numbers 0 (memory length) and 1 (address).
fn walk_both(tally: &mut Tally, state: &mut State) -> Result<u64, String> {
    both(tally, "wt_walk", state, [ffi::walk, calls::walk], |s, walk| {
        let (n, a) = (s.n(0), s.n(1));
        let (map, result) = s.w2(0, 1);
        walk(map, n, a, result)
    })
}

/// wt_flatten on words 0 (map), 1 (view) and 2 (result), number 0 (memory length).
pub fn flatten_both(tally: &mut Tally, state: &mut State) -> Result<u64, String> {
    both(tally, "wt_flatten", state, [ffi::flatten, calls::flatten], |s, flatten| {
        let n = s.n(0);
        let (map, rest) = s.words.split_at_mut(1);
        let (view, result) = w2_mut(rest, 0, 1);
        flatten(passed(&map[0]), n, view, result)
    })
}

/// An address at which a view may change, or another.
pub fn telling_address(r: &mut Rng, runs: &[Run]) -> u64 {
    if runs.is_empty() || r.one_in(8) {
        return edge(r);
    }
    let run = r.pick(runs);
    let base = match r.below(3) {
        0 => run.first,
        1 => run.last,
        _ => run.first + r.below(run.size()),
    };
    base.wrapping_add(r.below(5)).wrapping_sub(2)
}

/// Six addresses at which the walk through a state's map may change.
pub fn telling_addresses(r: &mut Rng, state: &State) -> Vec<u64> {
    let nodes = model::check_map(&state.words[0].1[..MAP], state.n(0));
    let runs = nodes.map(|n| Tree::new(n).runs()).unwrap_or_default();
    (0..6).map(|_| telling_address(r, &runs)).collect()
}

/// The walk at each of these; what the result says after it.
pub fn walks_both(
    tally: &mut Tally,
    state: &mut State,
    addresses: Vec<u64>,
) -> Result<Vec<Vec<u64>>, String> {
    state.numbers.push(("address", 0));
    let mut told = Vec::new();
    for address in addresses {
        state.numbers[1].1 = address;
        walk_both(tally, state)?;
        told.push(state.words[1].1[..RESULT].to_vec());
    }
    Ok(told)
}

pub fn check_case(r: &mut Rng, tally: &mut Tally) -> Result<(), String> {
    let damaged = !r.one_in(3);
    let mut state = map_state(r, damaged);
    check_both(tally, &mut state).map(|_| ())
}

pub fn walk_case(r: &mut Rng, tally: &mut Tally) -> Result<(), String> {
    let damaged = r.one_in(6);
    let mut state = map_state(r, damaged);
    let addresses = telling_addresses(r, &state);
    walks_both(tally, &mut state, addresses).map(|_| ())
}

pub fn flatten_case(r: &mut Rng, tally: &mut Tally) -> Result<(), String> {
    let damaged = r.one_in(8);
    let mut state = map_state(r, damaged);
    state.words.insert(1, ("view", garbage(r, VIEW), length(r, VIEW)));
    flatten_both(tally, &mut state).map(|_| ())
}
