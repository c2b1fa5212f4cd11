//! Children that leave their priority out (document 02's Req 07). Kind: defaults.
use crate::chance::*;
use crate::compare::*;
use crate::maps::*;
use crate::model::*;
use crate::report::Tally;

/// The field that means -1, what a window's 0 means.
const FIELD_OF_MINUS_ONE: u64 = FIELD_OF_ZERO - 1;

/// Two children that lie over each other: kind and field of each, and which of them shows where both answer,
/// or none where they clash. Document 02's Req 07 by hand: no rule says here what a field means.
#[rustfmt::skip]
const DEFAULTS: &[(u64, u64, u64, u64, Option<usize>)] = &[
    // A window that leaves its priority out loses to every other kind that does,
    (MMIO, 0, RAM, 0, Some(1)), (MMIO, 0, MANAGED, 0, Some(1)), (MMIO, 0, ALIAS, 0, Some(1)), (MMIO, 0, CONTAINER, 0, Some(1)),
    // and clashes with another window that does, and with any kind that says -1.
    (MMIO, 0, MMIO, 0, None), (MMIO, 0, MMIO, 127, None),
    (MMIO, 0, RAM, 127, None), (MMIO, 0, MANAGED, 127, None), (MMIO, 0, ALIAS, 127, None), (MMIO, 0, CONTAINER, 127, None),
    // One below -1, and one above.
    (MMIO, 0, MMIO, 126, Some(0)), (MMIO, 0, RAM, 126, Some(0)), (MMIO, 0, ALIAS, 126, Some(0)), (MMIO, 0, CONTAINER, 126, Some(0)),
    (MMIO, 0, MMIO, 128, Some(1)), (MMIO, 0, RAM, 128, Some(1)), (MMIO, 0, ALIAS, 128, Some(1)), (MMIO, 0, CONTAINER, 128, Some(1)),
    // A window that says its priority has it.
    (MMIO, 128, RAM, 0, None), (MMIO, 128, MANAGED, 0, None), (MMIO, 128, ALIAS, 0, None), (MMIO, 128, CONTAINER, 0, None),
    (MMIO, 127, RAM, 0, Some(1)), (MMIO, 129, RAM, 0, Some(0)), (MMIO, 1, MMIO, 0, Some(1)), (MMIO, 255, RAM, 0, Some(0)),
    // All other kinds keep 0.
    (RAM, 0, RAM, 0, None), (RAM, 0, RAM, 128, None), (RAM, 0, MANAGED, 0, None), (RAM, 0, ALIAS, 0, None), (RAM, 0, CONTAINER, 0, None),
    (ALIAS, 0, ALIAS, 0, None), (ALIAS, 0, CONTAINER, 128, None), (CONTAINER, 0, MANAGED, 0, None), (MANAGED, 0, ALIAS, 128, None),
    (RAM, 0, RAM, 127, Some(0)), (ALIAS, 0, RAM, 127, Some(0)), (CONTAINER, 0, RAM, 127, Some(0)), (MANAGED, 0, RAM, 127, Some(0)),
    (RAM, 0, ALIAS, 129, Some(1)), (CONTAINER, 0, ALIAS, 129, Some(1)),
];

/// The two children are the nodes 2 and 3, what they show 0 and 1; their parent is node 4, which is the root or shows in it.
const CHILDREN: [u64; 2] = [2, 3];
const PARENT: u64 = 4;

/// A map of two such children.
struct Defaults {
    nodes: Vec<Node>,
    memory_length: u64,
    /// An address of the guest that both children hold.
    shared: u64,
    /// What the walk answers there, where the map is accepted.
    answer: Option<Option<(u64, u64)>>,
}

/// Child i, and what it shows where it is an alias or, up to a hole, a container: region i.
fn child_and_inner(r: &mut Rng, i: u64, mut child: Node, cursor: &mut u64) -> (Node, Node) {
    let mut inner = Node { kind: r.pick(&[RAM, MMIO]), size: child.size, ..Node::default() };
    match child.kind {
        CONTAINER => {
            inner.parent = CHILDREN[i as usize] + 1;
            inner.size = 1 + r.below(child.size);
        }
        ALIAS => child.target = i,
        MMIO => child.port = i,
        kind if has_memory(kind) => {
            child.start = *cursor;
            *cursor += child.size;
        }
        kind => unreachable!("no child of the table has kind {kind}"),
    }
    if inner.kind == MMIO {
        inner.port = 2 + i;
    } else {
        inner.start = *cursor;
        *cursor += inner.size;
    }
    (child, inner)
}

/// Offsets of two children of these sizes that share addresses, and which of them begins first.
fn met_offsets(r: &mut Rng, sizes: [u64; 2], unit: u64) -> ([u64; 2], usize) {
    let from = unit * r.below(4);
    let first = r.below(2) as usize;
    let mut offsets = [from; 2];
    offsets[1 - first] += r.below(sizes[first]);
    (offsets, first)
}

fn defaults(r: &mut Rng) -> Defaults {
    let (kind_a, field_a, kind_b, field_b, mut shows) = r.pick(DEFAULTS);
    let mut sides = [(kind_a, field_a), (kind_b, field_b)];
    if r.one_in(2) {
        sides.swap(0, 1);
        shows = shows.map(|side| 1 - side);
    }
    let unit = r.pick(&[1, 16, 4096, 1 << 40]);
    let sizes = [unit * (1 + r.below(8)), unit * (1 + r.below(8))];
    let (offsets, first) = met_offsets(r, sizes, unit);
    let mut nodes = vec![Node::default(); PARENT as usize];
    let mut memory_length = 0;
    for (i, (kind, priority)) in sides.into_iter().enumerate() {
        let (offset, size) = (offsets[i], sizes[i]);
        let child = Node { kind, parent: PARENT + 1, offset, size, priority, ..Node::default() };
        let (child, inner) = child_and_inner(r, i as u64, child, &mut memory_length);
        (nodes[i], nodes[CHILDREN[i] as usize]) = (inner, child);
    }
    let end = (offsets[0] + sizes[0]).min(offsets[1] + sizes[1]);
    let shared = offsets[1 - first] + r.below(end - offsets[1 - first]);
    let answer_of = |side: usize| {
        let offset = shared - offsets[side];
        match sides[side].0 {
            ALIAS => Some((side as u64, offset)),
            CONTAINER => (offset < nodes[side].size).then_some((side as u64, offset)),
            RAM | MMIO | MANAGED => Some((CHILDREN[side], offset)),
            kind => unreachable!("no child of the table has kind {kind}"),
        }
    };
    let answer = shows.map(|side| answer_of(side).or(answer_of(1 - side)));
    let shift = in_the_root(r, &mut nodes, end, unit);
    Defaults { nodes, memory_length, shared: shared + shift, answer }
}

/// The parent, which ends there or later, as the root, or moved in one above it: by how much.
fn in_the_root(r: &mut Rng, nodes: &mut Vec<Node>, end: u64, unit: u64) -> u64 {
    let size = end + unit * r.below(8);
    let mut bus = Node { kind: CONTAINER, size, ..Node::default() };
    if r.one_in(2) {
        nodes.push(bus);
        return 0;
    }
    bus.parent = PARENT + 2;
    bus.offset = unit * r.below(8);
    nodes.push(bus);
    nodes.push(Node { kind: CONTAINER, size: bus.offset + size, ..Node::default() });
    bus.offset
}

/// "That map with field 127 at each MMIO node that has 0."
fn written_out(nodes: &[Node]) -> Vec<Node> {
    let mut nodes = nodes.to_vec();
    for node in nodes.iter_mut().filter(|n| n.kind == MMIO && n.priority == 0) {
        node.priority = FIELD_OF_MINUS_ONE;
    }
    nodes
}

/// What check, walk and flatten tell of a map, with the number of the check first.
type Told = (u64, Vec<Vec<u64>>);

fn told_of(
    tally: &mut Tally,
    mut state: State,
    addresses: Vec<u64>,
    view: Vec<u64>,
) -> Result<Told, String> {
    let number = check_both(tally, &mut state)?;
    let mut told = vec![state.words[1].1[..RESULT].to_vec()];
    told.extend(walks_both(tally, &mut state, addresses)?);
    state.words.insert(1, ("view", view, VIEW));
    flatten_both(tally, &mut state)?;
    told.push(state.words[1].1[..VIEW].to_vec());
    told.push(state.words[2].1[..RESULT].to_vec());
    Ok((number, told))
}

/// The answer where two meet is known from a table, whatever the model says; and a map is told as with the windows' default
/// written out, in which the field means what document 01 says.
pub fn defaults_case(r: &mut Rng, tally: &mut Tally) -> Result<(), String> {
    let table = r.one_in(2).then(|| defaults(r));
    let (nodes, memory_length) = match &table {
        Some(case) => (case.nodes.clone(), case.memory_length),
        None => random_map(r),
    };
    let (result, view) = (garbage(r, RESULT), garbage(r, VIEW));
    let mut state_of = |nodes: &[Node]| {
        let map = ("map", guarded(r, &map_words(nodes)), MAP);
        state_of_map(map, ("result", result.clone(), RESULT), memory_length)
    };
    let (state, plain) = (state_of(&nodes), state_of(&written_out(&nodes)));
    let mut addresses = telling_addresses(r, &plain);
    addresses[0] = table.as_ref().map_or(addresses[0], |case| case.shared);
    let told = told_of(tally, state, addresses.clone(), view.clone())?;
    if told != told_of(tally, plain, addresses, view)? {
        return Err(format!("told otherwise with the default written out: {nodes:#?}"));
    }
    let Some(case) = table else { return Ok(()) };
    let known = match case.answer {
        None => (OVERLAP, vec![CHILDREN[0], CHILDREN[1], 0]),
        Some(Some((node, offset))) => (0, vec![1, node, offset]),
        Some(None) => (0, vec![0; RESULT]),
    };
    if (told.0, &told.1[1]) != (known.0, &known.1) {
        return Err(format!("{told:?} where {known:?} is known, of {nodes:#?}"));
    }
    Ok(())
}
