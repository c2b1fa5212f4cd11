//! Maps of many layers: levels of containers and aliases with many runs, many ways through the tree, or many pieces.
use crate::chance::*;
use crate::model::*;

/// What a map is built up to: its nodes, and the bytes of memory that they take.
#[derive(Default)]
struct Built {
    nodes: Vec<Node>,
    memory: u64,
}

impl Built {
    /// A leaf: RAM and managed nodes take the next bytes of memory, a window its port.
    fn push_leaf(&mut self, mut node: Node, port: u64) {
        match node.kind {
            kind if has_memory(kind) => {
                node.start = self.memory;
                self.memory += node.size;
            }
            MMIO => node.port = port,
            _ => {}
        }
        self.nodes.push(node);
    }

    fn push_container(&mut self, size: u64) {
        self.nodes.push(Node { kind: CONTAINER, size, ..Node::default() });
    }

    fn len(&self) -> u64 {
        self.nodes.len() as u64
    }
}

/// Leaves in a container, then levels of containers that show the one below several times: many runs,
/// with the root cut so that there are often 255 to 258 of them.
pub fn stripes(r: &mut Rng) -> (Vec<Node>, u64) {
    let mut built = Built::default();
    let unit = r.pick(&[1, 2, 16, 4096]);
    let leaves = 1 + r.below(5);
    let gap = r.below(2) * unit;
    let mut size = stripe_leaves(r, &mut built, leaves, unit, gap);
    built.push_container(size);
    loop {
        let copies = 2 + r.below(4);
        if built.len() + copies + 1 > MOST_NODES - 1 || r.one_in(12) {
            break;
        }
        size = stripe_level(r, &mut built, copies, size, unit, gap);
    }
    if r.one_in(3) && built.len() < MOST_NODES {
        put_background(&mut built.nodes, size);
    }
    cut_root(r, &mut built);
    (built.nodes, built.memory)
}

/// Leaves side by side: where they end.
fn stripe_leaves(r: &mut Rng, built: &mut Built, leaves: u64, unit: u64, gap: u64) -> u64 {
    let mut offset = 0;
    for i in 0..leaves {
        let size = unit * (1 + r.below(3));
        let kind = if i == 0 { r.pick(&[RAM, MANAGED]) } else { r.pick(&[RAM, MMIO]) };
        let node = Node { kind, parent: leaves + 1, offset, size, ..Node::default() };
        built.push_leaf(node, 200 + i);
        offset += size + if r.one_in(2) { gap } else { 0 };
    }
    offset
}

/// A container that shows the one below so many times, side by side: its size.
fn stripe_level(
    r: &mut Rng,
    built: &mut Built,
    copies: u64,
    size: u64,
    unit: u64,
    gap: u64,
) -> u64 {
    let below = built.len() - 1;
    let level = built.len() + copies;
    let mut at = 0;
    for _ in 0..copies {
        built.nodes.push(Node {
            kind: ALIAS,
            parent: level + 1,
            offset: at,
            size,
            target: below,
            alias_offset: if r.one_in(20) { r.below(unit + 1) } else { 0 },
            ..Node::default()
        });
        at += size + if r.one_in(3) { gap } else { 0 };
    }
    built.push_container(at);
    at
}

/// A window below everything in the root: the gaps are runs too.
fn put_background(nodes: &mut Vec<Node>, size: u64) {
    let last = nodes.len() - 1;
    let parent = last as u64 + 2;
    let background = Node { kind: MMIO, parent, size, priority: 1, port: 7, ..Node::default() };
    nodes.insert(last, background);
    for node in &mut nodes[..last] {
        if node.parent == last as u64 + 1 {
            node.parent += 1;
        }
    }
}

/// Cuts the root inside a run, or at its end, so that a chosen number of runs is left.
fn cut_root(r: &mut Rng, built: &mut Built) {
    if check_nodes(&built.nodes, built.memory).is_err() {
        return;
    }
    let runs = Tree::new(built.nodes.clone()).runs();
    let most = MOST_RUNS as usize;
    let want = r.pick(&[most, most + 1, most + 1, most + 2, most - 1, 2]);
    if runs.len() >= want && !r.one_in(4) {
        let run = runs[want - 1];
        let inside = r.below(run.size());
        let root = built.nodes.len() - 1;
        built.nodes[root].size = r.pick(&[run.first + 1, run.last + 1, run.first + 1 + inside]);
    }
}

/// Levels of containers with aliases of the level below that lie over each other: many ways through
/// the tree for one address, most of them into holes.
pub fn ladder(r: &mut Rng) -> (Vec<Node>, u64) {
    let mut built = Built::default();
    let unit = r.pick(&[1, 1, 8, 4096]);
    let leaves = 1 + r.below(4);
    for i in 0..leaves {
        let size = unit * (1 + r.below(4));
        let kind = r.pick(&[RAM, RAM, MMIO, CONTAINER]);
        let offset = unit * r.below(20);
        let (parent, priority) = (leaves + 1, 10 + i);
        built.push_leaf(Node { kind, parent, offset, size, priority, ..Node::default() }, i);
    }
    let mut size = unit * 24;
    built.push_container(size);
    for _ in 0..r.below(6) {
        let copies = 2 + r.below(3);
        if built.len() + copies + 1 > MOST_NODES {
            break;
        }
        ladder_level(r, &mut built.nodes, copies, size, unit);
        size += unit * 6;
        built.push_container(size);
    }
    (built.nodes, built.memory)
}

/// Aliases of the level below, or seldom of another node, over each other.
fn ladder_level(r: &mut Rng, nodes: &mut Vec<Node>, copies: u64, size: u64, unit: u64) {
    let below = nodes.len() as u64 - 1;
    let level = nodes.len() as u64 + copies;
    for i in 0..copies {
        nodes.push(Node {
            kind: ALIAS,
            parent: level + 1,
            offset: unit * r.below(12),
            size,
            priority: 200 - i,
            target: if r.one_in(6) { r.below(below + 1) } else { below },
            alias_offset: unit * r.below(4),
            ..Node::default()
        });
    }
}

/// Each container is a child of the next and shown there by aliases too, all laid over each other: ways
/// through the tree multiply with few nodes.
pub fn tower(r: &mut Rng) -> (Vec<Node>, u64) {
    let mut built = Built::default();
    let unit = r.pick(&[1, 1, 16, 4096]);
    for i in 0..r.below(3) {
        let size = unit * (1 + r.below(3));
        let kind = if r.one_in(2) { MMIO } else { RAM };
        built.push_leaf(Node { kind, offset: unit * (4 * i), size, ..Node::default() }, i);
    }
    let bottom = built.len() + 1;
    built.nodes.iter_mut().for_each(|leaf| leaf.parent = bottom);
    built.push_container(unit * (10 + r.below(30)));
    let ways = 2 + r.below(3);
    let mut shift = unit * r.below(4);
    let (levels, grows) = if r.one_in(6) { (8, true) } else { (1 + r.below(5), r.one_in(3)) };
    for _ in 0..levels {
        if built.len() + ways > MOST_NODES {
            break;
        }
        tower_level(r, &mut built, ways, shift, unit);
        if grows {
            shift *= ways;
        }
    }
    (built.nodes, built.memory)
}

fn tower_level(r: &mut Rng, built: &mut Built, ways: u64, shift: u64, unit: u64) {
    let below = built.nodes.len();
    let parent = below as u64 + ways;
    let child = &mut built.nodes[below - 1];
    let size = child.size;
    child.parent = parent;
    child.priority = r.pick(&[0, 1, MOST_FIELD]);
    child.offset = shift * r.below(3);
    for i in 1..ways {
        built.nodes.push(Node {
            kind: ALIAS,
            parent,
            offset: i * shift + unit * r.below(2),
            size: size - r.below(2),
            priority: 100 + i,
            target: below as u64 - 1,
            alias_offset: if r.one_in(3) { unit * r.below(5) } else { 0 },
            ..Node::default()
        });
    }
    built.push_container(size + ways * shift + unit * r.below(2));
}

/// A region in slices that join again, shown twice as often on each level: more pieces than runs, past 256
/// of either.
pub fn slices(r: &mut Rng) -> (Vec<Node>, u64) {
    let unit = r.pick(&[1, 3, 4096]);
    let count = 1 + r.below(5);
    let mut nodes = vec![Node { kind: RAM, size: unit * count, ..Node::default() }];
    for i in 0..count {
        let gap = if r.one_in(8) { unit } else { 0 };
        nodes.push(Node {
            kind: ALIAS,
            parent: count + 2,
            offset: unit * i + gap,
            size: unit - gap.min(unit - 1),
            priority: r.pick(&[0, 0, 200 + i]),
            target: 0,
            alias_offset: unit * i,
            ..Node::default()
        });
    }
    let mut size = unit * count + if r.one_in(2) { unit } else { 0 };
    nodes.push(Node { kind: CONTAINER, size, ..Node::default() });
    for _ in 0..r.below(10) {
        let below = nodes.len() as u64;
        if below + 2 > MOST_NODES {
            break;
        }
        twice(&mut nodes, size);
        size *= 2;
    }
    (nodes, unit * count)
}

/// A container that holds the last one, of this size, and behind it an alias of it.
fn twice(nodes: &mut Vec<Node>, size: u64) {
    let below = nodes.len() as u64 - 1;
    let parent = below + 3;
    nodes[below as usize].parent = parent;
    let (offset, target) = (size, below);
    nodes.push(Node { kind: ALIAS, parent, offset, size, target, ..Node::default() });
    nodes.push(Node { kind: CONTAINER, size: 2 * size, ..Node::default() });
}
