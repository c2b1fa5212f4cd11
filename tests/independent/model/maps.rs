//! The tree: nodes, what a priority field means, and the map check (3, 4 and 6 to 11).
use super::records::*;
use super::refusals::*;

pub const CONTAINER: u64 = 0;
pub const RAM: u64 = 1;
pub const MMIO: u64 = 2;
pub const ALIAS: u64 = 3;
pub const MANAGED: u64 = 4;
pub const LAST_KIND: u64 = MANAGED;

/// Whether the bytes of a node of this kind lie in guest memory.
pub fn has_memory(kind: u64) -> bool {
    kind == RAM || kind == MANAGED
}

/// "Priority field or port over 255" is refused.
pub const MOST_FIELD: u64 = 255;
/// "Field f from 1 to 255 means f - 128."
pub const FIELD_OF_ZERO: u64 = 128;

/// One node as given: nothing is trusted, hence plain words. `parent` is parent + 1, 0 for none.
#[derive(Clone, Copy, PartialEq, Eq, Debug, Default)]
pub struct Node {
    pub kind: u64,
    pub parent: u64,
    pub offset: u64,
    pub size: u64,
    pub priority: u64,
    pub start: u64,
    pub port: u64,
    pub target: u64,
    pub alias_offset: u64,
}

impl Node {
    pub fn words(&self) -> [u64; REGION_WORDS] {
        [
            self.kind,
            self.parent,
            self.offset,
            self.size,
            self.priority,
            self.start,
            self.port,
            self.target,
            self.alias_offset,
        ]
    }

    pub fn of_words(w: &[u64]) -> Node {
        Node {
            kind: w[0],
            parent: w[1],
            offset: w[2],
            size: w[3],
            priority: w[4],
            start: w[5],
            port: w[6],
            target: w[7],
            alias_offset: w[8],
        }
    }
}

/// The words of a map; regions past the count are zeros.
pub fn map_words(nodes: &[Node]) -> Vec<u64> {
    let mut words = vec![0; MAP];
    words[WT_MAP_COUNT] = nodes.len() as u64;
    for (i, node) in nodes.iter().enumerate() {
        words[WT_MAP_REGION(i)..WT_MAP_REGION(i + 1)].copy_from_slice(&node.words());
    }
    words
}

/// "Priority field 0 means the default, priority 0; field f from 1 to 255 means f - 128." With document 02's
/// Req 07: "For MMIO nodes a priority field of 0 now means -1; all other kinds keep 0."
pub fn priority(node: &Node) -> i64 {
    match node.priority {
        0 if node.kind == MMIO => -1,
        0 => 0,
        field => field as i64 - FIELD_OF_ZERO as i64,
    }
}

/// The map check of a given map: 3, 4, then 6 to 11.
pub fn check_map(map: &[u64], memory_length: u64) -> Result<Vec<Node>, Refusal> {
    let count = map[WT_MAP_COUNT];
    if count == 0 || count > MOST_NODES {
        return refuse(COUNT, 0, 0);
    }
    let regions = map[WT_MAP_REGION(0)..].chunks(REGION_WORDS);
    let nodes: Vec<Node> = regions.take(count as usize).map(Node::of_words).collect();
    single(KIND, &nodes, |_, n| n.kind > LAST_KIND)?;
    check_nodes(&nodes, memory_length)?;
    Ok(nodes)
}

/// 6 to 11, each over the whole map.
pub fn check_nodes(nodes: &[Node], memory_length: u64) -> Result<(), Refusal> {
    single(FIELD, nodes, |_, n| bad_field(n))?;
    single(LINK, nodes, |i, n| bad_link(nodes, i, n))?;
    // "In 8, ends past the memory come before pairs."
    single(MEMORY, nodes, |_, n| has_memory(n.kind) && n.start + n.size > memory_length)?;
    pair(MEMORY, nodes, |a, b| {
        has_memory(a.kind) && has_memory(b.kind) && share(a.start, a.size, b.start, b.size)
    })?;
    pair(MANAGED_TWICE, nodes, |a, b| a.kind == MANAGED && b.kind == MANAGED)?;
    pair(PORT, nodes, |a, b| a.kind == MMIO && b.kind == MMIO && a.port == b.port)?;
    pair(OVERLAP, nodes, |a, b| siblings_clash(nodes, a, b))
}

/// "The lowest node at fault twice."
fn single(
    number: u64,
    nodes: &[Node],
    at_fault: impl Fn(u64, &Node) -> bool,
) -> Result<(), Refusal> {
    for (i, node) in nodes.iter().enumerate() {
        if at_fault(i as u64, node) {
            return refuse(number, i as u64, i as u64);
        }
    }
    Ok(())
}

/// "The first clashing pair in ascending order, lower number first."
fn pair(number: u64, nodes: &[Node], clash: impl Fn(&Node, &Node) -> bool) -> Result<(), Refusal> {
    for (i, a) in nodes.iter().enumerate() {
        for (j, b) in nodes.iter().enumerate() {
            if i < j && clash(a, b) {
                return refuse(number, i as u64, j as u64);
            }
        }
    }
    Ok(())
}

/// 6: a field out of its bounds, or a field that the kind lacks and that is not 0.
fn bad_field(n: &Node) -> bool {
    let lacking: &[u64] = match n.kind {
        CONTAINER => &[n.start, n.port, n.target, n.alias_offset],
        MMIO => &[n.start, n.target, n.alias_offset],
        ALIAS => &[n.start, n.port],
        kind if has_memory(kind) => &[n.port, n.target, n.alias_offset],
        kind => unreachable!("4 refuses kind {kind} before 6"),
    };
    n.offset > LIMIT
        || n.alias_offset > LIMIT
        || n.start > LIMIT
        || n.size == 0
        || n.size > LIMIT
        || n.priority > MOST_FIELD
        || n.port > MOST_FIELD
        || lacking.iter().any(|&field| field != 0)
}

/// 7: a bad parent puts its child at fault.
fn bad_link(nodes: &[Node], i: u64, n: &Node) -> bool {
    let count = nodes.len() as u64;
    let bad_parent = n.parent != 0 && {
        let parent = n.parent - 1;
        parent <= i
            || parent >= count
            || nodes[parent as usize].kind == ALIAS
            || nodes[parent as usize].kind == MANAGED
    };
    let bad_target = n.kind == ALIAS && n.target >= i;
    let bad_root = i == count - 1 && (n.kind != CONTAINER || n.parent != 0 || n.offset != 0);
    bad_parent || bad_target || bad_root
}

/// 11: two children of one parent, of equal priority, that share an address below its size.
pub fn siblings_clash(nodes: &[Node], a: &Node, b: &Node) -> bool {
    a.parent != 0
        && a.parent == b.parent
        && priority(a) == priority(b)
        && clash_below(nodes[a.parent as usize - 1].size, a, b)
}

/// Whether two children share an address below their parent's size (document 02, Req 02).
pub fn clash_below(parent_size: u64, a: &Node, b: &Node) -> bool {
    let end = (a.offset + a.size).min(b.offset + b.size).min(parent_size);
    a.offset.max(b.offset) < end
}

/// Whether [a, a + a_size) and [b, b + b_size) have a number in common.
fn share(a: u64, a_size: u64, b: u64, b_size: u64) -> bool {
    a.max(b) < (a + a_size).min(b + b_size)
}
