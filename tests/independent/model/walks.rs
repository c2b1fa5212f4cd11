//! The walk through the tree, and all runs of a map.
use super::maps::*;
use super::views::Run;

/// An accepted map with, for each node, its children in descending priority.
pub struct Tree {
    pub nodes: Vec<Node>,
    children: Vec<Vec<usize>>,
}

impl Tree {
    pub fn new(nodes: Vec<Node>) -> Tree {
        let mut children = vec![Vec::new(); nodes.len()];
        for (i, node) in nodes.iter().enumerate() {
            if node.parent != 0 {
                children[node.parent as usize - 1].push(i);
            }
        }
        for list in &mut children {
            list.sort_by_key(|&child| -priority(&nodes[child]));
        }
        Tree { nodes, children }
    }

    pub fn root(&self) -> usize {
        self.nodes.len() - 1
    }

    /// The walk at a node, with an address inside it: the node that answers, and the offset in it.
    pub fn walk(&self, node: usize, address: u64) -> Option<(u64, u64)> {
        let n = &self.nodes[node];
        if address >= n.size {
            return None;
        }
        if n.kind == ALIAS {
            return self.walk(n.target as usize, address + n.alias_offset);
        }
        for &child in &self.children[node] {
            let c = &self.nodes[child];
            if c.offset <= address && address < c.offset + c.size {
                let found = self.walk(child, address - c.offset);
                if found.is_some() {
                    return found;
                }
            }
        }
        if n.kind == CONTAINER {
            None
        } else {
            Some((node as u64, address))
        }
    }

    /// All runs, however many. Made as QEMU renders a flat view: every region draws itself on a canvas
    /// of addresses, the ones that win first, and each only where nothing is drawn yet. Then pieces
    /// that go on with the same node at the next offset are joined.
    pub fn runs(&self) -> Vec<Run> {
        let root = self.root();
        let mut canvas = Canvas::new();
        self.render(root, 0, 0, self.nodes[root].size.into(), &mut canvas);
        let mut runs: Vec<Run> = Vec::new();
        for (&first, &(last, node, offset)) in &canvas {
            if let Some(before) = runs.last_mut() {
                if before.last + 1 == first
                    && before.node == node
                    && before.offset + (first - before.first) == offset
                {
                    before.last = last;
                    continue;
                }
            }
            let n = &self.nodes[node as usize];
            let base = match n.kind {
                MMIO => n.port,
                kind if has_memory(kind) => n.start,
                kind => unreachable!("no address leads to a node of kind {kind}"),
            };
            runs.push(Run { first, last, node, offset, kind: n.kind, base });
        }
        runs
    }

    /// Draws `node`, whose offset 0 lies at guest address `zero` (perhaps below 0), within [from, to).
    fn render(&self, node: usize, zero: i128, from: i128, to: i128, canvas: &mut Canvas) {
        let n = &self.nodes[node];
        let from = from.max(zero);
        let to = to.min(zero + i128::from(n.size));
        if from >= to {
            return;
        }
        if n.kind == ALIAS {
            self.render(n.target as usize, zero - i128::from(n.alias_offset), from, to, canvas);
            return;
        }
        for &child in &self.children[node] {
            let offset = i128::from(self.nodes[child].offset);
            self.render(child, zero + offset, from, to, canvas);
        }
        if n.kind != CONTAINER {
            for (first, last) in undrawn(canvas, from as u64, to as u64 - 1) {
                let offset = (i128::from(first) - zero) as u64;
                canvas.insert(first, (last, node as u64, offset));
            }
        }
    }
}

/// Pieces drawn so far: first address to (last address, node, offset).
type Canvas = std::collections::BTreeMap<u64, (u64, u64, u64)>;

/// The parts of [first, last] on which nothing is drawn.
fn undrawn(canvas: &Canvas, first: u64, last: u64) -> Vec<(u64, u64)> {
    let mut parts = Vec::new();
    let mut next = first;
    if let Some((_, &(before_last, _, _))) = canvas.range(..=first).next_back() {
        next = next.max(before_last + 1);
    }
    if next <= last {
        for (&piece_first, &(piece_last, _, _)) in canvas.range(next..=last) {
            if next < piece_first {
                parts.push((next, piece_first - 1));
            }
            next = piece_last + 1;
        }
        if next <= last {
            parts.push((next, last));
        }
    }
    parts
}
