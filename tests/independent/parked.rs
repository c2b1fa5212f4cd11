//! Two children of equal priority at the end of their parent (document 02's Req 02). Kind: parked.
use crate::chance::*;
use crate::maps::*;
use crate::model::*;
use crate::report::Tally;

/// A field that means this priority at this kind: 0 or the number where the priority is the default.
fn field_for(r: &mut Rng, kind: u64, priority: i64) -> u64 {
    let default = if kind == MMIO { -1 } else { 0 };
    if priority == default && r.one_in(2) {
        return 0;
    }
    (priority + FIELD_OF_ZERO as i64) as u64
}

/// How two children of equal priority lie at the end of their parent.
#[derive(Clone, Copy, PartialEq)]
enum Meeting {
    /// They share addresses, none of them below the end.
    Beyond,
    /// One begins at the end, inside the other.
    AtTheEnd,
    /// The last address below the end is the only one that they share.
    LastAddress,
    /// They share addresses on both sides of the end.
    Across,
    /// They share addresses below it, all of them past the end of the parent's own parent.
    CutOff,
    /// They share addresses below it, all of them under a sibling of a higher priority.
    Hidden,
}

/// Each as often as it takes for half of the maps to be accepted.
const MEETINGS: &[Meeting] = &[
    Meeting::Beyond,
    Meeting::Beyond,
    Meeting::AtTheEnd,
    Meeting::AtTheEnd,
    Meeting::LastAddress,
    Meeting::Across,
    Meeting::CutOff,
    Meeting::Hidden,
];

/// Offsets and sizes of two children that meet so at the end of a parent; those of the last two meetings
/// lie in the parent's second half.
fn met(r: &mut Rng, meeting: Meeting, end: u64) -> [(u64, u64); 2] {
    let (before, past) = (1 + r.below(end / 2), 1 + r.below(end));
    match meeting {
        Meeting::Beyond => {
            let at = end + r.below(4);
            [(at, past), (at + r.below(past), 1 + r.below(end))]
        }
        Meeting::AtTheEnd => [(end - r.below(before + 1), before + past), (end, 1 + r.below(end))],
        Meeting::LastAddress => {
            let first = r.pick(&[end - before, end - 1]);
            if r.one_in(2) {
                [(first, end - first), (end - 1, past)]
            } else {
                [(first, end - first + past), (end - 1, 1)]
            }
        }
        Meeting::Across => {
            let second = end - 1 - r.below(before);
            [(end - before, before + past), (second, end - second + 1 + r.below(end))]
        }
        Meeting::CutOff | Meeting::Hidden => {
            let at = end / 2 + r.below(end - end / 2);
            [(at, 1 + r.below(end - at)), (end / 2, at - end / 2 + 1 + r.below(end))]
        }
    }
}

/// A card of the bus: offset and size, priority, and whether it is one of the two that meet.
type Card = ((u64, u64), i64, bool);

/// The number of the bus, whose cards are the nodes before it.
const BUS: u64 = 3;

/// A bus with two cards of equal priority at its end, and a third of another priority; the bus shows in the
/// root as a child of it, through an alias with an offset, or as both. With the answer that document 02's
/// Req 02 gives: the two cards where they clash.
pub fn parked(r: &mut Rng) -> (Vec<Node>, u64, Option<(u64, u64)>) {
    let meeting = r.pick(MEETINGS);
    let unit = r.pick(&[1, 1, 16, 4096, 1 << 40]);
    let end = unit * (4 + r.below(16));
    let cards = shuffled_cards(r, meeting, end);
    let meets: Vec<u64> = (0..).zip(&cards).filter(|(_, card)| card.2).map(|(i, _)| i).collect();
    let (mut nodes, memory_length) = card_nodes(r, cards);
    put_bus(r, &mut nodes, meeting, end, unit);
    put_root(r, &mut nodes, end, unit);
    let clash = !matches!(meeting, Meeting::Beyond | Meeting::AtTheEnd);
    (nodes, memory_length, clash.then_some((meets[0], meets[1])))
}

fn shuffled_cards(r: &mut Rng, meeting: Meeting, end: u64) -> Vec<Card> {
    let [first, second] = met(r, meeting, end);
    let level = r.pick(&[-127, -1, -1, 0, 0, 1]);
    let higher = 72 + r.below(56) as i64;
    let third = match meeting {
        Meeting::Hidden => ((r.below(end / 2), 2 * end), higher, false),
        _ => ((r.below(2 * end), 1 + r.below(end)), r.pick(&[-126, higher]), false),
    };
    let mut cards = vec![(first, level, true), (second, level, true), third];
    let turn = r.below(3) as usize;
    cards.rotate_left(turn);
    if r.one_in(2) {
        cards.swap(0, 1);
    }
    cards
}

/// The cards as nodes, and the bytes of memory that they take.
fn card_nodes(r: &mut Rng, cards: Vec<Card>) -> (Vec<Node>, u64) {
    let mut nodes = Vec::new();
    let mut cursor = 0;
    for (i, ((offset, size), priority, meets)) in cards.into_iter().enumerate() {
        let kind = if meets { r.pick(&[RAM, MMIO, CONTAINER]) } else { r.pick(&[RAM, MMIO]) };
        let priority = field_for(r, kind, priority);
        let mut card = Node { kind, parent: BUS + 1, offset, size, priority, ..Node::default() };
        match kind {
            RAM => {
                card.start = cursor;
                cursor += size;
            }
            MMIO => card.port = i as u64,
            _ => {}
        }
        nodes.push(card);
    }
    (nodes, cursor)
}

/// The bus; where it is cut off, also the bus above, which ends in the middle of this one. The last is what shows in the root.
fn put_bus(r: &mut Rng, nodes: &mut Vec<Node>, meeting: Meeting, end: u64, unit: u64) {
    let kind = r.pick(&[CONTAINER, CONTAINER, MMIO]);
    let port = if kind == MMIO { 9 } else { 0 };
    let mut bus = Node { kind, size: end, port, ..Node::default() };
    let at = unit * r.below(8);
    if meeting == Meeting::CutOff {
        bus.parent = BUS + 2;
        bus.offset = at;
        nodes.push(bus);
        bus = Node { kind: CONTAINER, size: at + end / 2, ..Node::default() };
    }
    nodes.push(bus);
}

/// The root, with the last node as a child, through an alias, or both.
fn put_root(r: &mut Rng, nodes: &mut Vec<Node>, end: u64, unit: u64) {
    let shown = nodes.len() as u64 - 1;
    let root = Node { kind: CONTAINER, size: unit * (1 + r.below(64)), ..Node::default() };
    let child = !r.one_in(3);
    let alias = !child || r.one_in(2);
    if alias {
        nodes.push(Node {
            kind: ALIAS,
            parent: shown + 3,
            offset: unit * r.below(32),
            size: 1 + r.below(2 * end),
            priority: 77,
            target: shown,
            alias_offset: r.below(end),
            ..Node::default()
        });
    }
    if child {
        nodes[shown as usize].parent = nodes.len() as u64 + 1;
        nodes[shown as usize].offset = unit * r.below(8);
    }
    nodes.push(root);
}

/// The answer is known from how the map was laid out, whatever the model says.
pub fn parked_case(r: &mut Rng, tally: &mut Tally) -> Result<(), String> {
    let (nodes, memory_length, clash) = parked(r);
    let map = ("map", guarded(r, &map_words(&nodes)), MAP);
    let mut state = state_of_map(map, ("result", garbage(r, RESULT), RESULT), memory_length);
    let number = check_both(tally, &mut state)?;
    let result = &state.words[1].1[..RESULT];
    let told = match clash {
        Some((a, b)) => number == OVERLAP && result == [a, b, 0],
        None => number == 0,
    };
    if !told {
        return Err(format!("{number} {result:?} where {clash:?} clash, of {nodes:#?}"));
    }
    let addresses = telling_addresses(r, &state);
    walks_both(tally, &mut state, addresses)?;
    state.words.insert(1, ("view", garbage(r, VIEW), VIEW));
    flatten_both(tally, &mut state).map(|_| ())
}
