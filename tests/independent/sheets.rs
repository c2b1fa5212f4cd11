//! Sheets: a map's numbers as bytes, and bytes that are damaged. Kind: sheet.
use crate::chance::*;
use crate::compare::*;
use crate::ffi;
use crate::maps::*;
use crate::model::*;
use crate::report::Tally;

/// The numbers that eight groups can say lie below this.
const NUMBERS: u64 = 1 << (GROUP_BITS * MOST_GROUPS);

/// A number in groups; where `odd`, seldom spoilt.
fn put_number(r: &mut Rng, bytes: &mut Vec<u8>, value: u64, odd: bool) {
    let mut rest = value;
    while rest >= u64::from(MORE) {
        bytes.push(rest as u8 | MORE);
        rest >>= GROUP_BITS;
    }
    bytes.push(rest as u8);
    if odd && r.one_in(60) {
        spoil_number(r, bytes);
    }
}

/// Spoils the number that ends here.
fn spoil_number(r: &mut Rng, bytes: &mut Vec<u8>) {
    let last = bytes.len() - 1;
    match r.below(4) {
        0 => {
            // Not the shortest form.
            bytes[last] |= MORE;
            bytes.push(0);
        }
        1 => {
            // Eight groups and the high bit in the eighth, or seven and then the end.
            bytes[last] |= MORE;
            for _ in 0..5 + r.below(4) {
                bytes.push(MORE | r.next() as u8);
            }
            bytes.push(r.below(3) as u8);
        }
        2 => bytes.extend([0xff, 0xff, 0xff, 0xff, 0xff, 0xff, 0xff, 0x7f]),
        _ => bytes.extend([0x80, 0x80, 0x80, 0x80, 0x80, 0x80, 0x80, 0x01]),
    }
}

fn encode(r: &mut Rng, nodes: &[Node], odd: bool) -> Vec<u8> {
    let mut bytes = Vec::new();
    put_number(r, &mut bytes, nodes.len() as u64, odd);
    for n in nodes {
        let mut fields = vec![n.kind, n.parent, n.offset, n.size, n.priority];
        match n.kind {
            kind if has_memory(kind) => fields.push(n.start),
            MMIO => fields.push(n.port),
            ALIAS => fields.extend([n.target, n.alias_offset]),
            _ => {}
        }
        for field in fields {
            put_number(r, &mut bytes, field % NUMBERS, odd);
        }
    }
    bytes
}

/// Changes, cuts or lengthens a sheet in a place or two.
fn damage_bytes(r: &mut Rng, bytes: &mut Vec<u8>) {
    for _ in 0..1 + r.below(2) {
        let at = r.below(bytes.len() as u64) as usize;
        match r.below(7) {
            0 => bytes.truncate(at),
            1 => bytes[at] ^= 1 << r.below(8),
            2 => bytes[at] = r.pick(&[0, 1, 4, 5, 32, 33, 127, 128, 255]),
            3 => bytes.insert(at, r.pick(&[0, 1, 127, 128, 255])),
            4 => {
                bytes.remove(at);
            }
            5 => {
                let more = 1 + r.below(4) as usize;
                bytes.extend(r.bytes(more));
            }
            _ => bytes[0] = r.pick(&[0, 1, 31, 32, 33, 127]),
        }
        if bytes.is_empty() {
            break;
        }
    }
}

fn random_sheet(r: &mut Rng) -> (Vec<u8>, u64) {
    if r.one_in(30) {
        let length = r.below(30) as usize;
        let mut bytes = r.bytes(length);
        if r.one_in(2) {
            bytes.iter_mut().for_each(|b| *b &= 7);
        }
        return (bytes, edge(r));
    }
    let (mut nodes, memory_length) = random_map(r);
    if r.one_in(3) {
        damage_nodes(r, &mut nodes);
    }
    let odd = r.one_in(6);
    let mut bytes = encode(r, &nodes, odd);
    if r.one_in(5) {
        damage_bytes(r, &mut bytes);
    }
    (bytes, memory_length)
}

/// Reads a sheet; then checks what was read, as a given map.
pub fn sheet_case(r: &mut Rng, tally: &mut Tally) -> Result<(), String> {
    let (bytes, memory_length) = random_sheet(r);
    let map = ("map", garbage(r, MAP), length(r, MAP));
    let result = ("result", garbage(r, RESULT), length(r, RESULT));
    let mut state = state_of_map(map, result, memory_length);
    state.bytes = vec![("sheet", bytes.clone(), bytes.len())];
    let calls = [ffi::read_sheet, calls::read_sheet];
    let number = both(tally, "wt_read_sheet", &mut state, calls, |s, read_sheet| {
        let n = s.n(0);
        let (map, result) = w2_mut(&mut s.words, 0, 1);
        read_sheet(passed(&s.bytes[0]), n, map, result)
    })?;
    if number == 0 && check_both(tally, &mut state)? != 0 {
        return Err("a map just read is not accepted".into());
    }
    Ok(())
}
