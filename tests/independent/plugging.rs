//! The laws for plugging (document 02's Req 09): a PLUG in two parts, and an UNPLUG of what a PLUG plugged. Kind: plugging.
use crate::chance::*;
use crate::compare::*;
use crate::devices::*;
use crate::model::*;
use crate::report::Tally;
use crate::requests::*;

/// What the laws must have met: how the parts of a PLUG in two were answered, an address that
/// passes 2^64, with the part behind it acknowledged by itself, and a PLUG that an UNPLUG takes back.
pub const LAWS: [&str; 9] = [
    "ACK ACK",
    "ACK NACK",
    "ACK ERROR",
    "NACK",
    "ERROR",
    "27",
    "past 2^64",
    "past 2^64, then ACK",
    "undone",
];
/// The places in LAWS of those that are not ways of the answers.
const PAST_THE_END: usize = 6;
const PAST_THE_END_THEN_ACK: usize = 7;
const UNDONE: usize = 8;

/// Answers, as `ask_both` gives them.
const ACKNOWLEDGED: u64 = ACK as u64;
const REFUSED: u64 = NACK as u64;
const WRONG: u64 = ERROR as u64;

/// One request for a run of blocks, with any padding: the response's type, or 27.
fn ask_both(
    r: &mut Rng,
    tally: &mut Tally,
    state: &mut State,
    kind: u16,
    addr: u64,
    count: u64,
) -> Result<u64, String> {
    let request = &mut state.bytes[0].1;
    *request = r.bytes(request.len());
    put_request(request, kind, addr, count as u16);
    let number = request_both(tally, state)?;
    let response = &state.bytes[1].1[WT_RESPONSE_TYPE..];
    Ok(if number == 0 { u16::from_le_bytes([response[0], response[1]]).into() } else { number })
}

/// Two runs of blocks, the second behind the first: an address, and how many blocks each has. Mostly
/// they are free and usable, or one block more than is; seldom elsewhere, or so that the second one's
/// address passes 2^64 and is a block of the device again.
fn neighbours(r: &mut Rng, d: &Device) -> (u64, u64, u64) {
    let usable = d.usable / d.block_size;
    let free = |b: u64| b < usable && !d.plugged[b as usize];
    let from = r.below(usable + 1);
    let block = (from..usable).find(|&b| free(b)).unwrap_or(from);
    let room = (block..).take_while(|&b| free(b)).count() as u64;
    let total = match r.below(8) {
        0 => r.pick(&[2, 3, MOST_BLOCKS, MOST_BLOCKS + 1, u64::from(u16::MAX)]),
        1 => room + 1,
        2 => room,
        _ => 2 + r.below(room.saturating_sub(1)),
    }
    .max(2);
    let n = 1 + if r.one_in(3) { r.below(2).min(total - 2) } else { r.below(total - 1) };
    let addr = match r.below(16) {
        0 => edge(r),
        1 => inside_block(r, d, block),
        2 | 3 => (d.addr + d.block_size * block).wrapping_sub(d.block_size * n),
        _ => d.addr + d.block_size * block,
    };
    (addr, n, total - n)
}

/// A device with free blocks between plugged ones, or any.
fn device_with_room(r: &mut Rng) -> Device {
    let mut d = random_device(r);
    if r.one_in(2) {
        let usable = (d.usable / d.block_size) as usize;
        let from = r.below(usable as u64) as usize;
        let to = usable.min(from + r.pick(&[2, 3, 64, 130, MOST_BLOCKS as usize]));
        d.plugged[from..to].fill(false);
        d.pinned[from..to].fill(false);
    }
    d
}

/// A device, seldom damaged, and two neighbouring runs of blocks for it.
fn plugging_start(r: &mut Rng) -> (State, u64, u64, u64) {
    let mut d = device_with_room(r);
    let (addr, n, m) = neighbours(r, &d);
    if r.one_in(2) {
        // Room for all of them, or for all but one, or for the first part alone.
        let asked = r.pick(&[n + m, n + m - 1, n]);
        d.requested = d.usable.min(d.plugged_size() + d.block_size * asked);
    }
    let words = given_device(r, &d, 8);
    let state = State {
        words: vec![("device", guarded(r, &words), DEVICE)],
        bytes: vec![
            ("request", r.bytes(REQUEST_ROOM), REQUEST),
            ("response", r.bytes(RESPONSE_ROOM), RESPONSE),
        ],
        numbers: vec![("address", addr), ("first blocks", n), ("blocks behind", m)],
    };
    (state, addr, n, m)
}

/// Which way of LAWS two answers are.
fn way_of(first: u64, second: u64) -> Option<usize> {
    match (first, second) {
        (ACKNOWLEDGED, ACKNOWLEDGED) => Some(0),
        (ACKNOWLEDGED, REFUSED) => Some(1),
        (ACKNOWLEDGED, WRONG) => Some(2),
        (REFUSED, _) => Some(3),
        (WRONG, _) => Some(4),
        (RECORD, RECORD) => Some(5),
        _ => None,
    }
}

/// From one state: a PLUG in two parts is acknowledged exactly when one of all the blocks is, and leaves
/// the same device; and an UNPLUG takes an acknowledged PLUG back. That holds whatever the model says.
pub fn plugging_case(r: &mut Rng, tally: &mut Tally) -> Result<(), String> {
    let (start, addr, n, m) = plugging_start(r);
    let law = |holds: bool, what: String| {
        holds.then_some(()).ok_or_else(|| format!("{what}\n--- input\n{}", start.show(None)))
    };
    let block_size = start.words[0].1[WT_DEVICE_BLOCK_SIZE];
    let behind = addr.wrapping_add(n.wrapping_mul(block_size));
    let wraps = u128::from(addr) + u128::from(n) * u128::from(block_size) >= 1 << 64;
    let (mut two, mut one, mut back) = (start.clone(), start.clone(), start.clone());

    let first = ask_both(r, tally, &mut two, PLUG, addr, n)?;
    let second = ask_both(r, tally, &mut two, PLUG, behind, m)?;
    let whole = ask_both(r, tally, &mut one, PLUG, addr, n + m)?;
    let answers = format!("{first} and {second} for the parts, {whole} for the whole");
    let both_parts = first == ACKNOWLEDGED && second == ACKNOWLEDGED;
    let acknowledged = whole == ACKNOWLEDGED;
    law(both_parts == acknowledged, answers.clone())?;
    law(
        !acknowledged || two.words == one.words,
        format!("another device in two parts: {answers}"),
    )?;
    law(!wraps || (first != ACKNOWLEDGED && !acknowledged), format!("past 2^64: {answers}"))?;
    let undone = ask_both(r, tally, &mut back, PLUG, addr, n)? == ACKNOWLEDGED;
    if undone {
        let answer = ask_both(r, tally, &mut back, UNPLUG, addr, n)?;
        law(answer == ACKNOWLEDGED, format!("UNPLUG answers {answer}"))?;
        law(back.words == start.words, "UNPLUG gives another device back".to_string())?;
    }
    let Some(way) = way_of(first, second) else { return law(false, answers) };
    let met = [
        (way, true),
        (PAST_THE_END, wraps),
        (PAST_THE_END_THEN_ACK, wraps && second == ACKNOWLEDGED),
        (UNDONE, undone),
    ];
    for (index, _) in met.iter().filter(|(_, was)| *was) {
        tally.laws[*index] += 1;
    }
    Ok(())
}
