//! One function for each call of the header, on slices of words. A wrong length is 27 and writes nothing.
use super::*;

/// What a call returns when it refuses nothing.
const DONE: u64 = 0;
/// A result that says nothing, and the first word of one that says something.
const NOTHING: [u64; RESULT] = [0; RESULT];
const FOUND: u64 = 1;
const TO_MEMORY: u64 = 1;
const TO_PORT: u64 = 2;

fn say(result: &mut [u64], words: [u64; RESULT]) {
    result.copy_from_slice(&words);
}

/// Writes a refusal's place and returns its number.
fn refused(refusal: Refusal, result: &mut [u64]) -> u64 {
    say(result, [refusal.place.0, refusal.place.1, 0]);
    refusal.number
}

pub fn read_sheet(sheet: &[u8], memory_length: u64, map: &mut [u64], result: &mut [u64]) -> u64 {
    if map.len() != MAP || result.len() != RESULT {
        return RECORD;
    }
    match super::read_sheet(sheet, memory_length) {
        Err(refusal) => refused(refusal, result),
        Ok(nodes) => {
            map.copy_from_slice(&map_words(&nodes));
            say(result, NOTHING);
            DONE
        }
    }
}

pub fn check_map(map: &[u64], memory_length: u64, result: &mut [u64]) -> u64 {
    if map.len() != MAP || result.len() != RESULT {
        return RECORD;
    }
    match super::check_map(map, memory_length) {
        Err(refusal) => refused(refusal, result),
        Ok(_) => {
            say(result, NOTHING);
            DONE
        }
    }
}

pub fn walk(map: &[u64], memory_length: u64, address: u64, result: &mut [u64]) -> u64 {
    if map.len() != MAP || result.len() != RESULT {
        return RECORD;
    }
    match super::check_map(map, memory_length) {
        Err(refusal) => refused(refusal, result),
        Ok(nodes) => {
            let tree = Tree::new(nodes);
            match tree.walk(tree.root(), address) {
                Some((node, offset)) => say(result, [FOUND, node, offset]),
                None => say(result, NOTHING),
            }
            DONE
        }
    }
}

pub fn flatten(map: &[u64], memory_length: u64, view: &mut [u64], result: &mut [u64]) -> u64 {
    if map.len() != MAP || view.len() != VIEW || result.len() != RESULT {
        return RECORD;
    }
    match super::check_map(map, memory_length) {
        Err(refusal) => refused(refusal, result),
        Ok(nodes) => {
            say(result, NOTHING);
            let runs = Tree::new(nodes).runs();
            if runs.len() as u64 > MOST_RUNS {
                return RUNS;
            }
            view.copy_from_slice(&view_words(&runs));
            DONE
        }
    }
}

#[allow(clippy::too_many_arguments)]
pub fn set_up(
    map: &[u64],
    memory_length: u64,
    block_size: u64,
    addr: u64,
    usable: u64,
    requested: u64,
    device: &mut [u64],
    result: &mut [u64],
) -> u64 {
    if map.len() != MAP || device.len() != DEVICE || result.len() != RESULT {
        return RECORD;
    }
    match super::check_map(map, memory_length) {
        Err(refusal) => refused(refusal, result),
        Ok(nodes) => {
            say(result, NOTHING);
            let made = nodes
                .iter()
                .find(|n| n.kind == MANAGED)
                .and_then(|n| Device::fresh(block_size, addr, n.size, usable, requested));
            match made {
                None => SETUP,
                Some(fresh) => {
                    device.copy_from_slice(&fresh.words());
                    DONE
                }
            }
        }
    }
}

/// Checks the record, does `act` on it, and writes it back where `act` did not refuse.
fn on_device(device: &mut [u64], act: impl FnOnce(&mut Device) -> Result<(), u64>) -> u64 {
    if device.len() != DEVICE {
        return RECORD;
    }
    let Some(mut record) = Device::of_words(device) else { return RECORD };
    match act(&mut record) {
        Err(number) => number,
        Ok(()) => {
            device.copy_from_slice(&record.words());
            DONE
        }
    }
}

pub fn set_requested_size(device: &mut [u64], size: u64) -> u64 {
    on_device(device, |d| d.set_requested_size(size))
}

pub fn pin(device: &mut [u64], block: u64) -> u64 {
    on_device(device, |d| d.pin(block))
}

pub fn unpin(device: &mut [u64], block: u64) -> u64 {
    on_device(device, |d| d.unpin(block))
}

pub fn system_reset(device: &mut [u64]) -> u64 {
    on_device(device, |d| {
        d.system_reset();
        Ok(())
    })
}

pub fn configuration(device: &[u64], bytes: &mut [u8]) -> u64 {
    if device.len() != DEVICE || bytes.len() != CONFIGURATION {
        return RECORD;
    }
    match Device::of_words(device) {
        None => RECORD,
        Some(d) => {
            bytes.copy_from_slice(&d.configuration());
            DONE
        }
    }
}

pub fn request(device: &mut [u64], request: &[u8], response: &mut [u8]) -> u64 {
    let Ok(request) = <&[u8; REQUEST]>::try_from(request) else { return RECORD };
    if response.len() != RESPONSE {
        return RECORD;
    }
    on_device(device, |d| {
        response.copy_from_slice(&d.request(request));
        Ok(())
    })
}

pub fn block_of_byte(device: &[u64], offset: u64, result: &mut [u64]) -> u64 {
    if device.len() != DEVICE || result.len() != RESULT {
        return RECORD;
    }
    let Some(d) = Device::of_words(device) else {
        say(result, NOTHING);
        return RECORD;
    };
    match d.block_of_byte(offset) {
        Some(block) => say(result, [FOUND, block, 0]),
        None => say(result, NOTHING),
    }
    DONE
}

/// Given no device, so that 27 checks no region.
pub fn look_up(view: &[u64], memory_length: u64, address: u64, result: &mut [u64]) -> u64 {
    if view.len() != VIEW || result.len() != RESULT {
        return RECORD;
    }
    let Some(runs) = check_view(view, memory_length, None) else {
        say(result, NOTHING);
        return RECORD;
    };
    match find(&runs, address) {
        Some(run) => say(result, [FOUND, run.node, run.offset_at(address)]),
        None => say(result, NOTHING),
    }
    DONE
}

/// The checked view and device of a routing call, or None (27).
fn routing(view: &[u64], memory_length: u64, device: &[u64]) -> Option<(Vec<Run>, Option<Device>)> {
    let device = if device.is_empty() { None } else { Some(Device::of_words(device)?) };
    let runs = check_view(view, memory_length, device.as_ref().map(|d| d.region))?;
    Some((runs, device))
}

fn routed(route: Result<Route, u64>) -> (u64, [u64; RESULT]) {
    match route {
        Err(number) => (number, NOTHING),
        Ok(Route::Memory(place)) => (DONE, [TO_MEMORY, place, 0]),
        Ok(Route::Port(port, offset)) => (DONE, [TO_PORT, port, offset]),
    }
}

pub fn route(
    view: &[u64],
    memory_length: u64,
    device: &[u64],
    address: u64,
    width: u64,
    result: &mut [u64],
) -> u64 {
    if view.len() != VIEW
        || (device.len() != DEVICE && !device.is_empty())
        || result.len() != RESULT
    {
        return RECORD;
    }
    let (number, words) = match routing(view, memory_length, device) {
        None => (RECORD, NOTHING),
        Some((runs, device)) => routed(super::route(&runs, device.as_ref(), address, width)),
    };
    say(result, words);
    number
}

/// Each access as `route` answers it: its number and its result, four words.
pub fn route_all(
    view: &[u64],
    memory_length: u64,
    device: &[u64],
    accesses: &[u64],
    answers: &mut [u64],
) -> u64 {
    if view.len() != VIEW
        || (device.len() != DEVICE && !device.is_empty())
        || accesses.len() % ACCESS != 0
        || answers.len() != accesses.len() / ACCESS * ANSWER
    {
        return RECORD;
    }
    let Some((runs, device)) = routing(view, memory_length, device) else { return RECORD };
    for (access, answer) in accesses.chunks(ACCESS).zip(answers.chunks_mut(ANSWER)) {
        let (number, words) = routed(super::route(&runs, device.as_ref(), access[0], access[1]));
        answer[0] = number;
        answer[1..].copy_from_slice(&words);
    }
    DONE
}

pub fn make_queue(
    size: u64,
    descriptors: u64,
    available: u64,
    used: u64,
    queue: &mut [u64],
) -> u64 {
    if queue.len() != QUEUE {
        return RECORD;
    }
    match Queue::make(size, descriptors, available, used) {
        Err(number) => number,
        Ok(made) => {
            queue.copy_from_slice(&made.words());
            DONE
        }
    }
}

pub fn reset_queue(queue: &mut [u64]) -> u64 {
    if queue.len() != QUEUE {
        return RECORD;
    }
    let Some(mut record) = Queue::of_words(queue) else { return RECORD };
    record.reset();
    queue.copy_from_slice(&record.words());
    DONE
}

pub fn step(
    view: &[u64],
    device: &mut [u64],
    queue: &mut [u64],
    memory: &mut [u8],
    result: &mut [u64],
) -> u64 {
    on_records(view, device, queue, memory, result, |runs, d, q, memory| {
        match super::step(runs, d, q, memory) {
            Outcome::Stopped(number) => (number, NOTHING),
            Outcome::Idle => (DONE, NOTHING),
            Outcome::Served { notify } => (DONE, [1, notify.into(), 0]),
        }
    })
}

pub fn run(
    view: &[u64],
    device: &mut [u64],
    queue: &mut [u64],
    memory: &mut [u8],
    k: u64,
    result: &mut [u64],
) -> u64 {
    on_records(view, device, queue, memory, result, |runs, d, q, memory| {
        let (served, notified, end) = super::run(runs, d, q, memory, k);
        match end {
            End::AllDone => (DONE, [served, notified.into(), 0]),
            End::Idle => (DONE, [served, notified.into(), 1]),
            End::Stopped(number) => (number, [served, notified.into(), 0]),
        }
    })
}

/// Whether a queue's numbers fit the fields that they stand for: size and indices 16 bits, the stop 8.
fn queue_fits(queue: &[u64]) -> bool {
    let short = [WT_QUEUE_SIZE, WT_QUEUE_NEXT_AVAILABLE, WT_QUEUE_NEXT_USED];
    short.iter().all(|&at| queue[at] <= u64::from(u16::MAX))
        && queue[WT_QUEUE_STOP] <= u64::from(u8::MAX)
}

fn on_records(
    view: &[u64],
    device: &mut [u64],
    queue: &mut [u64],
    memory: &mut [u8],
    result: &mut [u64],
    act: impl FnOnce(&[Run], &mut Device, &mut Queue, &mut [u8]) -> (u64, [u64; RESULT]),
) -> u64 {
    if view.len() != VIEW
        || device.len() != DEVICE
        || queue.len() != QUEUE
        || result.len() != RESULT
        || !queue_fits(queue)
    {
        return RECORD;
    }
    let checked = Device::of_words(device).and_then(|d| {
        let runs = check_view(view, memory.len() as u64, Some(d.region))?;
        let q = Queue::of_words(queue)?;
        Some((runs, d, q))
    });
    let Some((runs, mut d, mut q)) = checked else {
        say(result, NOTHING);
        return RECORD;
    };
    let (number, words) = act(&runs, &mut d, &mut q, memory);
    device.copy_from_slice(&d.words());
    queue.copy_from_slice(&q.words());
    say(result, words);
    number
}
