//! The queue step, in the paper's order: all reads, then the request, then all writes. And a run of k steps.
use super::devices::Device;
use super::queues::*;
use super::reach::*;
use super::records::*;
use super::refusals::*;
use super::views::Run;

/// Flags of a descriptor.
pub const NEXT: u16 = 1;
pub const WRITE: u16 = 2;
pub const INDIRECT: u16 = 4;
/// "Notify unless available flags bit 0."
pub const NO_NOTIFY: u16 = 1;

/// "A k over 256 counts as 256."
pub const MOST_STEPS: u64 = 256;
/// "The distance taken modulo 65,536."
pub const INDICES: u64 = 1 << 16;

#[derive(Clone, Copy, PartialEq, Eq, Debug)]
pub enum Outcome {
    Stopped(u64),
    Idle,
    Served { notify: bool },
}

/// How a run of steps ends.
#[derive(Clone, Copy, PartialEq, Eq, Debug)]
pub enum End {
    AllDone,
    Idle,
    Stopped(u64),
}

/// One descriptor of a chain.
#[derive(Clone, Copy)]
struct Element {
    address: u64,
    length: u64,
    flags: u16,
    next: u64,
}

impl Element {
    fn has(&self, flag: u16) -> bool {
        self.flags & flag != 0
    }
}

/// What the reads of a step come to.
struct Taken {
    head: u16,
    notify: bool,
    request: [u8; REQUEST],
    response_places: Vec<usize>,
    element_places: Vec<usize>,
    index_places: Vec<usize>,
}

/// All that a step reads.
struct Reads<'a> {
    runs: &'a [Run],
    device: &'a Device,
    queue: &'a Queue,
    memory: &'a [u8],
}

impl Reads<'_> {
    /// The places of bytes of a queue area, or 17 where one is not reachable.
    fn area(&self, address: u64, count: u64) -> Result<Vec<usize>, u64> {
        (0..count).map(|i| reach(self.runs, self.device, address + i).ok_or(RING)).collect()
    }

    fn area_bytes(&self, address: u64, count: u64) -> Result<Vec<u8>, u64> {
        Ok(self.area(address, count)?.iter().map(|&place| self.memory[place]).collect())
    }

    /// The available ring's flags and idx.
    fn notices(&self) -> Result<(u16, u16), u64> {
        let bytes = self.area_bytes(self.queue.available, RING_ENTRIES)?;
        Ok((le16(&bytes), le16(&bytes[RING_IDX as usize..])))
    }

    /// The ring entry at seen mod n.
    fn head(&self) -> Result<u16, u64> {
        let entry = self.queue.available_entry(self.queue.next_available);
        let head = le16(&self.area_bytes(entry, AVAILABLE_ENTRY)?);
        if u64::from(head) >= self.queue.size {
            return Err(HEAD);
        }
        Ok(head)
    }

    fn descriptor(&self, number: u64) -> Result<Element, u64> {
        let bytes = self.area_bytes(self.queue.descriptors + DESCRIPTOR * number, DESCRIPTOR)?;
        Ok(Element {
            address: u64::from_le_bytes(bytes[0..8].try_into().unwrap()),
            length: u64::from(u32::from_le_bytes(bytes[8..12].try_into().unwrap())),
            flags: le16(&bytes[12..]),
            next: u64::from(le16(&bytes[14..])),
        })
    }

    /// "Per descriptor 17, INDIRECT, readable late, 21, next or length."
    fn chain(&self, head: u16) -> Result<Vec<Element>, u64> {
        let n = self.queue.size;
        let mut elements: Vec<Element> = Vec::new();
        let mut number = u64::from(head);
        loop {
            let element = self.descriptor(number)?;
            if element.has(INDIRECT) {
                return Err(CHAIN);
            }
            if !element.has(WRITE) && elements.iter().any(|earlier| earlier.has(WRITE)) {
                return Err(CHAIN);
            }
            if !all_reachable(self.runs, self.device, element.address, element.length) {
                return Err(REACH);
            }
            elements.push(element);
            if !element.has(NEXT) {
                return Ok(elements);
            }
            if element.next >= n || elements.len() as u64 == n {
                return Err(CHAIN);
            }
            number = element.next;
        }
    }

    /// The places of the first so many readable or writable bytes, or 22 where there are fewer.
    fn first_places(
        &self,
        elements: &[Element],
        writable: bool,
        count: usize,
    ) -> Result<Vec<usize>, u64> {
        let wanted = elements.iter().filter(|e| e.has(WRITE) == writable);
        if wanted.clone().map(|e| e.length).sum::<u64>() < count as u64 {
            return Err(SHAPE);
        }
        let addresses = wanted.flat_map(|e| (0..e.length).map(move |i| e.address + i));
        let place = |a| reach(self.runs, self.device, a).expect("every byte was reachable");
        Ok(addresses.take(count).map(place).collect())
    }

    /// All reads of a step; Ok(None) is idle, Err the number that stops the queue.
    fn take(&self) -> Result<Option<Taken>, u64> {
        let (flags, idx) = self.notices()?;
        let seen = self.queue.next_available;
        if idx == seen {
            return Ok(None);
        }
        let distance = (INDICES + u64::from(idx) - u64::from(seen)) % INDICES;
        if distance > self.queue.size {
            return Err(AHEAD);
        }
        let head = self.head()?;
        let elements = self.chain(head)?;
        let request_places = self.first_places(&elements, false, REQUEST)?;
        let response_places = self.first_places(&elements, true, RESPONSE)?;
        let element_places = self.area(self.queue.used_entry(self.queue.next_used), USED_ENTRY)?;
        let index_places = self.area(self.queue.used + RING_IDX, RING_ENTRIES - RING_IDX)?;
        let mut request = [0; REQUEST];
        for (byte, &place) in request.iter_mut().zip(&request_places) {
            *byte = self.memory[place];
        }
        let notify = flags & NO_NOTIFY == 0;
        Ok(Some(Taken { head, notify, request, response_places, element_places, index_places }))
    }
}

fn le16(bytes: &[u8]) -> u16 {
    u16::from_le_bytes([bytes[0], bytes[1]])
}

/// One step.
pub fn step(runs: &[Run], device: &mut Device, queue: &mut Queue, memory: &mut [u8]) -> Outcome {
    if queue.stop != 0 {
        return Outcome::Stopped(queue.stop);
    }
    let taken = match (Reads { runs, device, queue, memory }).take() {
        Err(number) => {
            queue.stop = number;
            return Outcome::Stopped(number);
        }
        Ok(None) => return Outcome::Idle,
        Ok(Some(taken)) => taken,
    };
    let response = device.request(&taken.request);
    queue.next_available = queue.next_available.wrapping_add(1);
    queue.next_used = queue.next_used.wrapping_add(1);
    let mut put = |places: &[usize], bytes: &[u8]| {
        for (&place, &byte) in places.iter().zip(bytes) {
            memory[place] = byte;
        }
    };
    put(&taken.response_places, &response);
    put(&taken.element_places[0..4], &u32::from(taken.head).to_le_bytes());
    put(&taken.element_places[4..8], &(RESPONSE as u32).to_le_bytes());
    put(&taken.index_places, &queue.next_used.to_le_bytes());
    Outcome::Served { notify: taken.notify }
}

/// A run of k steps: how many were served, whether one notified, and the end.
pub fn run(
    runs: &[Run],
    device: &mut Device,
    queue: &mut Queue,
    memory: &mut [u8],
    k: u64,
) -> (u64, bool, End) {
    let mut served = 0;
    let mut notified = false;
    for _ in 0..k.min(MOST_STEPS) {
        match step(runs, device, queue, memory) {
            Outcome::Served { notify } => {
                served += 1;
                notified |= notify;
            }
            Outcome::Idle => return (served, notified, End::Idle),
            Outcome::Stopped(number) => return (served, notified, End::Stopped(number)),
        }
    }
    (served, notified, End::AllDone)
}
