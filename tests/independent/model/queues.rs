//! The queue record: how its three areas lie, 16, 27 for the queue, and a queue reset.
use super::records::*;
use super::refusals::*;

/// "Queue size not a power of two from 1 to 256" is refused.
pub const MOST_DESCRIPTORS: u64 = 256;

/// "Descriptor, available, used address not a multiple of 16, 2, 4" is refused.
pub const DESCRIPTORS_ALIGN: u64 = 16;
pub const AVAILABLE_ALIGN: u64 = 2;
pub const USED_ALIGN: u64 = 4;

/// Bytes of one entry of each area. The two rings begin with flags and idx, two bytes each, and end with two bytes that no
/// step needs.
pub const DESCRIPTOR: u64 = 16;
pub const AVAILABLE_ENTRY: u64 = 2;
pub const USED_ENTRY: u64 = 8;
pub const RING_IDX: u64 = 2;
pub const RING_ENTRIES: u64 = 4;
const RING_EXTRA: u64 = 6;

/// "Areas: 16n, 6 + 2n, 6 + 8n bytes."
pub fn descriptors_bytes(n: u64) -> u64 {
    DESCRIPTOR * n
}
pub fn available_bytes(n: u64) -> u64 {
    RING_EXTRA + AVAILABLE_ENTRY * n
}
pub fn used_bytes(n: u64) -> u64 {
    RING_EXTRA + USED_ENTRY * n
}

#[derive(Clone, Copy, PartialEq, Eq, Debug)]
pub struct Queue {
    pub size: u64,
    pub descriptors: u64,
    pub available: u64,
    pub used: u64,
    pub next_available: u16,
    pub next_used: u16,
    pub stop: u64,
}

impl Queue {
    /// 16.
    pub fn make(size: u64, descriptors: u64, available: u64, used: u64) -> Result<Queue, u64> {
        let ends_over =
            |start: u64, bytes: u64| u128::from(start) + u128::from(bytes) > u128::from(LIMIT);
        if !size.is_power_of_two()
            || size > MOST_DESCRIPTORS
            || descriptors % DESCRIPTORS_ALIGN != 0
            || available % AVAILABLE_ALIGN != 0
            || used % USED_ALIGN != 0
            || ends_over(descriptors, descriptors_bytes(size))
            || ends_over(available, available_bytes(size))
            || ends_over(used, used_bytes(size))
        {
            return Err(BAD_QUEUE);
        }
        Ok(Queue { size, descriptors, available, used, next_available: 0, next_used: 0, stop: 0 })
    }

    /// The queue of a record, or None (27).
    pub fn of_words(w: &[u64]) -> Option<Queue> {
        let mut queue = Queue::make(w[0], w[1], w[2], w[3]).ok()?;
        queue.next_available = u16::try_from(w[WT_QUEUE_NEXT_AVAILABLE]).ok()?;
        queue.next_used = u16::try_from(w[WT_QUEUE_NEXT_USED]).ok()?;
        queue.stop = w[WT_QUEUE_STOP];
        (queue.stop == 0 || STOPS.contains(&queue.stop)).then_some(queue)
    }

    pub fn words(&self) -> [u64; QUEUE] {
        [
            self.size,
            self.descriptors,
            self.available,
            self.used,
            self.next_available.into(),
            self.next_used.into(),
            self.stop,
        ]
    }

    pub fn reset(&mut self) {
        self.next_available = 0;
        self.next_used = 0;
        self.stop = 0;
    }

    /// Where the available ring's entry of an index lies, at "seen mod n".
    pub fn available_entry(&self, index: u16) -> u64 {
        self.available + RING_ENTRIES + AVAILABLE_ENTRY * (u64::from(index) % self.size)
    }

    /// Where the used ring's slot of an index lies, at "own count mod n".
    pub fn used_entry(&self, index: u16) -> u64 {
        self.used + RING_ENTRIES + USED_ENTRY * (u64::from(index) % self.size)
    }
}
