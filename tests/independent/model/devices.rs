//! The memory device (source 000): its record, 13 to 15, 27 for the device, the requests and the configuration.
use super::records::*;
use super::refusals::*;
use std::ops::Range;

/// Types of requests.
pub const PLUG: u16 = 0;
pub const UNPLUG: u16 = 1;
pub const UNPLUG_ALL: u16 = 2;
pub const STATE: u16 = 3;

/// Types of responses.
pub const ACK: u16 = 0;
pub const NACK: u16 = 1;
pub const BUSY: u16 = 2;
pub const ERROR: u16 = 3;

/// States of blocks, in an acknowledged STATE.
pub const ALL_PLUGGED: u16 = 0;
pub const ALL_UNPLUGGED: u16 = 1;
pub const MIXED: u16 = 2;
/// The state bytes of every other response.
const NO_STATE: u16 = 0;

/// "Block size a power of two, 4,096 to 2^30."
pub const SMALLEST_BLOCK: u64 = 4096;
pub const LARGEST_BLOCK: u64 = 1 << 30;

/// Blocks in one word of a table.
pub const WORD_BLOCKS: usize = u64::BITS as usize;

#[derive(Clone, PartialEq, Eq, Debug)]
pub struct Device {
    pub block_size: u64,
    pub addr: u64,
    pub region: u64,
    pub usable: u64,
    pub requested: u64,
    pub plugged: Vec<bool>, // MOST_BLOCKS of them
    pub pinned: Vec<bool>,
}

/// SETUP's rules. No region has size 0.
pub fn set_up_rules(block_size: u64, addr: u64, region: u64, usable: u64, requested: u64) -> bool {
    let multiple = |value: u64| value % block_size == 0;
    block_size.is_power_of_two()
        && (SMALLEST_BLOCK..=LARGEST_BLOCK).contains(&block_size)
        && region != 0
        && multiple(region)
        && region / block_size <= MOST_BLOCKS
        && multiple(addr)
        && u128::from(addr) + u128::from(region) <= u128::from(LIMIT)
        && requested <= usable
        && usable <= region
        && multiple(usable)
        && multiple(requested)
}

fn bits(words: &[u64]) -> Vec<bool> {
    (0..MOST_BLOCKS as usize)
        .map(|b| words[b / WORD_BLOCKS] >> (b % WORD_BLOCKS) & 1 == 1)
        .collect()
}

impl Device {
    pub fn fresh(
        block_size: u64,
        addr: u64,
        region: u64,
        usable: u64,
        requested: u64,
    ) -> Option<Device> {
        set_up_rules(block_size, addr, region, usable, requested).then(|| Device {
            block_size,
            addr,
            region,
            usable,
            requested,
            plugged: vec![false; MOST_BLOCKS as usize],
            pinned: vec![false; MOST_BLOCKS as usize],
        })
    }

    /// The device of a record, or None (27).
    pub fn of_words(w: &[u64]) -> Option<Device> {
        let mut device = Device::fresh(
            w[WT_DEVICE_BLOCK_SIZE],
            w[WT_DEVICE_ADDR],
            w[WT_DEVICE_REGION_SIZE],
            w[WT_DEVICE_USABLE_SIZE],
            w[WT_DEVICE_REQUESTED_SIZE],
        )?;
        device.plugged = bits(&w[WT_DEVICE_PLUGGED..]);
        device.pinned = bits(&w[WT_DEVICE_PINNED..]);
        for b in 0..MOST_BLOCKS as usize {
            let start = b as u64 * device.block_size;
            if device.plugged[b] && (start >= device.region || start >= device.usable) {
                return None;
            }
            if device.pinned[b] && (start >= device.region || !device.plugged[b]) {
                return None;
            }
        }
        Some(device)
    }

    pub fn words(&self) -> [u64; DEVICE] {
        let mut w = [0; DEVICE];
        w[WT_DEVICE_BLOCK_SIZE] = self.block_size;
        w[WT_DEVICE_ADDR] = self.addr;
        w[WT_DEVICE_REGION_SIZE] = self.region;
        w[WT_DEVICE_USABLE_SIZE] = self.usable;
        w[WT_DEVICE_REQUESTED_SIZE] = self.requested;
        for b in 0..MOST_BLOCKS as usize {
            let (word, bit) = (b / WORD_BLOCKS, b % WORD_BLOCKS);
            w[WT_DEVICE_PLUGGED + word] |= u64::from(self.plugged[b]) << bit;
            w[WT_DEVICE_PINNED + word] |= u64::from(self.pinned[b]) << bit;
        }
        w
    }

    pub fn plugged_size(&self) -> u64 {
        self.block_size * self.plugged.iter().filter(|&&p| p).count() as u64
    }

    pub fn block_of(&self, offset: u64) -> usize {
        (offset / self.block_size) as usize
    }

    /// "Block of a byte = its offset in the managed node divided by the block size"; None outside the node.
    pub fn block_of_byte(&self, offset: u64) -> Option<u64> {
        (offset < self.region).then(|| offset / self.block_size)
    }

    /// Carries out a request's bytes; the response's bytes.
    pub fn request(&mut self, request: &[u8; REQUEST]) -> [u8; RESPONSE] {
        let (kind, addr, blocks) = request_fields(request);
        let (answer, state) = self.answer(kind, addr, blocks.into());
        let mut response = [0; RESPONSE];
        response[WT_RESPONSE_TYPE..][..2].copy_from_slice(&answer.to_le_bytes());
        response[WT_RESPONSE_STATE..][..2].copy_from_slice(&state.to_le_bytes());
        response
    }

    /// The response's type and state.
    pub fn answer(&mut self, kind: u16, addr: u64, count: u64) -> (u16, u16) {
        if kind == UNPLUG_ALL {
            return (self.unplug_all(), NO_STATE);
        }
        if kind > STATE || addr % self.block_size != 0 || count == 0 || addr < self.addr {
            return (ERROR, NO_STATE);
        }
        let start = addr - self.addr;
        if u128::from(start) + u128::from(count * self.block_size) > u128::from(self.usable) {
            return (ERROR, NO_STATE);
        }
        let first = self.block_of(start);
        let blocks = first..first + count as usize;
        match kind {
            PLUG => (self.plug(blocks), NO_STATE),
            UNPLUG => (self.unplug(blocks), NO_STATE),
            _ => (ACK, self.state(blocks)),
        }
    }

    fn plug(&mut self, blocks: Range<usize>) -> u16 {
        let size = blocks.len() as u64 * self.block_size;
        if self.plugged[blocks.clone()].iter().any(|&p| p) {
            return ERROR;
        }
        if self.plugged_size() + size > self.requested {
            return NACK;
        }
        self.plugged[blocks].fill(true);
        ACK
    }

    fn unplug(&mut self, blocks: Range<usize>) -> u16 {
        if !self.plugged[blocks.clone()].iter().all(|&p| p) {
            return ERROR;
        }
        if self.pinned[blocks.clone()].iter().any(|&p| p) {
            return BUSY;
        }
        self.plugged[blocks].fill(false);
        ACK
    }

    /// Whatever its address and count.
    fn unplug_all(&mut self) -> u16 {
        if self.pinned.iter().any(|&p| p) {
            return BUSY;
        }
        self.plugged.fill(false);
        ACK
    }

    fn state(&self, blocks: Range<usize>) -> u16 {
        let count = blocks.len();
        match self.plugged[blocks].iter().filter(|&&p| p).count() {
            plugged if plugged == count => ALL_PLUGGED,
            0 => ALL_UNPLUGGED,
            _ => MIXED,
        }
    }

    /// 14.
    pub fn set_requested_size(&mut self, size: u64) -> Result<(), u64> {
        if size % self.block_size != 0 || size > self.region {
            return Err(SIZE);
        }
        self.requested = size;
        self.usable = self.usable.max(size);
        Ok(())
    }

    fn in_region(&self, block: u64) -> bool {
        block < self.region / self.block_size
    }

    /// 15.
    pub fn pin(&mut self, block: u64) -> Result<(), u64> {
        if !self.in_region(block) || !self.plugged[block as usize] || self.pinned[block as usize] {
            return Err(PIN);
        }
        self.pinned[block as usize] = true;
        Ok(())
    }

    /// 15.
    pub fn unpin(&mut self, block: u64) -> Result<(), u64> {
        if !self.in_region(block) || !self.pinned[block as usize] {
            return Err(PIN);
        }
        self.pinned[block as usize] = false;
        Ok(())
    }

    pub fn system_reset(&mut self) {
        self.plugged.fill(false);
        self.pinned.fill(false);
    }

    /// 000's layout: block_size, node_id (2 bytes), padding (6), addr, region_size,
    /// usable_region_size, plugged_size, requested_size.
    pub fn configuration(&self) -> [u8; CONFIGURATION] {
        let fields = [
            self.block_size,
            0,
            self.addr,
            self.region,
            self.usable,
            self.plugged_size(),
            self.requested,
        ];
        let mut bytes = [0; CONFIGURATION];
        for (i, field) in fields.iter().enumerate() {
            bytes[8 * i..8 * i + 8].copy_from_slice(&field.to_le_bytes());
        }
        bytes
    }
}

/// Type, address and count of blocks; padding is ignored.
fn request_fields(request: &[u8; REQUEST]) -> (u16, u64, u16) {
    let short = |at: usize| u16::from_le_bytes([request[at], request[at + 1]]);
    let addr = request[WT_REQUEST_ADDR..][..8].try_into().unwrap();
    (short(WT_REQUEST_TYPE), u64::from_le_bytes(addr), short(WT_REQUEST_BLOCKS))
}
