//! A host with its records and the guest's memory: what the commands of a case do, and what the calls answer.
use crate::library;
use crate::library::raw::*;
use crate::numbers::{all_fields, bytes, fields, hex, number, numbers};

const REGION: [&str; 8] =
    ["parent+1", "offset", "size", "priority", "memory_start", "port", "target", "alias_offset"];
const RANGE: [&str; 6] = ["first", "last", "region", "offset", "kind", "base"];
const DEVICE: [&str; 7] = ["block", "addr", "region", "usable", "requested", "plugged", "pinned"];
const QUEUE: [&str; 7] = ["size", "descriptors", "available", "used", "seen", "own", "stop"];
/// Where the device's fields lie in its words; of the two tables their first words.
const DEVICE_AT: [usize; 7] = [
    WT_DEVICE_BLOCK_SIZE,
    WT_DEVICE_ADDR,
    WT_DEVICE_REGION_SIZE,
    WT_DEVICE_USABLE_SIZE,
    WT_DEVICE_REQUESTED_SIZE,
    WT_DEVICE_PLUGGED,
    WT_DEVICE_PINNED,
];
/// Words of each of the device's two tables.
const TABLE_WORDS: usize = WT_DEVICE_PINNED - WT_DEVICE_PLUGGED;

/// Bytes of memory that the answer shows: a place, or none where an address lies nowhere, and a count.
type Stretch = (Option<usize>, usize);

pub struct Host {
    memory_length: u64,
    map: Vec<u64>,
    view: Vec<u64>,
    device: Vec<u64>,
    queue: Vec<u64>,
    memory: Vec<u8>,
    /// How much of the memory a step is lent.
    lent: Option<usize>,
    /// First address, last, and the place of the first in memory.
    lies: Vec<[u64; 3]>,
    shown: Vec<Stretch>,
    plugged_word: usize,
    answer: Option<String>,
}

impl Host {
    pub fn new() -> Host {
        Host {
            memory_length: 0,
            map: vec![0; WT_MAP],
            view: vec![0; WT_VIEW],
            device: vec![0; WT_DEVICE],
            queue: vec![0; WT_QUEUE],
            memory: Vec::new(),
            lent: None,
            lies: Vec::new(),
            shown: Vec::new(),
            plugged_word: 0,
            answer: None,
        }
    }

    /// The last call's answer.
    pub fn answer(self) -> Option<String> {
        self.answer
    }

    pub fn command(&mut self, words: &[&str]) -> Result<(), String> {
        if self.sets_map(words)? || self.sets_record(words)? || self.sets_memory(words)? {
            return Ok(());
        }
        let answer = match self.calls_map(words)? {
            Some(answer) => Some(answer),
            None => match self.calls_device(words)? {
                Some(answer) => Some(answer),
                None => self.calls_queue(words)?,
            },
        };
        self.answer = Some(answer.ok_or(format!("unknown: {}", words.join(" ")))?);
        Ok(())
    }

    // ------------------------------------------------------------------------------ maps and views

    fn sets_map(&mut self, words: &[&str]) -> Result<bool, String> {
        let rest = &words[1..];
        match words[0] {
            "memory" => [self.memory_length] = numbers(rest)?,
            "map" => {
                let [] = numbers(rest)?;
                self.map = vec![0; WT_MAP];
            }
            "map_count" => [self.map[0]] = numbers(rest)?,
            "region" => self.add_region(rest)?,
            "flatten" => {
                let [] = numbers(rest)?;
                let said = library::flatten(
                    &self.map,
                    self.memory_length,
                    &mut self.view,
                    &mut [0; WT_RESULT],
                );
                return if said == 0 {
                    Ok(true)
                } else {
                    Err(format!("the map is refused with {said}"))
                };
            }
            "view" => {
                let [] = numbers(rest)?;
                self.view = vec![0; WT_VIEW];
            }
            "view_count" => [self.view[0]] = numbers(rest)?,
            "range" => {
                self.put_range(self.view[0], rest)?;
                self.view[0] += 1;
            }
            "range_at" => {
                let (index, named) = rest.split_first().ok_or("no index")?;
                self.put_range(number(index)?, named)?;
            }
            _ => return Ok(false),
        }
        Ok(true)
    }

    fn add_region(&mut self, words: &[&str]) -> Result<(), String> {
        let (kind, named) = words.split_first().ok_or("no kind")?;
        if self.map[0] as usize >= WT_REGIONS {
            return Err("no room for a region".to_string());
        }
        let at = WT_MAP_REGION(self.map[0] as usize);
        self.map[0] += 1;
        self.map[at] = number(kind)?;
        for (i, value) in fields(named, REGION)?.iter().enumerate() {
            self.map[at + 1 + i] = value.unwrap_or(0);
        }
        Ok(())
    }

    fn put_range(&mut self, index: u64, words: &[&str]) -> Result<(), String> {
        if index as usize >= WT_RANGES {
            return Err("no room for a range".to_string());
        }
        let range = WT_VIEW_RANGE(index as usize)..WT_VIEW_RANGE(index as usize + 1);
        self.view[range].copy_from_slice(&all_fields(words, RANGE)?);
        Ok(())
    }

    fn calls_map(&mut self, words: &[&str]) -> Result<Option<String>, String> {
        let mut result = [0; WT_RESULT];
        let number = match words[0] {
            "sheet" => {
                let sheet = bytes(&words[1..])?;
                library::read_sheet(&sheet, self.memory_length, &mut self.map, &mut result)
            }
            "check" => {
                let [] = numbers(&words[1..])?;
                library::check_map(&self.map, self.memory_length, &mut result)
            }
            "set_up" => return self.set_up(&words[1..]).map(Some),
            "access" => return self.access(numbers(&words[1..])?).map(Some),
            _ => return Ok(None),
        };
        Ok(Some(match number {
            0 => "accepted".to_string(),
            1..=5 if words[0] == "sheet" => format!("refused {number} at {}", result[0]),
            _ => format!("refused {number} nodes {} {}", result[0], result[1]),
        }))
    }

    fn set_up(&mut self, words: &[&str]) -> Result<String, String> {
        let [block, addr, usable, requested] =
            all_fields(words, ["block", "addr", "usable", "requested"])?;
        let length = self.memory_length;
        match library::set_up(
            &self.map,
            length,
            block,
            addr,
            usable,
            requested,
            &mut self.device,
            &mut [0; WT_RESULT],
        ) {
            0 => Ok("set up".to_string()),
            number => Ok(format!("refused {number}")),
        }
    }

    /// With the device, without one, and the look-up.
    fn access(&self, [address, width]: [u64; 2]) -> Result<String, String> {
        let mut parts = Vec::new();
        for device in [&self.device[..], &[]] {
            let mut r = [0; WT_RESULT];
            let number =
                library::route(&self.view, self.memory_length, device, address, width, &mut r);
            parts.push(match (number, r) {
                (0, [1, place, 0]) => format!("memory {place:x}"),
                (0, [2, port, offset]) => format!("port {port:x} {offset:x}"),
                _ => format!("refused {number}"),
            });
        }
        let mut r = [0; WT_RESULT];
        parts.push(match (library::look_up(&self.view, self.memory_length, address, &mut r), r) {
            (0, [1, region, offset]) => format!("region {region} {offset:x}"),
            (0, [0, 0, 0]) => "nothing".to_string(),
            (number, _) => format!("refused {number}"),
        });
        Ok(parts.join(", "))
    }

    // -------------------------------------------------------------------------------- device and queue

    fn sets_record(&mut self, words: &[&str]) -> Result<bool, String> {
        let rest = &words[1..];
        match words[0] {
            "device" => {
                for (at, value) in DEVICE_AT.iter().zip(fields(rest, DEVICE)?) {
                    self.device[*at] = value.unwrap_or(self.device[*at]);
                }
            }
            "plugged_word" => {
                let [word] = numbers(rest)?;
                self.plugged_word = usize::try_from(word)
                    .ok()
                    .filter(|w| *w < TABLE_WORDS)
                    .ok_or("past the table")?;
            }
            "queue" => {
                for (word, value) in self.queue.iter_mut().zip(fields(rest, QUEUE)?) {
                    *word = value.unwrap_or(*word);
                }
            }
            _ => return Ok(false),
        }
        Ok(true)
    }

    fn calls_device(&mut self, words: &[&str]) -> Result<Option<String>, String> {
        let rest = &words[1..];
        let one = || numbers(rest).map(|[n]: [u64; 1]| n);
        let number = match words[0] {
            "set_requested_size" => library::set_requested_size(&mut self.device, one()?),
            "pin" => library::pin(&mut self.device, one()?),
            "unpin" => library::unpin(&mut self.device, one()?),
            "system_reset" => {
                let [] = numbers(rest)?;
                library::system_reset(&mut self.device)
            }
            "configuration" => {
                let [] = numbers(rest)?;
                let mut bytes = [0; WT_CONFIGURATION];
                let number = library::configuration(&self.device, &mut bytes);
                return Ok(Some(if number == 0 {
                    hex(&bytes)
                } else {
                    format!("refused {number}")
                }));
            }
            "block_of_byte" => return Ok(Some(self.block_of_byte(one()?))),
            "request" => return self.request(numbers(rest)?).map(Some),
            _ => return Ok(None),
        };
        let done = if number == 0 { "done".to_string() } else { format!("refused {number}") };
        let d = &self.device;
        let (usable, requested, plugged, pinned) = (
            d[WT_DEVICE_USABLE_SIZE],
            d[WT_DEVICE_REQUESTED_SIZE],
            d[WT_DEVICE_PLUGGED],
            d[WT_DEVICE_PINNED],
        );
        Ok(Some(format!("{done}, usable {usable:x} requested {requested:x} plugged {plugged:x} pinned {pinned:x}")))
    }

    fn block_of_byte(&self, offset: u64) -> String {
        let mut r = [0; WT_RESULT];
        match (library::block_of_byte(&self.device, offset, &mut r), r) {
            (0, [1, block, 0]) => format!("block {block}"),
            (0, [0, 0, 0]) => "outside".to_string(),
            (number, _) => format!("refused {number}"),
        }
    }

    /// Source 000's layout; every byte of padding is ff.
    fn request(&mut self, [kind, addr, blocks]: [u64; 3]) -> Result<String, String> {
        let short = |n: u64| u16::try_from(n).map_err(|_| format!("{n} does not fit 2 bytes"));
        let mut request = [0xff; WT_REQUEST];
        request[WT_REQUEST_TYPE..][..2].copy_from_slice(&short(kind)?.to_le_bytes());
        request[WT_REQUEST_ADDR..][..8].copy_from_slice(&addr.to_le_bytes());
        request[WT_REQUEST_BLOCKS..][..2].copy_from_slice(&short(blocks)?.to_le_bytes());
        let mut response = [0; WT_RESPONSE];
        let number = library::request(&mut self.device, &request, &mut response);
        let refused = if number == 0 { String::new() } else { format!("refused {number}, ") };
        let plugged = self.device[WT_DEVICE_PLUGGED + self.plugged_word];
        Ok(format!("{refused}response {} plugged {plugged:x}", hex(&response)))
    }

    fn calls_queue(&mut self, words: &[&str]) -> Result<Option<String>, String> {
        let rest = &words[1..];
        let number = match words[0] {
            "make_queue" => {
                let [size, descriptors, available, used] =
                    all_fields(rest, ["size", "descriptors", "available", "used"])?;
                library::make_queue(size, descriptors, available, used, &mut self.queue)
            }
            "reset_queue" => {
                let [] = numbers(rest)?;
                library::reset_queue(&mut self.queue)
            }
            "step" => {
                let [] = numbers(rest)?;
                return self.step().map(Some);
            }
            "run" => return self.run(numbers(rest)?).map(Some),
            _ => return Ok(None),
        };
        Ok(Some(format!(
            "{number} size {} stop {}",
            self.queue[WT_QUEUE_SIZE], self.queue[WT_QUEUE_STOP]
        )))
    }

    fn step(&mut self) -> Result<String, String> {
        let before = self.memory.clone();
        let mut r = [0; WT_RESULT];
        let lent = self.lent.unwrap_or(self.memory.len());
        let memory = self.memory.get_mut(..lent).ok_or("more is lent than there is")?;
        let outcome =
            match (library::step(&self.view, &mut self.device, &mut self.queue, memory, &mut r), r)
            {
                (0, [0, 0, 0]) => "idle".to_string(),
                (0, [1, 0, 0]) => "served".to_string(),
                (0, [1, 1, 0]) => "served, notify".to_string(),
                (number, _) => format!("refused {number}"),
            };
        Ok(outcome + &self.left(&before))
    }

    fn run(&mut self, [k]: [u64; 1]) -> Result<String, String> {
        let before = self.memory.clone();
        let mut r = [0; WT_RESULT];
        let number = library::run(
            &self.view,
            &mut self.device,
            &mut self.queue,
            &mut self.memory,
            k,
            &mut r,
        );
        let notify = if r[1] == 1 { ", notify" } else { "" };
        let end = match (number, r[2]) {
            (0, 0) => "all done".to_string(),
            (0, 1) => "idle".to_string(),
            _ => format!("refused {number}"),
        };
        Ok(format!("served {}{notify}, {end}", r[0]) + &self.left(&before))
    }

    /// The records and the memory shown as a step or a run left them.
    fn left(&self, before: &[u8]) -> String {
        let [_, _, _, _, seen, own, stop] = self.queue[..] else {
            return String::new();
        };
        let mut text = format!(
            " seen {seen} used {own} stop {stop} plugged {:x}",
            self.device[WT_DEVICE_PLUGGED]
        );
        for (from, count) in &self.shown {
            let stretch = from.map_or(0..0, |from| from..(from + count).min(before.len()));
            let mut digest: u64 = 0;
            let mut changing = false;
            for i in stretch {
                digest = digest % 4294967291 * 257 + self.memory[i] as u64;
                let changed = before[i] != self.memory[i];
                if changed && !changing {
                    text += &format!(" {i:x}=");
                }
                if changed {
                    text += &format!("{:02x}", self.memory[i]);
                }
                changing = changed;
            }
            text += &format!(" {digest:x}");
        }
        text
    }

    // ------------------------------------------------------------------------------ the guest's memory

    fn sets_memory(&mut self, words: &[&str]) -> Result<bool, String> {
        let rest = &words[1..];
        match words[0] {
            "fill" => {
                let [byte] = numbers(rest)?;
                let byte = u8::try_from(byte).map_err(|_| "no byte")?;
                self.memory = vec![byte; self.memory_length as usize];
            }
            "lend" => {
                let [count] = numbers(rest)?;
                self.lent = Some(count as usize);
            }
            "lies" => self.lies.push(numbers(rest)?),
            "show" => self.show(rest)?,
            "put16" => {
                let [address, value] = numbers(rest)?;
                self.put(address, 2, value)?;
            }
            "put_request" => {
                let [address, kind, addr, blocks] = numbers(rest)?;
                self.put(address, 2, kind)?;
                self.put(address + 8, 8, addr)?;
                self.put(address + 16, 2, blocks)?;
            }
            "descriptor" => self.put_descriptor(rest)?,
            "offer" => {
                let [flags, idx, slot, head] = all_fields(rest, ["flags", "idx", "slot", "head"])?;
                let ring = self.queue[WT_QUEUE_AVAILABLE];
                self.put(ring, 2, flags)?;
                self.put(ring + 2, 2, idx)?;
                self.put(ring + 4 + 2 * slot, 2, head)?;
            }
            _ => return Ok(false),
        }
        Ok(true)
    }

    fn show(&mut self, words: &[&str]) -> Result<(), String> {
        match words {
            ["nothing"] => self.shown.clear(),
            ["place", place, count] => {
                self.shown.push((Some(number(place)? as usize), number(count)? as usize))
            }
            ["address", address, count] => {
                self.shown.push((self.place(number(address)?), number(count)? as usize))
            }
            _ => return Err(format!("unknown: show {}", words.join(" "))),
        }
        Ok(())
    }

    fn put_descriptor(&mut self, words: &[&str]) -> Result<(), String> {
        let (index, named) = words.split_first().ok_or("no index")?;
        let [addr, length, flags, next] = all_fields(named, ["addr", "length", "flags", "next"])?;
        let at = self.queue[WT_QUEUE_DESCRIPTORS] + 16 * number(index)?;
        self.put(at, 8, addr)?;
        self.put(at + 8, 4, length)?;
        self.put(at + 12, 2, flags)?;
        self.put(at + 14, 2, next)
    }

    fn place(&self, address: u64) -> Option<usize> {
        let [first, _, place] =
            self.lies.iter().find(|[first, last, _]| (first..=last).contains(&&address))?;
        Some((place + (address - first)) as usize)
    }

    /// A number of so many bytes at a guest address; what lies nowhere is not written.
    fn put(&mut self, address: u64, count: u64, value: u64) -> Result<(), String> {
        if count < 8 && value >> (8 * count) != 0 {
            return Err(format!("{value} does not fit {count} bytes"));
        }
        for i in 0..count {
            if let Some(place) = self.place(address + i) {
                *self.memory.get_mut(place).ok_or("past the memory")? = (value >> (8 * i)) as u8;
            }
        }
        Ok(())
    }
}
