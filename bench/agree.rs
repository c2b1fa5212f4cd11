//! Checks that the peer is fair: plain Rust with the same checks gives the library's answers, including refusals.
//! Both get the same records and memory, in which some words and bytes are changed at random.
use crate::library;
use crate::model;
use crate::plain;
use crate::rows::{self, Accesses};
use crate::stages::{self, Guest, PAGES_MEMORY};
use std::collections::BTreeMap;

/// How often each number was answered; 0 is no refusal.
pub type Numbers = BTreeMap<u64, u64>;

struct Random(u64);

impl Random {
    fn next(&mut self, below: u64) -> u64 {
        self.0 ^= self.0 << 13;
        self.0 ^= self.0 >> 7;
        self.0 ^= self.0 << 17;
        (self.0 >> 11) % below
    }

    /// A number near the old one, or near a bound, or any.
    fn word(&mut self, old: u64) -> u64 {
        match self.next(6) {
            0 => self.next(300),
            1 => old.wrapping_add(self.next(17)).wrapping_sub(8),
            2 => old ^ 1 << self.next(64),
            3 => (1u64 << 48).wrapping_sub(self.next(3)),
            4 => u64::MAX - self.next(3),
            _ => old.wrapping_add(4096),
        }
    }

    fn change(&mut self, words: &mut [u64]) {
        let at = self.next(words.len() as u64) as usize;
        words[at] = self.word(words[at]);
    }
}

/// Changes a few of the words that matter.
fn disturb(random: &mut Random, view: &mut [u64], device: &mut [u64], queue: &mut [u64]) {
    let used = 1 + 6 * view[0] as usize;
    for _ in 0..random.next(2) {
        match random.next(4) {
            0 => random.change(&mut view[..used]),
            1 => random.change(device),
            2 => random.change(queue),
            _ => {}
        }
    }
}

/// Cases of `wt_step` and `wt_run`. The memory that may change is the queue's 64 KiB at the end.
pub fn steps(cases: u64) -> Numbers {
    let mut random = Random(0x9e3779b97f4a7c15);
    let mut numbers = Numbers::new();
    for case in 0..cases {
        let kind = [(0u16, 64u16), (1, 64), (3, 1), (2, 0)][case as usize % 4];
        let make = || match case % 3 {
            0 => stages::small_guest(&[kind]),
            1 => stages::plugged_guest(&[kind]),
            _ => stages::guest(4, &[kind]),
        };
        let mut ours: Guest = make();
        let queue_memory = ours.memory.len() - 65536;
        disturb(&mut random, &mut ours.view, &mut ours.device, &mut ours.queue);
        ours.offer(random.next(4) as u16);
        for _ in 0..random.next(3) {
            let area = [0, 0x2000, 0x8000][random.next(3) as usize];
            let at = queue_memory + area + random.next(if area == 0 { 32 } else { 24 }) as usize;
            ours.memory[at] = random.word(ours.memory[at].into()) as u8;
        }
        let mut theirs = make();
        (theirs.view, theirs.device, theirs.queue) = (ours.view.clone(), ours.device, ours.queue);
        theirs.memory.copy_from_slice(&ours.memory);
        let run = random.next(2) == 0;
        let (a, b) = if run {
            (rows::library_run(&mut ours), rows::plain_run(&mut theirs))
        } else {
            (rows::library_step(&mut ours), rows::plain_step(&mut theirs))
        };
        assert_eq!(a, b, "case {case}");
        assert!(ours.device == theirs.device && ours.queue == theirs.queue, "case {case}");
        assert!(ours.memory == theirs.memory, "case {case}");
        *numbers.entry(a.0).or_default() += 1;
    }
    numbers
}

/// Cases of `wt_route` and `wt_route_all`.
pub fn routes(cases: u64) -> Numbers {
    let mut random = Random(0x2545f4914f6cdd1d);
    let mut numbers = Numbers::new();
    for case in 0..cases {
        let mut s = Accesses::new([4, 16, 64][case as usize % 3]);
        disturb(&mut random, &mut s.view, &mut s.device, &mut plain::Queue::default());
        for _ in 0..random.next(40) {
            random.change(&mut s.accesses);
        }
        if random.next(2) == 0 {
            s.device[model::WT_DEVICE_PLUGGED + random.next(8) as usize] = 0; // 64 blocks are not plugged
        }
        let (end, at) = (s.ranges[random.next(4) as usize][1], 2 * random.next(256) as usize);
        s.accesses[at] = end - random.next(8);
        let (mut ours, mut theirs) = (vec![0u64; 1024], vec![0u64; 1024]);
        let a = library::route_all(&s.view, PAGES_MEMORY, &s.device, &s.accesses, &mut ours);
        let b = plain::route_all(&s.view, PAGES_MEMORY, Some(&s.device), &s.accesses, &mut theirs);
        assert_eq!((a, &ours), (b, &theirs), "case {case}");
        let (address, width) = (s.accesses[at], s.accesses[at + 1]);
        let one = library::route(&s.view, PAGES_MEMORY, &s.device, address, width);
        assert_eq!(
            one,
            plain::route_validated(&s.view, PAGES_MEMORY, Some(&s.device), address, width)
        );
        let each = if a == 0 { ours.chunks(4).map(|x| x[0]).collect() } else { vec![a] };
        each.into_iter().for_each(|number| *numbers.entry(number).or_default() += 1);
    }
    numbers
}
