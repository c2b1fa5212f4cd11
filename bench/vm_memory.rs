//! The peer that trusts its map: vm-memory of Debian's librust-vm-memory-dev. bench/run builds it if that is
//! installed. For each number of ranges it prints the times in nanoseconds (the best of 25 rounds) of `get_slice` (lookup) and of
//! `read_obj` (lookup and read) for one access in RAM.
//!
//!     vm_memory                                 the times
//!     vm_memory --count get_slice|read_obj RANGES N    256 accesses, N times, for valgrind to count
use std::hint::black_box;
use std::time::Instant;
use vm_memory::{Bytes, GuestAddress, GuestMemory, GuestMemoryMmap};

struct Stage {
    memory: GuestMemoryMmap<()>,
    accesses: Vec<(u64, usize)>,
}

/// `count` pages with a hole after each, and 256 random accesses, like the library's.
fn stage(count: u64) -> Stage {
    let ranges: Vec<_> = (0..count).map(|i| (GuestAddress(i * 8192), 4096)).collect();
    let memory = GuestMemoryMmap::from_ranges(&ranges).unwrap();
    let mut seed = 88172645463325252u64;
    let mut access = || {
        seed ^= seed << 13;
        seed ^= seed >> 7;
        seed ^= seed << 17;
        ((seed >> 20) % count * 8192 + (seed >> 40) % 510 * 8, 1 << (seed % 4))
    };
    Stage { memory, accesses: (0..256).map(|_| access()).collect() }
}

fn get_slice(s: &Stage) {
    for &(address, width) in &s.accesses {
        black_box(s.memory.get_slice(GuestAddress(black_box(address)), width).is_ok());
    }
}

fn read_obj(s: &Stage) {
    for &(address, width) in &s.accesses {
        let a = GuestAddress(black_box(address));
        black_box(match width {
            1 => u64::from(s.memory.read_obj::<u8>(a).unwrap()),
            2 => u64::from(s.memory.read_obj::<u16>(a).unwrap()),
            4 => u64::from(s.memory.read_obj::<u32>(a).unwrap()),
            _ => s.memory.read_obj::<u64>(a).unwrap(),
        });
    }
}

fn best(s: &Stage, call: fn(&Stage)) -> f64 {
    let round = |_| {
        let start = Instant::now();
        (0..1000).for_each(|_| call(s));
        start.elapsed().as_secs_f64() * 1e9 / (1000.0 * 256.0)
    };
    (0..25).map(round).fold(f64::MAX, f64::min)
}

fn main() {
    let words: Vec<String> = std::env::args().collect();
    if let [_, mode, call, count, calls] = &words[..] {
        assert!(mode == "--count");
        let s = stage(count.parse().unwrap());
        let call = if call == "read_obj" { read_obj } else { get_slice };
        (0..calls.parse::<u64>().unwrap()).for_each(|_| call(&s));
        return;
    }
    for count in [4, 16, 64, 256] {
        let s = stage(count);
        println!("{} {}", best(&s, get_slice), best(&s, read_obj));
    }
}
