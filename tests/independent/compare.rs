//! The comparison: one call on the library and on the model from the same state, and how a state is printed where they differ.
use crate::model::LAST_REFUSAL;
use crate::report::Tally;
use std::fmt::Write as _;

/// Makes a call on both sides from one state: `make` makes it with the library's function and with the model's.
/// Err: what differs.
pub fn both<T: Clone + PartialEq + Show, F: Copy>(
    tally: &mut Tally,
    name: &str,
    state: &mut T,
    [library, plain]: [F; 2],
    make: impl Fn(&mut T, F) -> u64,
) -> Result<u64, String> {
    let mut theirs = state.clone();
    let mut ours = state.clone();
    let their_number = make(&mut theirs, library);
    let our_number = make(&mut ours, plain);
    tally.calls += 1;
    if their_number != our_number || theirs != ours {
        let mut text = String::new();
        let _ = writeln!(text, "call {name}: library {their_number}, model {our_number}");
        let _ = writeln!(text, "--- input\n{}", state.show(None));
        let _ = writeln!(text, "--- library's state after\n{}", theirs.show(Some(state)));
        let _ = writeln!(text, "--- model's state after\n{}", ours.show(Some(state)));
        return Err(text);
    }
    tally.numbers[our_number.min(LAST_REFUSAL) as usize] += 1;
    *state = ours;
    Ok(our_number)
}

/// How a state is printed: whole, or only where it differs from another.
pub trait Show {
    fn show(&self, beside: Option<&Self>) -> String;
}

pub fn show_words(text: &mut String, name: &str, words: &[u64], beside: Option<&[u64]>) {
    match beside {
        Some(other) => {
            for (i, (a, b)) in words.iter().zip(other).enumerate() {
                if a != b {
                    let _ = writeln!(text, "{name}[{i}] = {a:#x} (was {b:#x})");
                }
            }
        }
        None => {
            let _ = write!(text, "{name} ({} words):", words.len());
            for w in words {
                let _ = write!(text, " {w:x}");
            }
            text.push('\n');
        }
    }
}

pub fn show_bytes(text: &mut String, name: &str, bytes: &[u8], beside: Option<&[u8]>) {
    match beside {
        Some(other) => {
            for (i, (a, b)) in bytes.iter().zip(other).enumerate().filter(|(_, (a, b))| a != b) {
                let _ = writeln!(text, "{name}[{i:#x}] = {a:#04x} (was {b:#04x})");
            }
        }
        None => {
            let _ = write!(text, "{name} ({} bytes, in hex, the first 64 KiB):", bytes.len());
            for b in bytes.iter().take(1 << 16) {
                let _ = write!(text, " {b:02x}");
            }
            text.push('\n');
        }
    }
}

/// A buffer: its name, its words or bytes with garbage behind them, and the length that is passed.
pub type Buffer<T> = (&'static str, Vec<T>, usize);

/// The state of most calls: word buffers, byte buffers and loose numbers.
#[derive(Clone, PartialEq, Default)]
pub struct State {
    pub words: Vec<Buffer<u64>>,
    pub bytes: Vec<Buffer<u8>>,
    pub numbers: Vec<(&'static str, u64)>,
}

impl State {
    /// Buffer a, read, and buffer b, written.
    pub fn w2(&mut self, a: usize, b: usize) -> (&[u64], &mut [u64]) {
        let (a, b) = w2_mut(&mut self.words, a, b);
        (a, b)
    }

    /// One word buffer, written.
    pub fn w(&mut self, i: usize) -> &mut [u64] {
        passed_mut(&mut self.words[i])
    }

    /// A call on the first words, written, with the first bytes, read, and the second, written.
    pub fn device_and_bytes(&mut self, call: fn(&mut [u64], &[u8], &mut [u8]) -> u64) -> u64 {
        let (from, to) = self.bytes.split_at_mut(1);
        call(passed_mut(&mut self.words[0]), passed(&from[0]), passed_mut(&mut to[0]))
    }

    pub fn n(&self, i: usize) -> u64 {
        self.numbers[i].1
    }
}

/// What is passed of a buffer.
pub fn passed<T>(buffer: &Buffer<T>) -> &[T] {
    &buffer.1[..buffer.2]
}

pub fn passed_mut<T>(buffer: &mut Buffer<T>) -> &mut [T] {
    &mut buffer.1[..buffer.2]
}

/// Two word buffers, both written.
pub fn w2_mut(words: &mut [Buffer<u64>], a: usize, b: usize) -> (&mut [u64], &mut [u64]) {
    assert!(a < b);
    let (left, right) = words.split_at_mut(b);
    (passed_mut(&mut left[a]), passed_mut(&mut right[0]))
}

impl Show for State {
    fn show(&self, beside: Option<&State>) -> String {
        let mut text = String::new();
        if beside.is_none() {
            for (name, value) in &self.numbers {
                let _ = writeln!(text, "{name} = {value:#x}");
            }
            for (name, _, length) in &self.words {
                let _ = writeln!(text, "{name} passed with {length} words");
            }
            for (name, _, length) in &self.bytes {
                let _ = writeln!(text, "{name} passed with {length} bytes");
            }
        }
        for (i, (name, words, _)) in self.words.iter().enumerate() {
            show_words(&mut text, name, words, beside.map(|s| &s.words[i].1[..]));
        }
        for (i, (name, bytes, _)) in self.bytes.iter().enumerate() {
            show_bytes(&mut text, name, bytes, beside.map(|s| &s.bytes[i].1[..]));
        }
        text
    }
}
