//! Measuring a call: its time, and its instructions under valgrind.
use std::process::Command;
use std::time::Instant;

/// A call, with its own stage.
pub type Call = Box<dyn FnMut()>;

pub const ROUNDS: usize = 25;
const ROUND_SECONDS: f64 = 0.004;

/// How many calls fit into a round.
fn round_of(call: &mut Call) -> u64 {
    let mut count = 1u64;
    loop {
        let start = Instant::now();
        (0..count).for_each(|_| call());
        let seconds = start.elapsed().as_secs_f64();
        if seconds > ROUND_SECONDS / 2.0 {
            return ((count as f64 * ROUND_SECONDS / seconds) as u64).max(1);
        }
        count *= 2;
    }
}

/// Nanoseconds of one call of each, in its best round: a disturbance only makes a round longer. Their rounds take turns.
pub fn times(mut calls: Vec<Call>) -> Vec<f64> {
    let counts: Vec<u64> = calls.iter_mut().map(round_of).collect();
    let mut best = vec![f64::MAX; calls.len()];
    for _ in 0..ROUNDS {
        for (i, call) in calls.iter_mut().enumerate() {
            let start = Instant::now();
            (0..counts[i]).for_each(|_| call());
            best[i] = best[i].min(start.elapsed().as_secs_f64() * 1e9 / counts[i] as f64);
        }
    }
    best
}

/// The best of seven calls, for calls that may be long, or of fewer if these take over a second together.
pub fn few(call: &mut dyn FnMut()) -> f64 {
    let (mut best, mut all) = (f64::MAX, 0.0);
    for _ in 0..7 {
        let start = Instant::now();
        call();
        let ns = start.elapsed().as_secs_f64() * 1e9;
        best = best.min(ns);
        all += ns;
        if all > 1e9 {
            break;
        }
    }
    best
}

/// Whether instructions can be counted here.
pub fn has_valgrind() -> bool {
    Command::new("valgrind").arg("--version").output().is_ok_and(|o| o.status.success())
}

/// The instructions of a whole program under callgrind.
fn collected(program: &str, words: &[&str]) -> Option<u64> {
    let output = Command::new("valgrind")
        .args(["--tool=callgrind", "--callgrind-out-file=/dev/null", program])
        .args(words)
        .output()
        .ok()?;
    let said = String::from_utf8_lossy(&output.stderr).into_owned();
    let line = said.lines().find_map(|l| l.split_once("Collected :"))?;
    output.status.success().then_some(line.1.trim().parse().ok()?)
}

/// The instructions of one call: a program makes it `calls` times, and then twice as often; the difference is
/// what the calls cost. `words` are the program's arguments; the number of calls is appended.
pub fn instructions(program: &str, words: &[&str], calls: u64) -> Option<f64> {
    let of = |n: u64| collected(program, &[words, &[&n.to_string()]].concat());
    Some((of(2 * calls)? as f64 - of(calls)? as f64) / calls as f64)
}

/// A time in nanoseconds, or a dash if nothing was measured.
pub fn time(ns: Option<f64>) -> String {
    match ns {
        None => "-".into(),
        Some(n) if n < 1e3 => format!("{n:.1} ns"),
        Some(n) if n < 1e6 => format!("{:.2} µs", n / 1e3),
        Some(n) if n < 1e9 => format!("{:.2} ms", n / 1e6),
        Some(n) => format!("{:.2} s", n / 1e9),
    }
}

/// 12,345, or a dash if nothing was counted.
pub fn number(n: Option<f64>) -> String {
    let Some(n) = n else { return "-".into() };
    let digits = format!("{n:.0}");
    let mut out = String::new();
    for (i, digit) in digits.chars().enumerate() {
        if i > 0 && (digits.len() - i) % 3 == 0 {
            out.push(',');
        }
        out.push(digit);
    }
    out
}
