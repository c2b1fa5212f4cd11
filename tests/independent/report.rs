//! The report: what was counted, what is printed at the end, and what must have been met.
use crate::model::{LAST_REFUSAL, SHORT};
use crate::plugging::LAWS;

#[derive(Default)]
pub struct Tally {
    pub cases: u64,
    pub calls: u64,
    /// How often each number was returned, 0 for none.
    pub numbers: [u64; LAST_REFUSAL as usize + 1],
    pub served: u64,
    pub notified: u64,
    pub idle: u64,
    pub laws: [u64; LAWS.len()],
}

impl Tally {
    pub fn print(&self, kinds: &[(&str, u64)], seconds: f64) {
        for (kind, count) in kinds {
            println!("{kind}: {count} cases");
        }
        println!(
            "{} calls compared in {seconds:.1} s; steps served {}, of them notified {}, idle {}",
            self.calls, self.served, self.notified, self.idle
        );
        let laws: Vec<String> =
            LAWS.iter().zip(self.laws).map(|(way, n)| format!("{way}:{n}")).collect();
        println!("laws for plugging: {}", laws.join("; "));
        let counts: Vec<String> =
            refusals().map(|n| format!("{n}:{}", self.numbers[n as usize])).collect();
        println!(
            "{} cases, 0 differences; refusals {SHORT}..{LAST_REFUSAL}: {}",
            self.cases,
            counts.join(" ")
        );
    }

    /// Every refusal was provoked, and the laws for plugging met each of their ways; else what was not.
    pub fn complete(&self) -> Result<(), String> {
        let missing: Vec<u64> = refusals().filter(|&n| self.numbers[n as usize] == 0).collect();
        if !missing.is_empty() {
            return Err(format!("no input provoked the refusals {missing:?}"));
        }
        if self.laws.contains(&0) {
            return Err("the laws for plugging did not meet each of their ways".to_string());
        }
        Ok(())
    }
}

fn refusals() -> std::ops::RangeInclusive<u64> {
    SHORT..=LAST_REFUSAL
}
