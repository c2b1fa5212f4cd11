//! The report: the bars first, then the tables.
use crate::measure::{self, number, time};
use crate::rows::{Bar, Row};
use std::fmt::Write;

/// A line of the table of bars.
struct Line {
    what: String,
    bar: String,
    measured: Vec<String>,
    met: Option<bool>,
}

pub struct Report {
    pub text: String,
    lines: Vec<Line>,
    /// Whether valgrind is installed.
    pub counting: bool,
}

/// Times in nanoseconds and instructions of a row, by column; if a call makes many steps or accesses, those of one.
pub struct Measured {
    pub times: Vec<f64>,
    pub instructions: Vec<Option<f64>>,
}

impl Measured {
    pub fn time(&self, column: usize) -> Option<f64> {
        self.times.get(column).copied()
    }
}

/// The contents of a cell if nothing was measured.
const NOTHING: &str = "-";

pub fn ratio(library: Option<f64>, peer: Option<f64>) -> String {
    let of = library.zip(peer).map(|(library, peer)| format!("{:.2}", library / peer));
    of.unwrap_or(NOTHING.into())
}

/// The columns whose instructions are counted: the library, its peer, and the loop around them.
const COUNTED: [&str; 3] = ["library", "peer", "nothing"];

/// The calls of a row's column.
pub fn column<'a>(row: &'a Row, name: &str) -> Option<&'a crate::rows::Column> {
    match name {
        "library" => row.columns.first(),
        "peer" => row.columns.get(1),
        _ => row.nothing.as_ref(),
    }
}

impl Report {
    pub fn new() -> Report {
        Report { text: String::new(), lines: vec![], counting: measure::has_valgrind() }
    }

    pub fn say(&mut self, line: &str) {
        self.text.push_str(line);
        self.text.push('\n');
    }

    /// The instructions of this program's row, by column.
    fn count(&self, row: &Row) -> Vec<Option<f64>> {
        let program = std::env::current_exe().unwrap();
        let of = |name: &str| {
            let words = ["--count", row.name.as_str(), name];
            column(row, name).filter(|_| self.counting)?;
            measure::instructions(program.to_str()?, &words, row.calls)
        };
        let [library, peer, nothing] = COUNTED.map(of);
        let less = |n: Option<f64>| n.map(|n| (n - nothing.unwrap_or(0.0)) / row.share);
        vec![less(library), less(peer)]
    }

    pub fn measure(&mut self, row: &Row) -> Measured {
        eprintln!("{}", row.name);
        let calls = row.columns.iter().map(|make| make()).collect();
        let times = measure::times(calls).into_iter().map(|t| t / row.share).collect();
        let measured = Measured { times, instructions: self.count(row) };
        for bar in &row.bars {
            self.hold(row, &measured, *bar);
        }
        measured
    }

    /// Compares a row with its bar.
    fn hold(&mut self, row: &Row, m: &Measured, bar: Bar) {
        let (library, peer) = (m.instructions[0], m.instructions[1]);
        let within = |a: Option<f64>, b: Option<f64>, most| a.zip(b).map(|(a, b)| a <= most * b);
        let (ours, theirs) = (m.time(0), m.time(1));
        match bar {
            Bar::Instructions(most) => {
                let text = format!("{} instructions", number(Some(most)));
                self.bar(&row.group, &text, number(library), library.map(|n| n <= most));
            }
            Bar::InstructionRatio(most) => {
                let text = format!("{most:.1} times the peer's instructions");
                self.bar(&row.group, &text, ratio(library, peer), within(library, peer, most));
            }
            Bar::TimeRatio(most) => {
                let text = format!("{most:.1} times the peer's time");
                self.bar(&row.group, &text, ratio(ours, theirs), within(ours, theirs, most));
            }
        }
    }

    /// Adds a measured value to the line of its bar.
    pub fn bar(&mut self, what: &str, bar: &str, measured: String, met: Option<bool>) {
        let at = self.lines.iter().position(|l| l.what == what && l.bar == bar);
        let at = at.unwrap_or_else(|| {
            let (what, bar) = (what.to_string(), bar.to_string());
            self.lines.push(Line { what, bar, measured: vec![], met: Some(true) });
            self.lines.len() - 1
        });
        let line = &mut self.lines[at];
        line.measured.push(measured);
        line.met = line.met.zip(met).map(|(before, now)| before && now);
    }

    /// A table of rows: times of the library and its peers, then instructions of the library and its peer.
    pub fn table(&mut self, peer: &str, rows: Vec<Row>) -> Vec<Measured> {
        let trusted = rows.iter().any(|row| row.columns.len() > 2);
        let more = if trusted { " trusted | ratio |" } else { "" };
        let line = "|---".repeat(if trusted { 9 } else { 7 });
        self.say(&format!(
            "| what | library | {peer} | ratio |{more} instructions | {peer} | ratio |\n{line}|"
        ));
        let mut all = vec![];
        for row in rows {
            let m = self.measure(&row);
            let (library, peer, third) = (m.time(0), m.time(1), m.time(2));
            let mut cells = vec![row.name, time(library), time(peer), ratio(library, peer)];
            if trusted {
                cells.extend([time(third), ratio(library, third)]);
            }
            let (library, peer) = (m.instructions[0], m.instructions[1]);
            cells.extend([number(library), number(peer), ratio(library, peer)]);
            self.say(&format!("| {} |", cells.join(" | ")));
            all.push(m);
        }
        all
    }

    /// The table of bars.
    pub fn bars(&self) -> String {
        let mut out = String::from("| what | bar | measured | |\n|---|---|---|---|\n");
        for line in &self.lines {
            let met = match line.met {
                Some(true) => "met",
                Some(false) => "**missed**",
                None => "not counted",
            };
            let measured = line.measured.join(", ");
            writeln!(out, "| {} | {} | {measured} | {met} |", line.what, line.bar).unwrap();
        }
        out
    }
}
