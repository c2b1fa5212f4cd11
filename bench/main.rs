//! The benchmark: the library beside plain Rust, in one run, as Markdown. bench/run builds and runs it.
//!
//!     bench                    the report
//!     bench --only TEXT        the rows whose names contain the text
//!     bench --names            all names
//!     bench --count NAME library|peer|nothing N    a row's call, N times, for valgrind to count
//!
//! Peers: "same checks" validates every record on every call, as the library must (27); "trusted" is the same
//! code on records that were validated before. Both are in plain.rs. agree.rs compares "same checks" with the
//! library. "model" is tests/independent/model, which is written to be read, not to be fast. vm_memory.rs is a
//! separate program, which bench/run builds if vm-memory is installed.
mod agree;
mod library;
mod measure;
#[path = "../tests/independent/model/mod.rs"]
mod model;
mod plain;
mod report;
mod rows;
mod stages;
mod towers;

use measure::{number, time};
use report::{ratio, Measured, Report};
use rows::Row;
use std::process::Command;

/// All rows that can be counted.
fn all_rows() -> Vec<Row> {
    let rows = [
        rows::maps,
        rows::route,
        rows::route_all,
        rows::step,
        rows::run,
        rows::long_elements,
        rows::long_chains,
        rows::worst,
    ];
    rows.into_iter().flat_map(|of| of()).collect()
}

/// What a command prints, if it exists and succeeds.
fn printed(program: &str, words: &[&str]) -> Option<String> {
    let output = Command::new(program).args(words).output().ok()?;
    let text = String::from_utf8_lossy(&output.stdout).trim().to_string();
    output.status.success().then_some(text)
}

fn machine() -> String {
    let info = std::fs::read_to_string("/proc/cpuinfo").unwrap_or_default();
    let model = info.lines().find_map(|l| l.strip_prefix("model name")?.split_once(": "));
    let cores = std::thread::available_parallelism().map_or(1, |n| n.get());
    let of = |program, words: &[&str]| printed(program, words).unwrap_or("none".into());
    format!(
        "One run of `bench/run`, {}: {cores} cores ({}), {}, valgrind: {}, load {}.",
        of("date", &["-u", "+%Y-%m-%d %H:%M UTC"]),
        model.map_or("unknown", |m| m.1),
        of("rustc", &["--version"]),
        of("valgrind", &["--version"]),
        of("cut", &["-d", " ", "-f", "1", "/proc/loadavg"]),
    )
}

// ----------------------------------------------------------------------------- vm-memory, if it was built

const VM_MEMORY: &str = "
vm-memory trusts its map. `get_slice` (lookup) and `read_obj` (lookup and read) are for one access in RAM.
`wt_route_all` is a call of 256 accesses, divided by 256.

| ranges | wt_route_all | get_slice | read_obj | ratio to read_obj | instructions | get_slice | read_obj | ratio |
|---|---|---|---|---|---|---|---|---|";

/// `wt_route_all` compared with vm-memory, whose program bench/run puts in the same folder as this one.
fn vm_memory(report: &mut Report, routed: &[Measured]) {
    report.say("\n## Many accesses beside vm-memory");
    let program = std::env::current_exe().unwrap().with_file_name("vm_memory_peer");
    let program = program.to_str().unwrap();
    let Some(printed) = printed(program, &[]) else {
        report.say("\nNot measured: vm-memory is not installed (Debian's librust-vm-memory-dev).");
        return;
    };
    report.say(VM_MEMORY);
    let group = "`wt_route_all` of 256 at 4, 16, 64, 256 ranges, beside vm-memory's `read_obj`";
    for ((count, line), ours) in rows::RANGES.into_iter().zip(printed.lines()).zip(routed) {
        let times: Vec<f64> = line.split(' ').map(|t| t.parse().unwrap()).collect();
        let counted = |call: &str| {
            let words = ["--count", call, &count.to_string()];
            let counted = report.counting.then(|| measure::instructions(program, &words, 4));
            counted.flatten().map(|n| n / 256.0)
        };
        let (t, n) = (ours.time(0), ours.instructions[0]);
        let (lookup, read) = (Some(times[0]), Some(times[1]));
        let (lookup_n, read_n) = (counted("get_slice"), counted("read_obj"));
        let cells = [
            [count.to_string(), time(t), time(lookup), time(read), ratio(t, read)].join(" | "),
            [number(n), number(lookup_n), number(read_n), ratio(n, read_n)].join(" | "),
        ];
        report.say(&format!("| {} |", cells.join(" | ")));
        let met = n.zip(read_n).map(|(ours, theirs)| ours <= theirs);
        report.bar(group, "1.0 times its instructions", ratio(n, read_n), met);
        let met = t.zip(read).map(|(ours, theirs)| ours <= theirs);
        report.bar(group, "1.0 times its time", ratio(t, read), met);
    }
}

/// The stack of each call, measured by tests/stack.
fn stack(report: &mut Report) {
    report.say("\n## The stack of a call\n");
    let Some(text) = printed("tests/stack/run", &[]) else {
        report.say("Not measured: tests/stack/run failed.");
        return;
    };
    report.say("| call | bytes | |\n|---|---|---|");
    let mut worst = (0, "");
    for line in text.lines() {
        let mut words = line.splitn(2, ' ');
        let call = words.next().unwrap_or("");
        let (bytes, note) =
            words.next().unwrap_or("").trim().split_once(" bytes").unwrap_or(("0", ""));
        let bytes: u64 = bytes.parse().unwrap_or(0);
        report.say(&format!("| {call} | {} | {} |", number(Some(bytes as f64)), note.trim()));
        worst = worst.max((bytes, call));
    }
    let measured = format!("{} bytes (`{}`)", number(Some(worst.0 as f64)), worst.1);
    report.bar("the stack of any call", "32 KB", measured, Some(worst.0 <= 32 << 10));
}

/// Checks that the peer gives the library's answers.
fn fairness(report: &mut Report) {
    let list = |numbers: agree::Numbers| {
        let cases: Vec<String> = numbers.iter().map(|(n, times)| format!("{n}: {times}")).collect();
        cases.join(", ")
    };
    let (routes, steps) = (list(agree::routes(2000)), list(agree::steps(1000)));
    report.say(&format!(
        "Plain Rust with the same checks gave the same answers as the library, and left the same records and\n\
         memory, in these cases (number: how often; 0 is no refusal): accesses {routes}; steps and runs {steps}."
    ));
}

/// The longest call: a run of 256 of the longest steps.
fn longest_run(report: &mut Report) {
    for (over, managed) in [("RAM", false), ("managed memory", true)] {
        let mut guest = stages::long_chain(managed, 256, 256);
        let ns = measure::few(&mut || {
            guest.offer(256);
            assert!(rows::library_run(&mut guest) == (0, [256, 1, 0]));
        });
        let line = format!(
            "`wt_run` of 256 steps of 256 elements over 256 ranges of {over}: {}.",
            time(Some(ns))
        );
        report.say(&format!("\n{line}"));
    }
}

const MAPS: &str = "
## Maps

The peer is the model's check, walk and renderer (which works as QEMU's does). The walk is of address 0. Both sides
validate the map first.
";

const ONE_ACCESS: &str = "
## One access

Every access succeeds; ranges and widths are random. `wt_route` validates view and device on each call.
";

const MANY_ACCESSES: &str = "
## Many accesses

`wt_route_all` validates view and device once for 256 accesses. The figures are those of a call, divided by 256.
";

const ONE_STEP: &str = "
## One step

`wt_step` validates all records on each call. The chain has two buffers (called elements in the names of rows). The
queue (256 entries) is in the last range; on the small host it is in the first.
";

const RUN: &str = "
## A step in a run of 256

`wt_run` validates the records once. The figures are those of a call, divided by 256.
";

const LENGTHS: &str = "
## A step by the length of its buffer
";

const LONGEST: &str = "
## The longest steps

The longest steps that a guest can cause: the last buffer has room for the response, and every other buffer covers all
ranges except the queue's.
";

const TOWERS: &str = "
## The worst maps

Towers of containers. Each level shows the level below it several times (ways), once as a child and otherwise through
aliases that overlap, so there are ways^levels ways through the tree. At the bottom is nothing, a byte at each end, or
RAM. Times are the best of seven calls, or of fewer if these take over a second together.
";

const TIMES: &str =
    "A ratio is the library's figure divided by the peer's. `same checks`: plain Rust that validates all records on each call;
`trusted`: the same without validating them. Times are the best of several rounds; the columns of a row take turns.";

const COUNTED: &str =
    "Instructions are counted by callgrind: a program makes the call N times, then 2 N times, and the difference is divided by
N. The cost of the loop around the call is subtracted. Counts are the same from run to run; times are not. Callgrind
counts each byte of a long copy (`rep movsb`) as an instruction.";

const NOT_COUNTED: &str = "Instructions are not counted: valgrind is not installed.";

/// Only the rows whose names contain a text.
fn only(text: &str) {
    let mut report = Report::new();
    report.table("peer", all_rows().into_iter().filter(|row| row.name.contains(text)).collect());
    println!("{}{}", report.text, if report.counting { "" } else { NOT_COUNTED });
}

fn report() {
    let mut report = Report::new();
    fairness(&mut report);
    report.say(MAPS);
    report.table("model", rows::maps());
    report.say(ONE_ACCESS);
    report.table("same checks", rows::route());
    report.say(MANY_ACCESSES);
    let routed = report.table("same checks", rows::route_all());
    vm_memory(&mut report, &routed);
    report.say(ONE_STEP);
    report.table("same checks", rows::step());
    report.say(RUN);
    report.table("same checks", rows::run());
    report.say(LENGTHS);
    report.table("same checks", rows::long_elements());
    report.say(LONGEST);
    report.table("same checks", rows::long_chains());
    longest_run(&mut report);
    report.say(TOWERS);
    towers::towers(&mut report);
    stack(&mut report);

    let counted = if report.counting { COUNTED } else { NOT_COUNTED };
    println!("{}\n\n{TIMES}\n\n{counted}", machine());
    println!("\n## The bars\n\n{}\n{}", report.bars(), report.text.trim_end());
}

fn main() {
    let words: Vec<String> = std::env::args().skip(1).collect();
    let words: Vec<&str> = words.iter().map(String::as_str).collect();
    match words[..] {
        [] => report(),
        ["--names"] => all_rows().iter().for_each(|row| println!("{}", row.name)),
        ["--only", text] => only(text),
        ["--count", name, column, calls] => {
            let row = all_rows().into_iter().find(|row| row.name == name).expect("no such row");
            let mut call = report::column(&row, column).expect("no such column")();
            (0..calls.parse::<u64>().expect("a number")).for_each(|_| call());
        }
        _ => panic!("see the head of bench/main.rs"),
    }
}
