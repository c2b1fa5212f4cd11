//! The randomized checker: the library behind wicktumble.h beside the plain model of document 01.
//!
//!     independent SECONDS            for about that long
//!     independent --cases N          N cases of each kind
//!     ... --seed S                   another master seed (default 1)
//!     ... --only KIND                one kind alone (then no number need be provoked)
//!     independent --replay KIND SEED one case again, by the seed that a difference printed
//!     independent --kinds            the names of the kinds
//!
//! A case is one generated input; most make several calls. Each call is made on the library and on the
//! model from the same state; number, result words, every record and all of memory must agree, with
//! guard words behind every buffer. On a difference: kind, seed, input, exit 1.
//!
//! A file makes one thing: chance, maps, sheets, devices, and so on; `model` is document 01. A new kind of input is a
//! file of its own and a line in KINDS.
mod chance;
mod compare;
mod defaults;
mod devices;
#[path = "../library.rs"]
#[rustfmt::skip]
mod ffi;
mod guests;
mod layers;
mod maps;
mod model;
mod parked;
mod plugging;
mod queues;
mod report;
mod requests;
mod routes;
mod scenes;
mod self_test;
mod sheets;
mod steps;
mod views;

use chance::Rng;
use report::Tally;
use std::time::Instant;

type Case = fn(&mut Rng, &mut Tally) -> Result<(), String>;

/// The kinds of input. A kind's place here is part of its seeds, so a new one goes before the last or changes those behind it.
const KINDS: &[(&str, Case)] = &[
    ("sheet", sheets::sheet_case),
    ("check", maps::check_case),
    ("walk", maps::walk_case),
    ("flatten", maps::flatten_case),
    ("parked", parked::parked_case),
    ("defaults", defaults::defaults_case),
    ("set-up", devices::host_case),
    ("request", requests::request_case),
    ("plugging", plugging::plugging_case),
    ("route", routes::route_case),
    ("look-up", routes::look_up_case),
    ("queue", queues::queue_case),
    ("step", steps::step_case),
    ("run", steps::run_case),
    (SELF_TEST, self_test::self_case),
];

/// The kind that tries the model alone; its cases are not counted.
const SELF_TEST: &str = "self";

/// Cases of one kind before the next kind's turn.
const BATCH: u64 = 32;

/// What the words of the program say.
struct Options {
    seconds: Option<u64>,
    cases: Option<u64>,
    seed: u64,
    only: Option<usize>,
    replay: Option<(usize, u64)>,
}

impl Options {
    fn of(words: &[String]) -> Options {
        let mut options = Options { seconds: None, cases: None, seed: 1, only: None, replay: None };
        let mut words = words.iter().map(String::as_str);
        while let Some(word) = words.next() {
            let mut value = || words.next().unwrap_or_else(|| usage());
            match word {
                "--cases" => options.cases = Some(number(value())),
                "--seed" => options.seed = number(value()),
                "--only" => options.only = Some(kind_of(value())),
                "--replay" => options.replay = Some((kind_of(value()), number(value()))),
                text => options.seconds = Some(number(text)),
            }
        }
        if options.replay.is_none() && options.seconds.is_none() == options.cases.is_none() {
            usage();
        }
        options
    }

    fn wants(&self, kind: usize) -> bool {
        self.only.map_or(true, |only| only == kind)
    }

    fn finished(&self, done: &[u64], start: Instant) -> bool {
        match (self.cases, self.seconds) {
            (Some(n), _) => (0..KINDS.len()).all(|kind| done[kind] >= n || !self.wants(kind)),
            (_, Some(s)) => start.elapsed().as_secs_f64() >= s as f64,
            _ => true,
        }
    }
}

fn number(text: &str) -> u64 {
    let parsed = match text.strip_prefix("0x") {
        Some(hex) => u64::from_str_radix(hex, 16),
        None => text.parse(),
    };
    parsed.unwrap_or_else(|_| usage())
}

fn kind_of(name: &str) -> usize {
    KINDS.iter().position(|kind| kind.0 == name).unwrap_or_else(|| usage())
}

fn one(kind: usize, seed: u64, tally: &mut Tally) {
    if let Err(text) = KINDS[kind].1(&mut Rng(seed), tally) {
        let name = KINDS[kind].0;
        println!("DIFFERENCE in kind {name}, seed {seed:#x}");
        println!("{text}");
        println!("again: independent --replay {name} {seed:#x}");
        std::process::exit(1);
    }
}

fn case_seed(master: u64, kind: usize, index: u64) -> u64 {
    let mut mix = Rng(master ^ (kind as u64) << 56);
    Rng(mix.next() ^ index.wrapping_mul(0xd134_2543_de82_ef95)).next()
}

/// Batches of each kind in turn until it is enough: how many cases of each.
fn all(options: &Options, tally: &mut Tally, start: Instant) -> [u64; KINDS.len()] {
    let mut done = [0; KINDS.len()];
    loop {
        for kind in (0..KINDS.len()).filter(|&kind| options.wants(kind)) {
            let end = (done[kind] + BATCH).min(options.cases.unwrap_or(u64::MAX));
            for index in done[kind]..end {
                tally.cases += u64::from(KINDS[kind].0 != SELF_TEST);
                one(kind, case_seed(options.seed, kind, index), tally);
            }
            done[kind] = end;
        }
        if options.finished(&done, start) {
            return done;
        }
    }
}

fn main() {
    let words: Vec<String> = std::env::args().skip(1).collect();
    if words == ["--kinds"] {
        KINDS.iter().for_each(|kind| println!("{}", kind.0));
        return;
    }
    let options = Options::of(&words);
    let mut tally = Tally::default();
    if let Some((kind, seed)) = options.replay {
        one(kind, seed, &mut tally);
        println!("no difference");
        return;
    }
    println!("master seed {}", options.seed);
    if let Err(text) = self_test::worked_values() {
        fail(&text);
    }
    println!("worked values of the paper: the model gives them");
    let start = Instant::now();
    let done = all(&options, &mut tally, start);
    let counts: Vec<(&str, u64)> = KINDS.iter().map(|kind| kind.0).zip(done).collect();
    tally.print(&counts, start.elapsed().as_secs_f64());
    if options.only.is_none() {
        tally.complete().unwrap_or_else(|text| fail(&format!("FAILED: {text}")));
    }
}

fn fail(text: &str) -> ! {
    println!("{text}");
    std::process::exit(1);
}

fn usage() -> ! {
    eprintln!(
        "usage: independent SECONDS | --cases N [--seed S] [--only KIND] | --replay KIND SEED | --kinds"
    );
    std::process::exit(2);
}
