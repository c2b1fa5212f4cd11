//! The rows of the tables: a call of the library and its peers, each on its own stage, and the bars.
use crate::library;
use crate::measure::Call;
use crate::model;
use crate::plain;
use crate::stages::{self, Element, Guest, Map, PAGES_MEMORY};
use std::hint::black_box;
use std::rc::Rc;

/// The limit set for a row.
#[derive(Clone, Copy, PartialEq)]
pub enum Bar {
    Instructions(f64),
    /// The library's instructions divided by its peer's.
    InstructionRatio(f64),
    /// The library's time divided by its peer's.
    TimeRatio(f64),
}

/// Prepares a call on its own stage.
pub type Column = Box<dyn Fn() -> Call>;

/// One row. The first column is the library's, the second its peer's.
pub struct Row {
    pub name: String,
    /// How much a call does: the steps of a run, or the accesses of a call with many.
    pub share: f64,
    /// How many calls are counted.
    pub calls: u64,
    pub columns: Vec<Column>,
    /// The loop around a call, without the call: subtracted from what is counted.
    pub nothing: Option<Column>,
    /// The line of the table of bars to which the row belongs.
    pub group: String,
    pub bars: Vec<Bar>,
}

type Answer = (u64, [u64; 3]);

pub const RANGES: [u64; 4] = [4, 16, 64, 256];

// ----------------------------------------------------------------------------------------------- routing

/// One access after the other, again and again.
pub struct Accesses {
    pub view: Vec<u64>,
    pub ranges: Vec<plain::Range>,
    pub device: plain::Device,
    pub accesses: Vec<u64>,
    at: usize,
}

impl Accesses {
    pub fn new(count: u64) -> Accesses {
        let runs = stages::pages(count);
        Accesses {
            view: model::view_words(&runs),
            ranges: runs.iter().map(model::Run::words).collect(),
            device: stages::full_device(),
            accesses: stages::accesses(&runs),
            at: 0,
        }
    }

    fn next(&mut self) -> (u64, u64) {
        self.at = (self.at + 1) % 256;
        (self.accesses[2 * self.at], self.accesses[2 * self.at + 1])
    }
}

/// One access in each call.
fn routing(count: u64, call: fn(&Accesses, u64, u64) -> Answer) -> Column {
    Box::new(move || {
        let mut stage = Accesses::new(count);
        Box::new(move || {
            let (address, width) = stage.next();
            assert!(call(black_box(&stage), address, width).0 == 0);
        })
    })
}

/// `wt_route`, which validates view and device on each call.
pub fn route() -> Vec<Row> {
    let row = |count| Row {
        name: format!("wt_route, {count} ranges"),
        share: 1.0,
        calls: 256,
        columns: vec![
            routing(count, |s, a, w| library::route(&s.view, PAGES_MEMORY, &s.device, a, w)),
            routing(count, |s, a, w| {
                plain::route_validated(&s.view, PAGES_MEMORY, Some(&s.device), a, w)
            }),
            routing(count, |s, a, w| plain::route(&s.ranges, Some(&s.device), a, w)),
        ],
        nothing: Some(routing(count, |_, a, w| (0, black_box([a, w, 0])))),
        group: "27 over a view: `wt_route` at 4, 16, 64, 256 ranges".into(),
        bars: vec![Bar::InstructionRatio(1.2), Bar::TimeRatio(1.2)],
    };
    RANGES.into_iter().map(row).collect()
}

/// 256 accesses in each call.
fn routing_all(count: u64, call: fn(&Accesses, &mut [u64]) -> u64) -> Column {
    Box::new(move || {
        let (stage, mut answers) = (Accesses::new(count), vec![0u64; 1024]);
        Box::new(move || {
            assert!(call(black_box(&stage), &mut answers) == 0);
            black_box(&answers);
        })
    })
}

/// `wt_route_all`, which validates once for 256 accesses.
pub fn route_all() -> Vec<Row> {
    let row = |count| Row {
        name: format!("wt_route_all of 256, {count} ranges"),
        share: 256.0,
        calls: 4,
        columns: vec![
            routing_all(count, |s, answers| {
                library::route_all(&s.view, PAGES_MEMORY, &s.device, &s.accesses, answers)
            }),
            routing_all(count, |s, answers| {
                plain::route_all(&s.view, PAGES_MEMORY, Some(&s.device), &s.accesses, answers)
            }),
        ],
        nothing: None,
        group: String::new(),
        bars: vec![],
    };
    RANGES.into_iter().map(row).collect()
}

// ------------------------------------------------------------------------------------------------- steps

type Maker = Rc<dyn Fn() -> Guest>;
type Step = fn(&mut Guest) -> Answer;

/// A call that serves the `offered` chains.
fn stepping(make: &Maker, offered: u16, call: Step) -> Column {
    let make = make.clone();
    Box::new(move || {
        let mut guest = make();
        Box::new(move || {
            guest.offer(offered);
            let (number, result) = call(black_box(&mut guest));
            assert!(number == 0 && result[0] == u64::from(offered), "not served: {number}");
        })
    })
}

pub fn library_step(g: &mut Guest) -> Answer {
    library::step(&g.view, &mut g.device, &mut g.queue, &mut g.memory)
}

pub fn plain_step(g: &mut Guest) -> Answer {
    plain::step_validated(&g.view, &mut g.device, &mut g.queue, &mut g.memory)
}

fn trusted_step(g: &mut Guest) -> Answer {
    plain::answer(plain::step(&g.ranges, &mut g.device, &mut g.queue, &mut g.memory))
}

pub fn library_run(g: &mut Guest) -> Answer {
    library::run(&g.view, &mut g.device, &mut g.queue, &mut g.memory, 256)
}

pub fn plain_run(g: &mut Guest) -> Answer {
    plain::run_validated(&g.view, &mut g.device, &mut g.queue, &mut g.memory, 256)
}

fn trusted_run(g: &mut Guest) -> Answer {
    plain::run(&g.ranges, &mut g.device, &mut g.queue, &mut g.memory, 256)
}

/// One step in each call.
fn step_row(name: String, group: String, make: Maker, bars: Vec<Bar>) -> Row {
    let columns = [library_step as Step, plain_step, trusted_step];
    Row {
        name,
        share: 1.0,
        calls: 256,
        columns: columns.into_iter().map(|call| stepping(&make, 1, call)).collect(),
        nothing: Some(stepping(&make, 1, |_| (0, [1, 0, 0]))),
        group,
        bars,
    }
}

/// A run of 256 steps in each call.
fn run_row(name: String, group: String, make: Maker, bars: Vec<Bar>) -> Row {
    let columns = [library_run as Step, plain_run, trusted_run];
    Row {
        name,
        share: 256.0,
        calls: 2,
        columns: columns.into_iter().map(|call| stepping(&make, 256, call)).collect(),
        nothing: None,
        group,
        bars,
    }
}

/// What the chains ask for: a name, and the requests (type and blocks) that take turns.
const WORKS: [(&str, &[(u16, u16)]); 2] =
    [("STATE", &[(3, 1)]), ("PLUG and UNPLUG of 64 blocks in turn", PLUG_UNPLUG)];
const PLUG_UNPLUG: &[(u16, u16)] = &[(0, 64), (1, 64)];

/// In the rows of `WORKS` nothing is plugged when a PLUG arrives; in these it has the most to count.
const COUNTING: &str = "PLUG and UNPLUG of 64 blocks beside 960 plugged, a small host of 3 ranges";

fn counting() -> Maker {
    Rc::new(|| stages::plugged_guest(PLUG_UNPLUG))
}

/// `wt_step`, which validates all records on each call.
pub fn step() -> Vec<Row> {
    let mut rows = vec![];
    for (work, requests) in WORKS {
        for count in RANGES {
            rows.push(step_row(
                format!("wt_step, {work}, {count} ranges"),
                format!("27 over a view: `wt_step`, {work}, at 4, 16, 64, 256 ranges"),
                Rc::new(move || stages::guest(count, requests)),
                vec![Bar::InstructionRatio(1.2), Bar::TimeRatio(1.2)],
            ));
        }
    }
    for (work, requests) in WORKS {
        rows.push(step_row(
            format!("wt_step, {work}, a small host of 3 ranges"),
            "`wt_step`, one at a time, 3 ranges: STATE; PLUG and UNPLUG".into(),
            Rc::new(move || stages::small_guest(requests)),
            vec![Bar::Instructions(3000.0)],
        ));
    }
    rows.push(step_row(format!("wt_step, {COUNTING}"), String::new(), counting(), vec![]));
    rows
}

/// `wt_run` of 256 steps, which validates once.
pub fn run() -> Vec<Row> {
    let mut rows = vec![];
    for (work, requests) in WORKS {
        for count in RANGES {
            let most = if count == 4 { 1.2 } else { 1.0 };
            let ranges = if count == 4 { "4 ranges" } else { "16, 64, 256 ranges" };
            rows.push(run_row(
                format!("wt_run of 256, {work}, {count} ranges"),
                format!("a step in a run of 256, {work}, {ranges}"),
                Rc::new(move || stages::guest(count, requests)),
                vec![Bar::Instructions(2200.0), Bar::InstructionRatio(most), Bar::TimeRatio(most)],
            ));
        }
    }
    rows.push(run_row(format!("wt_run of 256, {COUNTING}"), String::new(), counting(), vec![]));
    rows
}

/// A step by the length of its readable buffer.
pub fn long_elements() -> Vec<Row> {
    let row = |name, element, length| {
        let make = Rc::new(move || stages::long_guest(element, length));
        step_row(name, String::new(), make, vec![])
    };
    let mut rows = vec![];
    for length in [24, 1 << 20, 1 << 31] {
        rows.push(row(format!("{length} bytes of RAM, 1 range"), Element::OneRange, length));
    }
    for length in [1 << 20, 1 << 31] {
        rows.push(row(format!("{length} bytes of RAM, 256 ranges"), Element::ManyRanges, length));
    }
    for blocks in [1, 1024] {
        let name = format!("{} bytes, {blocks} plugged blocks", blocks * 4096);
        rows.push(row(name, Element::Managed, blocks * 4096));
    }
    rows
}

/// The longest steps: buffers, ranges, and whether the ranges are managed.
const LONGEST: [(u16, u64, bool); 6] = [
    (2, 256, false),
    (256, 4, true),
    (256, 16, true),
    (256, 64, true),
    (256, 256, false),
    (256, 256, true),
];

/// A step by the number of buffers in its chain, each over all ranges except one.
pub fn long_chains() -> Vec<Row> {
    let row = |(elements, ranges, managed)| {
        let over = if managed { "managed, 1,024 blocks each" } else { "RAM" };
        let name = format!("{elements} elements over {ranges} ranges ({over})");
        let make = Rc::new(move || stages::long_chain(managed, ranges, elements));
        Row { calls: 4, ..step_row(name, String::new(), make, vec![]) }
    };
    LONGEST.into_iter().map(row).collect()
}

// -------------------------------------------------------------------------------------------------- maps

type OverMap = fn(&Map, &mut [u64]) -> Answer;

/// A call over a map that is accepted, with a view to write.
fn mapping(map: &Rc<Map>, call: OverMap) -> Column {
    let map = map.clone();
    Box::new(move || {
        let (map, mut view) = (map.clone(), vec![0u64; model::VIEW]);
        Box::new(move || assert!(call(black_box(&map), &mut view).0 == 0))
    })
}

fn said(call: impl FnOnce(&mut [u64]) -> u64) -> Answer {
    let mut result = [0; 3];
    (call(&mut result), result)
}

/// The calls over maps, each with the model's.
const OVER_MAPS: [(&str, OverMap, OverMap); 3] = [
    (
        "wt_check_map",
        |m, _| library::check_map(&m.words, m.memory),
        |m, _| said(|r| model::calls::check_map(&m.words, m.memory, r)),
    ),
    (
        "wt_walk",
        |m, _| library::walk(&m.words, m.memory, 0),
        |m, _| said(|r| model::calls::walk(&m.words, m.memory, 0, r)),
    ),
    (
        "wt_flatten",
        |m, v| library::flatten(&m.words, m.memory, v),
        |m, v| said(|r| model::calls::flatten(&m.words, m.memory, v, r)),
    ),
];

fn map_rows(name: &str, map: Map, bars: [Vec<Bar>; 3]) -> Vec<Row> {
    let map = Rc::new(map);
    let row = |((call, library, peer), bars): (&(&str, OverMap, OverMap), Vec<Bar>)| Row {
        name: format!("{call}, {name}"),
        share: 1.0,
        calls: 16,
        columns: vec![mapping(&map, *library), mapping(&map, *peer)],
        nothing: None,
        group: format!("`{call}` of the largest of QEMU's maps"),
        bars,
    };
    OVER_MAPS.iter().zip(bars).map(row).collect()
}

/// `wt_check_map`, `wt_walk` and `wt_flatten`.
pub fn maps() -> Vec<Row> {
    let (name, largest) = stages::largest_of_qemu();
    let bars = [
        vec![Bar::Instructions(100e3)],
        vec![Bar::Instructions(120e3)],
        vec![Bar::Instructions(300e3), Bar::TimeRatio(2.0)],
    ];
    let none = || [vec![], vec![], vec![]];
    let mut rows = map_rows(&format!("QEMU's {name}"), largest, bars);
    rows.extend(map_rows("31 regions side by side (31 runs)", stages::ordinary(), none()));
    rows.extend(map_rows("two leaves doubled seven times (256 runs)", stages::doubled(), none()));
    rows
}

/// The worst map found, which is refused with 12. It is in no table (towers.rs has it), but can be counted and profiled.
pub fn worst() -> Vec<Row> {
    let library: Column = Box::new(|| {
        let (map, mut view) = (stages::worst(), vec![0u64; model::VIEW]);
        Box::new(move || assert!(library::flatten(&map.words, map.memory, &mut view).0 == 12))
    });
    vec![Row {
        name: "wt_flatten, the worst map".into(),
        share: 1.0,
        calls: 1,
        columns: vec![library],
        nothing: None,
        group: String::new(),
        bars: vec![],
    }]
}
