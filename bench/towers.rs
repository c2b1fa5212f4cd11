//! The worst maps found.
use crate::library;
use crate::measure::{few, time};
use crate::model;
use crate::report::{ratio, Report};
use crate::stages::{tower, Bottom};

/// A family of towers: what is at the bottom, the ways at each level, and whether the edges differ.
const FAMILIES: [(Bottom, u64, bool); 10] = [
    (Bottom::Hole, 2, true),
    (Bottom::Hole, 3, true),
    (Bottom::Hole, 4, true),
    (Bottom::Hole, 3, false),
    (Bottom::Ends, 2, true),
    (Bottom::Ends, 3, true),
    (Bottom::Ends, 4, true),
    (Bottom::Whole, 2, true),
    (Bottom::Whole, 3, true),
    (Bottom::Whole, 4, true),
];

const LEAF: u64 = 1 << 24;

/// The library's time, and the line of the table.
fn measure(
    bottom: Bottom,
    ways: u64,
    levels: u32,
    shifted: bool,
    regions: usize,
    map: &[u64],
) -> (f64, String) {
    let (mut view, mut result) = (vec![0u64; model::VIEW], [0; 3]);
    let mut model_view = view.clone();
    let (mut number, mut expected) = (0, 0);
    let ours = few(&mut || number = library::flatten(map, LEAF, &mut view).0);
    let theirs =
        few(&mut || expected = model::calls::flatten(map, LEAF, &mut model_view, &mut result));
    assert_eq!((number, &view), (expected, &model_view));
    let bottom = match bottom {
        Bottom::Hole => "nothing",
        Bottom::Ends => "ends",
        Bottom::Whole => "RAM",
    };
    let edges = if shifted { "all differ" } else { "the same" };
    let answer =
        if number == 0 { format!("{} runs", view[0]) } else { format!("refused {number}") };
    let line = format!(
        "| {bottom} | {ways} | {levels} | {regions} | {} | {edges} | {answer} | {} | {} | {} |",
        ways.pow(levels),
        time(Some(ours)),
        time(Some(theirs)),
        ratio(Some(ours), Some(theirs))
    );
    (ours, line)
}

pub fn towers(report: &mut Report) {
    report.say("| bottom | ways | levels | regions | ways through | edges | answer | wt_flatten | model | ratio |");
    report.say("|---|---|---|---|---|---|---|---|---|---|");
    let mut worst = (0.0, String::new());
    for (bottom, ways, shifted) in FAMILIES {
        for levels in 1.. {
            let nodes = tower(ways, levels, shifted, bottom, LEAF);
            if nodes.len() > 32 {
                break;
            }
            let words = model::map_words(&nodes);
            let (ours, line) = measure(bottom, ways, levels, shifted, nodes.len(), &words);
            if levels % 3 == 0 || ours > 1e8 || nodes.len() as u64 + ways > 32 {
                report.say(&line);
            }
            if ours > worst.0 {
                worst = (ours, line);
            }
            if ours > 2e9 {
                break;
            }
        }
    }
    report.say(&format!("\nThe worst of them: {}", worst.1));
    report.bar("the worst sheet", "50 ms", time(Some(worst.0)), Some(worst.0 <= 50e6));
}
