//! Steps of a queue, one by one and in runs. Kinds: step, run.
use crate::chance::*;
use crate::compare::*;
use crate::ffi;
use crate::model::*;
use crate::report::Tally;
use crate::scenes::*;

type StepCall = fn(&[u64], &mut [u64], &mut [u64], &mut [u8], &mut [u64]) -> u64;
type RunCall = fn(&[u64], &mut [u64], &mut [u64], &mut [u8], u64, &mut [u64]) -> u64;

fn step_on(s: &mut Scene, call: StepCall) -> u64 {
    let [v, d, q, r, m] = s.lengths;
    let (view, memory) = (&s.view[..v], &mut s.memory[..m]);
    call(view, &mut s.device[..d], &mut s.queue[..q], memory, &mut s.result[..r])
}

fn run_on(s: &mut Scene, call: RunCall) -> u64 {
    let [v, d, q, r, m] = s.lengths;
    let (view, memory) = (&s.view[..v], &mut s.memory[..m]);
    call(view, &mut s.device[..d], &mut s.queue[..q], memory, s.k, &mut s.result[..r])
}

pub fn step_case(r: &mut Rng, tally: &mut Tally) -> Result<(), String> {
    let mut scene = random_scene(r, false);
    for _ in 0..3 {
        let number = both(tally, "wt_step", &mut scene, [ffi::step, calls::step], step_on)?;
        if number == 0 {
            tally.served += scene.result[0];
            tally.notified += scene.result[1];
            tally.idle += 1 - scene.result[0];
        }
        if number != 0 && !r.one_in(6) {
            break; // a stopped queue gives the same again: try that seldom
        }
    }
    Ok(())
}

pub fn run_case(r: &mut Rng, tally: &mut Tally) -> Result<(), String> {
    let mut scene = random_scene(r, true);
    for _ in 0..2 {
        let number = both(tally, "wt_run", &mut scene, [ffi::run, calls::run], run_on)?;
        if number != RECORD {
            tally.served += scene.result[0];
            tally.notified += scene.result[1];
            tally.idle += scene.result[2];
        }
        if !r.one_in(3) {
            break;
        }
        scene.k = r.pick(&[0, 1, 2, MOST_STEPS]);
    }
    Ok(())
}
