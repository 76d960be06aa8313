//! Instructions and time per event, setting, or octet of a map.

use crate::sides::{Bench, Call, Side};
use crate::workloads::Workload;
use std::process::Command;
use std::time::Instant;

/// Interleaved rounds of which the median is taken.
pub const ROUNDS: usize = 15;
/// About so many events in one side's part of a round.
const EVENTS_PER_ROUND: usize = 400_000;
/// Counted at two lengths, so that the difference is free of everything before the loop.
const CYCLES: [usize; 2] = [1, 3];

/// The figures of the proved and of the plain drive, and the first by the second.
pub struct Sides {
    pub rattle: f64,
    pub plain: f64,
    pub ratio: f64,
}

/// Median nanoseconds per event, the loop included, and a check that both sides did the same. The
/// ratio is the median of the rounds' own: the sides of a round follow one another, so that a
/// machine that changes its clock between two rounds does not change it.
pub fn nanoseconds(workload: &Workload, call: Call) -> Sides {
    let cycles = EVENTS_PER_ROUND.div_ceil(workload.requests(call));
    let events = (cycles * workload.requests(call)) as f64;
    let mut benches = [Bench::new(workload), Bench::new(workload)];
    let mut times = [Vec::new(), Vec::new()];
    // The first round only warms up.
    for round in 0..=ROUNDS {
        for (index, side) in [Side::Rattle, Side::Plain].into_iter().enumerate() {
            let start = Instant::now();
            benches[index].cycles(side, call, cycles);
            if round > 0 {
                times[index].push(start.elapsed().as_nanos() as f64 / events);
            }
        }
    }
    let name = workload.name;
    assert!(
        benches[0].agrees_with(&benches[1]),
        "{name}: the sides differ"
    );
    let ratios = times[0]
        .iter()
        .zip(&times[1])
        .map(|(rattle, plain)| rattle / plain);
    let ratio = median(ratios.collect());
    let [rattle, plain] = times.map(median);
    Sides {
        rattle,
        plain,
        ratio,
    }
}

fn median(mut numbers: Vec<f64>) -> f64 {
    numbers.sort_by(f64::total_cmp);
    numbers[numbers.len() / 2]
}

/// Instructions per event, without the loop; nothing where callgrind cannot be run.
pub fn instructions(workload: &Workload, number: usize, call: Call) -> Option<Sides> {
    let events = ((CYCLES[1] - CYCLES[0]) * workload.requests(call)) as f64;
    let per_event = |side| {
        let [short, long] = CYCLES.map(|cycles| collected(number, side, call, cycles));
        Some((long? - short?) / events)
    };
    let nothing = per_event(Side::Nothing)?;
    let rattle = per_event(Side::Rattle)? - nothing;
    let plain = per_event(Side::Plain)? - nothing;
    Some(Sides {
        rattle,
        plain,
        ratio: rattle / plain,
    })
}

/// What callgrind counts for this very program, told to send one workload to one side.
fn collected(number: usize, side: Side, call: Call, cycles: usize) -> Option<f64> {
    let numbers = [number, side as usize, call as usize, cycles];
    let output = Command::new("valgrind")
        .args(["--tool=callgrind", "--callgrind-out-file=/dev/null"])
        .arg(std::env::current_exe().ok()?)
        .args(numbers.map(|number| number.to_string()))
        .output()
        .ok()?;
    let report = String::from_utf8_lossy(&output.stderr);
    let (_, count) = report.split_once("Collected : ")?;
    count.split_whitespace().next()?.parse().ok()
}
