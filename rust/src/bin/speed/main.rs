//! Compares the speed of the proved drive with that of the plain one. `rust/measure` runs it;
//! `docs/SPEED.md` says how to read what it prints.
//!
//! With four numbers (workload, side, call, cycles) it only does that work, for callgrind to count.

mod figures;
mod maps;
mod sides;
mod stream;
mod traces;
mod workloads;

use figures::{instructions, nanoseconds, Sides, ROUNDS};
use sides::{Bench, Call, Side};
use workloads::Workload;

#[allow(dead_code, unused_imports)] // the tests use the rest
#[path = "../../../shared/mod.rs"]
mod shared;

const SIDES: [Side; 3] = [Side::Rattle, Side::Plain, Side::Nothing];
const CALLS: [Call; 7] = [
    Call::Single,
    Call::Run,
    Call::Replay,
    Call::Line,
    Call::Lines,
    Call::LinesPlain,
    Call::Map,
];

fn main() {
    let numbers: Vec<usize> = std::env::args()
        .skip(1)
        .map(|argument| argument.parse().expect("numbers only"))
        .collect();
    match numbers[..] {
        [] => print_tables(),
        [number, side, call, cycles] => {
            let call = CALLS[call];
            let workload = &workloads::of(call)[number];
            Bench::new(workload).cycles(SIDES[side], call, cycles);
        }
        _ => panic!("either no number or workload, side, call and cycles"),
    }
}

fn print_tables() {
    for call in CALLS {
        println!("{}", title(call));
        println!("{:40} {:^27}   {:^27}", "", "instructions", "ns, median");
        println!("{:40} {}   {}", "workload", column_names(), column_names());
        for (number, workload) in workloads::of(call).iter().enumerate() {
            print_row(workload, number, call);
        }
        println!();
    }
    println!(
        "Times and their ratios are medians of {ROUNDS} rounds. Aims: a ratio of 1.0; at most 1.15"
    );
    println!("in instructions and in time.");
}

fn title(call: Call) -> &'static str {
    match call {
        Call::Single => "pg_event; both sides test rows 11 and 10 at every event",
        Call::Run => "pg_run, per record; the plain side tests rows 11 and 10 once in a run",
        Call::Replay => "pg_replay, per record; the plain side tests rows 11 and 10 once in a part",
        Call::Line => "pg_line; both sides judge the follower's octet at every setting",
        Call::Lines => "pg_lines, per setting; the plain side judges the octet once in a trace",
        Call::LinesPlain => "pg_lines_plain, per setting; the plain side is that of pg_lines",
        Call::Map => "pg_decode_map and the like, per octet of the map",
    }
}

/// Decimal places of instructions and of nanoseconds.
fn places(call: Call) -> [usize; 2] {
    match call {
        Call::Map => [2, 3],
        _ => [1, 2],
    }
}

fn column_names() -> String {
    format!("{:>9}{:>9}{:>9}", "Rattle", "plain", "ratio")
}

fn print_row(workload: &Workload, number: usize, call: Call) {
    let counted = instructions(workload, number, call);
    let timed = nanoseconds(workload, call);
    let [of_instructions, of_nanoseconds] = places(call);
    let counted = match counted {
        Some(sides) => columns(&sides, of_instructions),
        None => format!("{:>27}", "no callgrind"),
    };
    let timed = columns(&timed, of_nanoseconds);
    println!("{:40} {counted}   {timed}", workload.name);
}

fn columns(sides: &Sides, places: usize) -> String {
    let Sides {
        rattle,
        plain,
        ratio,
    } = sides;
    format!("{rattle:9.places$}{plain:9.places$}{ratio:9.2}")
}
