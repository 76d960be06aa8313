//! Replays a capture on a drive of any set-up with all words zero, and writes the report that
//! `docs/CAPTURES.md` describes.
//!
//! ```sh
//! cargo run --example replay 2 2 3 1 2 1 3 < ../docs/samples/two-hosts.capture
//! ```
//!
//! The numbers are cylinders, heads, sectors, the words of header, field 1 and field 2, and the
//! address; those above are the bench drive's.

use pantoglide::raw::RECORD_OCTETS;
use pantoglide::{Board, Capture, Outcome, Refusal, Setup};
use std::io::Read;
use std::process::ExitCode;

/// The port's place in a record.
const PORT: usize = 2;

fn main() -> ExitCode {
    let Some(setup) = setup_from_arguments() else {
        eprintln!("seven numbers: cylinders heads sectors header field1 field2 address");
        return ExitCode::FAILURE;
    };
    let mut octets = Vec::new();
    if let Err(error) = std::io::stdin().read_to_end(&mut octets) {
        eprintln!("{error}");
        return ExitCode::FAILURE;
    }
    match report(setup, &octets) {
        Ok(report) => {
            print!("{report}");
            ExitCode::SUCCESS
        }
        Err(refusal) => {
            eprintln!("{refusal}");
            println!("refused {}", refusal.number());
            ExitCode::FAILURE
        }
    }
}

fn setup_from_arguments() -> Option<Setup> {
    let numbers = std::env::args().skip(1).map(|number| number.parse().ok());
    let numbers = numbers.collect::<Option<Vec<u16>>>()?;
    numbers.try_into().ok().map(Setup::from_numbers)
}

fn report(setup: Setup, octets: &[u8]) -> Result<String, Refusal> {
    let capture = Capture::find(octets)?;
    // Limits are judged before any word is asked for.
    if let Err(Refusal::OutsideLimits) = Board::power_up(setup, &mut [], &mut []) {
        return Err(Refusal::OutsideLimits);
    }
    let mut sectors = vec![0; setup.drive_words()];
    let mut staging = vec![0; setup.sector_words()];
    let mut board = Board::power_up(setup, &mut sectors, &mut staging)?;

    let outcomes = board.run(capture.records())?;
    let mut report = format!("events {}\n", outcomes.len());
    let records = capture.records().chunks_exact(RECORD_OCTETS);
    for (number, (record, outcome)) in records.zip(&outcomes).enumerate() {
        report += &line(number + 1, record[PORT], outcome);
    }
    let owner = board.owner().map(|port| port.to_string());
    report += &format!("owner {}\n", owner.as_deref().unwrap_or("none"));
    Ok(report)
}

/// Event, port, refusal, and the status where the answer has one.
fn line(number: usize, port: u8, outcome: &Outcome) -> String {
    let (refusal, status) = match outcome {
        Ok(answer) => (0, answer.status),
        Err(refusal) => (refusal.number(), None),
    };
    let status = status.map_or("--".into(), |status| format!("{:02X}", status as u8));
    format!("{number} {port} {refusal} {status}\n")
}
