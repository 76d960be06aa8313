//! Lists the defects of a map, the octets of whose data fields are on standard input: a line for the
//! storage track, one for each defect (cylinder, head, octets from Index, bits), and their number.
//! `docs/DEFECTS.md` has the dump of a map.
//!
//! ```sh
//! xxd -r -p map.hex | cargo run --example defects 2 2 3 1 14 1 3
//! ```
//!
//! The numbers are cylinders, heads, sectors, the words of header, field 1 and field 2, and the
//! address.

use pantoglide::{Defect, Setup, Track};
use std::error::Error;
use std::io::Read;
use std::process::ExitCode;

const USAGE: &str = "seven numbers: cylinders heads sectors header field1 field2 address";

fn main() -> ExitCode {
    match list_defects() {
        Ok(()) => ExitCode::SUCCESS,
        Err(error) => {
            eprintln!("{error}");
            ExitCode::FAILURE
        }
    }
}

fn list_defects() -> Result<(), Box<dyn Error>> {
    let numbers = std::env::args().skip(1).map(|number| number.parse());
    let numbers = numbers.collect::<Result<Vec<u16>, _>>()?;
    let setup = Setup::from_numbers(numbers.try_into().map_err(|_| USAGE)?);
    let mut octets = Vec::new();
    std::io::stdin().read_to_end(&mut octets)?;

    let mut room = vec![0; octets.len() / 3];
    let map = setup.decode_map(&octets, &mut room)?;
    let Track { cylinder, head } = map.storage();
    println!("storage {cylinder} {head}");
    for defect in map.defects() {
        let Defect {
            cylinder,
            head,
            offset,
            length,
        } = defect;
        println!("{cylinder} {head} {offset} {length}");
    }
    println!("defects {}", map.defects().len());
    Ok(())
}
