//! Two hosts and a takeover: the layout host is in the middle of a glyph when the imagesetter host
//! takes the drive over. The half glyph is written nowhere, the imagesetter reads what was there
//! before, and the layout host is told when it comes back.
//!
//! ```sh
//! cargo run --example takeover
//! ```

use pantoglide::{control, response, selection};
use pantoglide::{Board, Event, Outcome, Refusal, Setup, Status};

const LAYOUT: u8 = 0;
const IMAGESETTER: u8 = 1;

const SETUP: Setup = Setup {
    cylinders: 2,
    heads: 2,
    sectors: 3,
    header: 1,
    field1: 4,
    field2: 0,
    address: 3,
};
const SELECT: u8 = selection::address(3);
const WRITE: u8 = control::WRITE | control::HEADER_MOVE | control::FIELD_1;
const READ: u8 = control::READ | control::HEADER_MOVE | control::FIELD_1;
const FIRST_SECTOR: Event = Event::Position {
    cylinder: 0,
    head: 0,
    sector: 0,
};

fn main() -> Result<(), Refusal> {
    let mut sectors = vec![0; SETUP.drive_words()];
    let mut staging = vec![0; SETUP.sector_words()];
    let mut board = Board::power_up(SETUP, &mut sectors, &mut staging)?;

    println!("The layout host writes a glyph, goes back and begins to write another over it.");
    board.event(LAYOUT, Event::Select(SELECT))?;
    write(&mut board, &[7, 0x11, 0x12, 0x13, 0x14])?;
    board.event(LAYOUT, FIRST_SECTOR)?;
    write(&mut board, &[7, 0x21, 0x22])?;

    println!("The imagesetter host asks for the drive, and then asks with Priority Select.");
    let asked = board.event(IMAGESETTER, Event::Select(SELECT));
    assert_eq!(asked, Err(Refusal::Busy));
    println!("  {}", Refusal::Busy);
    board.event(
        IMAGESETTER,
        Event::Select(SELECT | selection::PRIORITY_SELECT),
    )?;

    println!("The layout host's next word comes too late.");
    let late = board.event(LAYOUT, Event::WordFromHost(0x23));
    assert_eq!(late, Err(Refusal::NotSelected));
    println!("  {}", Refusal::NotSelected);

    println!("The imagesetter host reads the sector: the glyph that was there, whole.");
    // The position is still that of the write that was cut short.
    let words = read(&mut board)?;
    assert_eq!(words, [7, 0x11, 0x12, 0x13, 0x14]);
    println!("  {words:04X?}");
    board.event(IMAGESETTER, Event::Deselect)?;

    println!("The layout host comes back and is told before it can do anything else.");
    board.event(LAYOUT, Event::Select(SELECT))?;
    let stopped = board.event(LAYOUT, FIRST_SECTOR)?;
    assert_eq!(stopped.status, Some(Status::UnsolicitedException));
    let told = board.event(LAYOUT, Event::ReadStatus)?.response;
    let [_, octet1, ..] = told.unwrap_or_default();
    assert_eq!(octet1, response::OCTET_1_ALTERNATE_PORT_PRIORITY_SELECT);
    println!("  response octet 1 is {octet1:02X}: Alternate Port Priority Select");

    println!("It writes the new glyph again, from its first word.");
    board.event(LAYOUT, FIRST_SECTOR)?;
    let last = write(&mut board, &[7, 0x21, 0x22, 0x23, 0x24])?;
    assert_eq!(last.status, Some(Status::Normal));
    println!("  {board:?}");
    Ok(())
}

/// Opens a write where the layout host stands and sends words; what the last one answers.
fn write(board: &mut Board, words: &[u16]) -> Outcome {
    let mut answer = board.event(LAYOUT, Event::DataControl(WRITE))?;
    for &word in words {
        answer = board.event(LAYOUT, Event::WordFromHost(word))?;
    }
    Ok(answer)
}

/// Reads the sector where the imagesetter host stands.
fn read(board: &mut Board) -> Result<Vec<u16>, Refusal> {
    let opened = board.event(IMAGESETTER, Event::DataControl(READ))?;
    let words = opened.words_to_come.unwrap_or(0);
    let taken = (0..words).map(|_| board.event(IMAGESETTER, Event::TakeWord));
    taken
        .filter_map(|outcome| outcome.map(|answer| answer.word).transpose())
        .collect()
}
