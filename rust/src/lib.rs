//! The proved drive of Pantoglide for Rust.
//!
//! [`Board`] is a drive over sector and staging words that the caller lends, [`Capture`] a file of
//! events, and [`Follower`] watches the control lines of one port, by single settings or by whole
//! traces. [`Board::event`] takes what hosts do one by one; calls such as [`Board::reserve`] stand
//! for a whole command. [`Board::run_into`] runs the records of a capture, [`Board::replay_into`] a
//! part of them. [`Setup::decode_map`] and the calls beside it read and make the maker's defect
//! map. All hand every request to the archive of proved code that the project's `tools/archive` makes;
//! [`raw`] has its calls as they are, on slices. Nothing in this interface is unsafe, and no input
//! makes a call panic.
//!
//! ```
//! use pantoglide::{control, selection, Answer, Board, Event, Setup};
//!
//! let setup = Setup { cylinders: 2, heads: 2, sectors: 3, header: 1, field1: 2, field2: 1, address: 3 };
//! let (mut sectors, mut staging) = ([0; 48], [0; 4]);
//! let mut board = Board::power_up(setup, &mut sectors, &mut staging)?;
//!
//! let select = Event::Select(selection::address(3));
//! assert_eq!(board.event(0, select), Ok(Answer::default()));
//! let read = Event::DataControl(control::READ | control::FIELD_1);
//! assert_eq!(board.event(0, read)?.words_to_come, Some(2));
//! # Ok::<(), pantoglide::Refusal>(())
//! ```
//!
//! The archive is looked for in the project's `target/staticlib`, or in the folder that
//! `PANTOGLIDE_ARCHIVE_DIR` names; a relative one is a folder of the package that is built. It is
//! for x86-64 Linux.
//!
//! The library needs no `std`. The feature `alloc`, on by default, adds what hands back a `Vec`:
//! `Board::run` and `Board::replay`.

#![no_std]
#![warn(missing_docs, missing_debug_implementations)]

#[cfg(feature = "alloc")]
extern crate alloc;

mod answer;
mod board;
mod capture;
pub mod command;
pub mod control;
mod defect;
mod event;
mod follower;
mod map;
pub mod raw;
mod refusal;
#[cfg(feature = "alloc")]
mod replay;
pub mod response;
pub mod selection;
mod setup;
mod whole_commands;

pub use answer::{Answer, Outcome, Place, Status};
pub use board::{Board, Hold, Transfer};
pub use capture::{make_capture, Capture};
pub use defect::Defect;
pub use event::Event;
pub use follower::{Follower, Move};
pub use map::{Map, MapRefusal, Track};
pub use refusal::Refusal;
#[cfg(feature = "alloc")]
pub use replay::{Replay, Replayed, Stretch};
pub use setup::Setup;
pub use whole_commands::NotDone;
