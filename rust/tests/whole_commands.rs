//! Commands and responses as one call each: what they do, and how they stop.

use bench::BENCH;
use pantoglide::command::{self, Function};
use pantoglide::{selection, Board, Event, Hold, NotDone, Place, Refusal, Status};

mod bench;

const SELECT: Event = Event::Select(selection::address(3));
const ALREADY_OPEN: Result<(), NotDone> = Err(NotDone::Refused(Refusal::WrongMoment));
const OUTSIDE: Result<(), NotDone> = Err(NotDone::Answered(Status::OperationException));
const SOMETHING_PENDING: NotDone = NotDone::Answered(Status::UnsolicitedException);

/// The bench drive, selected by port 0.
fn on_selected_bench(test: impl FnOnce(&mut Board)) {
    let (mut sectors, mut staging) = ([0; 48], [0; 4]);
    let mut board = Board::power_up(BENCH, &mut sectors, &mut staging).expect("the bench drive");
    board.event(0, SELECT).expect("a free drive");
    test(&mut board);
}

#[test]
fn a_reserved_drive_is_kept_until_it_is_released() {
    on_selected_bench(|board| {
        assert_eq!(board.reserve(0), Ok(()));
        assert_eq!(board.hold(), Hold::Plain);
        assert_eq!(board.priority_reserve(0), Ok(()));
        assert_eq!(board.hold(), Hold::Strong);
        assert_eq!(board.reserve(0), Ok(()));
        assert_eq!(board.hold(), Hold::Strong, "at least a plain hold");
        board.event(0, Event::Deselect).expect("nothing is open");
        assert_eq!(board.event(1, SELECT), Err(Refusal::Busy));
        board.event(0, SELECT).expect("its own drive");
        assert_eq!(board.release(0), Ok(()));
        board.event(0, Event::Deselect).expect("nothing is open");
        assert!(board.event(1, SELECT).is_ok());
    });
}

#[test]
fn the_head_goes_where_it_is_sent_and_says_where_it_is() {
    on_selected_bench(|board| {
        assert_eq!(board.load_position(0, 1, 1, Some(2)), Ok(()));
        let place = Place {
            cylinder: 1,
            head: 1,
            sector: 0,
        };
        assert_eq!(board.read_current_position(0), Ok((place, Some(2))));
        assert_eq!(board.load_target(0, None), Ok(()));
        assert_eq!(board.load_head(0, 0), Ok(()));
        let place = Place { head: 0, ..place };
        assert_eq!(board.read_current_position(0), Ok((place, None)));
        assert_eq!(board.recalibrate(0), Ok(()));
        assert_eq!(board.place(), Place::default());
        assert_eq!(board.load_cylinder(0, 1), Ok(()));
        assert_eq!(board.function(0, Function::NoOperation), Ok(()));
        assert_eq!(board.place().cylinder, 1);
        assert_eq!(board.read_current_sector(0), Ok(0));
    });
}

#[test]
fn a_place_outside_the_drive_is_told_and_nothing_is_done() {
    on_selected_bench(|board| {
        assert_eq!(board.load_position(0, 1, 2, Some(0)), OUTSIDE);
        assert_eq!(board.load_cylinder(0, 2), OUTSIDE);
        assert_eq!(board.load_head(0, 256), OUTSIDE);
        assert_eq!(board.load_target(0, Some(3)), OUTSIDE);
        assert_eq!((board.place(), board.target()), (Place::default(), None));
        assert_eq!((board.transfer(), board.parameters()), (None, [0; 3]));
        assert_eq!(board.read_status(0), Ok([0x20, 0, 0x40, 0, 0, 0, 0, 0]));
        assert_eq!(board.read_status(0), Ok([0; 8]));
    });
}

#[test]
fn what_was_not_done_is_told_until_another_command_opens() {
    on_selected_bench(|board| {
        assert_eq!(board.load_cylinder(0, 2), OUTSIDE);
        assert_eq!(board.pending(0), Some([0, 0x40]));
        assert_eq!(board.load_cylinder(0, 1), Ok(()));
        assert_eq!(board.read_status(0), Ok([0; 8]));
    });
}

#[test]
fn what_is_pending_stops_all_but_reading_it() {
    on_selected_bench(|board| {
        board.event(1, Event::Reset).expect("always accepted");
        board.event(0, SELECT).expect("a free drive");
        assert_eq!(board.reserve(0), Err(SOMETHING_PENDING));
        assert_eq!(board.read_current_sector(0), Err(SOMETHING_PENDING));
        assert_eq!((board.hold(), board.transfer()), (Hold::None, None));
        assert_eq!(board.read_status(0), Ok([0x40, 0x80, 0, 0, 0, 0, 0, 0]));
        assert_eq!(board.reserve(0), Ok(()));
    });
}

#[test]
fn a_refusal_leaves_what_was_open() {
    on_selected_bench(|board| {
        let not_selected = Err(NotDone::Refused(Refusal::NotSelected));
        assert_eq!(board.release(1), not_selected);
        let no_such_port = Err(NotDone::Refused(Refusal::NoSuchPort));
        assert_eq!(board.release(2), no_such_port);
        let load_position = Event::DataControl(command::LOAD_POSITION);
        board.event(0, load_position).expect("nothing is open");
        board
            .event(0, Event::WordFromHost(7))
            .expect("its first word");
        let before = *board.state();
        assert_eq!(board.reserve(0), ALREADY_OPEN);
        let refused = board.read_status(0).map(|_| ());
        assert_eq!(refused, ALREADY_OPEN);
        assert_eq!(*board.state(), before);
        assert_eq!(board.parameters(), [7, 0, 0]);
        assert_eq!(board.pending(2), None, "no third port");
    });
}

#[test]
fn why_it_was_not_done_can_be_shown() {
    let refused: &dyn std::error::Error = &NotDone::from(Refusal::NotSelected);
    assert_eq!(refused.to_string(), "refused 2: the port is not selected");
    assert_eq!(SOMETHING_PENDING.to_string(), "answered with status 0C");
}
