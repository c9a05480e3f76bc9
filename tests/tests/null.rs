//! NULL with length 0, for every slice of every call.

use noolukask_tests::calls::{checks_of_null, filled, with_null, write_sheet_to_null};
use noolukask_tests::packs::valve;
use noolukask_tests::rules;

/// What a call returns for a number without a place.
const MARKS: u64 = rules::MARKS.number;
const NOT_FOLLOWS: u64 = rules::NOT_FOLLOWS.number;
const LENGTH: u64 = rules::LENGTH.number;
const NOT_SHOWN: u64 = rules::NOT_SHOWN.number;

fn no_room(bytes: usize) -> u64 {
    rules::desk_code(Err(rules::no_room(bytes)))
}

#[test]
fn marks_of_no_bytes_are_refused() {
    // The pack check asks for no marks.
    let refused = [0, MARKS, MARKS, MARKS, MARKS, MARKS, MARKS, MARKS];
    for before in [vec![], filled(128)] {
        assert_eq!(with_null(1, 0, 0, &[], &before), (refused, [before.clone(), before]));
    }
}

#[test]
fn an_empty_pack_and_an_empty_sheet_are_taken() {
    // Goal (0,0) follows by no step; a world of no things is none.
    let free = [0, 0, 256, 256, 0, 0, 0, LENGTH];
    assert_eq!(with_null(1, 0, 0, &[0; 128], &filled(128)), (free, [vec![0; 128], vec![0; 128]]));
    // Goal (0,1) does not follow: two rows.
    let open = [0, 0, 0, no_room(16), 0, NOT_FOLLOWS, NOT_SHOWN, LENGTH];
    assert_eq!(with_null(2, 0, 1, &[0; 128], &filled(128)), (open, [vec![0; 128], filled(128)]));
}

#[test]
fn out_marks_of_no_bytes_are_refused() {
    let (back, _) = with_null(1, 0, 0, &[0; 128], &[]);
    assert_eq!(back, [0, 0, 256, 256, MARKS, MARKS, 0, LENGTH]);
    // Before a goal that does not follow.
    let (back, _) = with_null(2, 0, 1, &[0; 128], &[]);
    assert_eq!(back[4..6], [MARKS, MARKS]);
}

#[test]
fn a_mark_past_an_empty_pack_is_refused() {
    let mut marks = [0; 128];
    marks[127] = 0x80;
    let refused = [0, MARKS, MARKS, MARKS, MARKS, MARKS, MARKS, MARKS];
    assert_eq!(with_null(1, 0, 0, &marks, &filled(128)), (refused, [filled(128), filled(128)]));
}

#[test]
fn an_empty_sheet_on_the_valve_pack() {
    assert_eq!(checks_of_null(&valve(3, 3)), [0, LENGTH]);
    assert_eq!(checks_of_null(&valve(0, 1)), [NOT_SHOWN, LENGTH]);
}

#[test]
fn a_first_call_without_a_buffer_asks_for_the_room() {
    assert_eq!(write_sheet_to_null(&valve(0, 1)), no_room(32));
    assert_eq!(write_sheet_to_null(&valve(2, 1)), no_room(120));
    // A free goal needs none.
    assert_eq!(write_sheet_to_null(&valve(2, 2)), 256);
}
