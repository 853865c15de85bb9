//! No number but -1 is ever taken for an answer, whatever else the result holds.

use core::fmt::Debug;
use std::panic::catch_unwind;
use std::string::String;
use std::vec::Vec;

use super::*;

/// Numbers that no caller knows: the next one that a request brings, one far off, and one beside -1.
const NOBODY_KNOWS: [i32; 5] = [14, 99, -2, i32::MAX, i32::MIN];

fn time(refusal: i32, in_range_error: i32, value: u32) -> TimeResult {
    TimeResult {
        refusal,
        in_range_error,
        value,
        nanos: 7,
        secs: 5,
    }
}

fn length(refusal: i32, wanted: u32) -> LengthResult {
    LengthResult {
        refusal,
        wanted,
        length: 19,
    }
}

fn refused(number: i32, in_range_error: i32, value: u32) -> Refusal {
    decide("tai_tried", time(number, in_range_error, value)).unwrap_err()
}

/// What is said when the call panics.
fn panic_of<T: Debug>(call: impl FnOnce() -> T + std::panic::UnwindSafe) -> String {
    let panic = catch_unwind(call).expect_err("it has to panic");
    panic.downcast_ref::<String>().cloned().unwrap_or_default()
}

#[test]
fn minus_one_alone_is_accepted() {
    let numbers: Vec<i32> = (0..=13).chain(NOBODY_KNOWS).collect();
    for refusal in numbers {
        assert!(decide("tai_tried", time(refusal, 0, 0)).is_err());
        let secs = UnixSeconds(5);
        assert!(decide("tai_tried", UnixResult { refusal, secs }).is_err());
        let (secs, nanos) = (5, 7);
        let lasts = DurationResult {
            refusal,
            nanos,
            secs,
        };
        assert!(decide("tai_tried", lasts).is_err());
        let ordering = 1;
        assert!(decide("tai_tried", OrderingResult { refusal, ordering }).is_err());
        assert!(decide("tai_tried", length(refusal, 0)).is_err());
    }
    let count = Count { secs: 5, nanos: 7 };
    assert_eq!(decide("tai_tried", time(-1, 0, 0)), Ok(count));
}

#[test]
fn a_number_that_the_caller_does_not_know_panics() {
    for number in NOBODY_KNOWS {
        let order = OrderingResult {
            refusal: number,
            ordering: 1,
        };
        let said = [
            panic_of(move || unless(10, "tai_tried", time(number, 0, 0))),
            panic_of(move || always("tai_tried", order)),
            panic_of(move || decide("tai_tried", length(number, 0)).map_err(Refusal::print_error)),
            panic_of(move || refused(number, 0, 0).date_time_error()),
            panic_of(move || refused(number, 0, 0).parse_error()),
            panic_of(move || refused(number, 1, 0).parse_error()),
        ];
        for text in said {
            let named = std::format!("tai_tried answered the refusal {number} with the value 0,");
            assert!(text.starts_with(&named), "{text}");
        }
    }
}

#[test]
fn a_number_of_another_entry_panics() {
    assert_eq!(unless(10, "tai_tried", time(10, 0, 0)), None);
    panic_of(|| unless(10, "tai_tried", time(11, 0, 0)));
    panic_of(|| refused(7, 0, 0).date_time_error());
    panic_of(|| refused(10, 0, 0).parse_error());
    panic_of(|| refused(11, 0, 0).print_error());
    // A date's refusal that arrived otherwise than the entry has it, and a month that is no u8.
    panic_of(|| refused(0, 1, 13).date_time_error());
    panic_of(|| refused(0, 0, 13).parse_error());
    panic_of(|| refused(7, 1, 0).parse_error());
    panic_of(|| refused(0, 0, 256).date_time_error());
}

#[test]
fn want_of_room_tells_how_much() {
    for wanted in [1, 19, u32::MAX] {
        let refusal = decide("tai_tried", length(13, wanted)).unwrap_err();
        let wanted = wanted as usize;
        assert_eq!(refusal.print_error(), PrintError::NoRoom { wanted });
    }
    panic_of(|| decide("tai_tried", length(13, 0)).map_err(Refusal::print_error));
    panic_of(|| decide("tai_tried", length(12, 19)).map_err(Refusal::print_error));
}
