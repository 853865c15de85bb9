//! The readings of 01 are run on the Rust and held against what 01 states.

use oracle::desk::answer;
use oracle::readings::{BEFORE_02, READINGS};

/// The Rust differs on those alone that 02 amends, and answers them as 01 did.
#[test]
fn the_rust_gives_the_readings_that_02_leaves() {
    let mut differences = Vec::new();
    for &(request, stated) in READINGS {
        let mut given = String::new();
        answer(request.as_bytes(), &mut given);
        if given != stated {
            differences.push((request, given));
        }
    }
    let before: Vec<_> = BEFORE_02
        .iter()
        .map(|&(asked, of_01)| (asked, of_01.to_owned()))
        .collect();
    assert_eq!(differences, before);
}

/// The one difference that 01 itself lists (section "Slips a blender would make too").
#[test]
fn the_rust_lets_a_full_second_of_nanos_in() {
    let date = |nano| tai_time::MonotonicTime::try_from_date_time(1970, 1, 1, 0, 0, 0, nano);
    let time = date(1_000_000_000).expect("the Rust accepts it");
    assert_eq!((time.as_secs(), time.subsec_nanos()), (0, 1_000_000_000));
    let refused = tai_time::DateTimeError::InvalidNanosecond(1_000_000_001);
    assert_eq!(date(1_000_000_001), Err(refused));
}

/// 01: an epoch begins at (0, 0), and the earliest and latest timestamps are the ends of the type.
#[test]
fn the_constants_of_the_type_are_those_of_01() {
    use tai_time::MonotonicTime as Time;
    assert_eq!(Some(Time::EPOCH), Time::new(0, 0));
    assert_eq!(Some(Time::MIN), Time::new(i64::MIN, 0));
    assert_eq!(Some(Time::MAX), Time::new(i64::MAX, 999_999_999));
}
