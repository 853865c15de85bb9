//! Requests of the counts: `new`, `unix`, `to-unix` and `epoch`.

use oracle::EPOCHS;

use crate::list::List;
use crate::values::{ANY_NANOS, BOTTOM, TOP};

/// Seconds at both ends of i64 and around 0.
const SECS: [i64; 9] = [BOTTOM, BOTTOM + 1, -2, -1, 0, 1, 2, TOP - 1, TOP];

/// Few seconds for grids over several numbers.
const FEW_SECS: [i64; 5] = [BOTTOM, -1, 0, 1, TOP];

/// Leap offsets that move a boundary, from today's to both ends of i64.
const LEAPS: [i64; 5] = [0, 37, -1, TOP, BOTTOM];

pub fn add_all(list: &mut List) {
    add_new(list);
    add_unix(list);
    add_to_unix(list);
    add_epoch_changes(list);
}

fn add_new(list: &mut List) {
    for secs in SECS {
        for nanos in ANY_NANOS {
            list.add("new", &[], format_args!("{secs} {nanos}"));
        }
    }
    for _ in 0..100 {
        let (secs, nanos) = (list.random.signed(64), list.random.any() as u32);
        list.add("new", &[], format_args!("{secs} {nanos}"));
    }
}

/// The partial sums: seconds + carry, + leap, - epoch.
fn add_unix(list: &mut List) {
    // The carry of the nanoseconds, at its largest where it leaves i64.
    for secs in [
        BOTTOM,
        -5,
        -4,
        -1,
        0,
        1,
        TOP - 4,
        TOP - 3,
        TOP - 2,
        TOP - 1,
        TOP,
    ] {
        for nanos in [0, 999_999_999, 1_000_000_000, u32::MAX] {
            for leap in [BOTTOM, -4, -1, 0, 37] {
                list.add("unix", &[0], format_args!("{secs} {nanos} {leap}"));
            }
        }
    }
    for nanos in ANY_NANOS {
        list.add("unix", &[0], format_args!("0 {nanos} 0"));
    }
    // Sums that leave i64 and come back with the epoch.
    for epoch in [BOTTOM, TOP] {
        for secs in FEW_SECS {
            for leap in FEW_SECS {
                for nanos in [0, u32::MAX] {
                    list.add("unix", &[epoch], format_args!("{secs} {nanos} {leap}"));
                }
            }
        }
    }
    // The last sum exactly at an end of i64, one short of it and one past it.
    for epoch in EPOCHS {
        for (leap, nanos) in LEAPS
            .into_iter()
            .zip([0, 999_999_999, u32::MAX, 1_000_000_000, 0])
        {
            for end in [BOTTOM, TOP] {
                for step in -1..=1 {
                    let carry = i128::from(nanos / 1_000_000_000);
                    let secs =
                        i128::from(end) + step + i128::from(epoch) - i128::from(leap) - carry;
                    if let Ok(secs) = i64::try_from(secs) {
                        list.add("unix", &[epoch], format_args!("{secs} {nanos} {leap}"));
                    }
                }
            }
        }
    }
    for _ in 0..700 {
        let (epoch, secs) = (list.random.pick(&EPOCHS), list.random.signed(64));
        let (nanos, leap) = (list.random.any() as u32, list.random.signed(64));
        list.add("unix", &[epoch], format_args!("{secs} {nanos} {leap}"));
    }
}

/// The partial sums: seconds - leap, + epoch.
fn add_to_unix(list: &mut List) {
    for secs in SECS {
        for leap in [BOTTOM, BOTTOM + 1, -1, 0, 1, 37, TOP] {
            let nanos = list.random.nanos();
            list.add("to-unix", &[0], format_args!("{secs} {nanos} {leap}"));
        }
    }
    for epoch in [BOTTOM, TOP] {
        for secs in FEW_SECS {
            for leap in FEW_SECS {
                let nanos = list.random.nanos();
                list.add("to-unix", &[epoch], format_args!("{secs} {nanos} {leap}"));
            }
        }
    }
    for epoch in EPOCHS {
        for leap in LEAPS {
            for end in [BOTTOM, TOP] {
                for step in -1..=1 {
                    let secs = i128::from(end) + step - i128::from(epoch) + i128::from(leap);
                    if let Ok(secs) = i64::try_from(secs) {
                        let nanos = list.random.nanos();
                        list.add("to-unix", &[epoch], format_args!("{secs} {nanos} {leap}"));
                    }
                }
            }
        }
    }
    for _ in 0..500 {
        let (epoch, stamp) = (list.random.pick(&EPOCHS), list.random.timestamp());
        let leap = list.random.signed(64);
        list.add("to-unix", &[epoch], format_args!("{stamp} {leap}"));
    }
}

/// The partial sums: old - new, + seconds; every pair of the ten epochs.
fn add_epoch_changes(list: &mut List) {
    for from in EPOCHS {
        for to in EPOCHS {
            let apart = i128::from(from) - i128::from(to);
            let mut secs = vec![0, -apart];
            for end in [BOTTOM, TOP] {
                secs.extend((-1..=1).map(|step| i128::from(end) + step - apart));
            }
            for secs in secs.into_iter().filter_map(|secs| i64::try_from(secs).ok()) {
                let nanos = list.random.nanos();
                list.add("epoch", &[from, to], format_args!("{secs} {nanos}"));
            }
        }
    }
    for _ in 0..500 {
        let pair = [list.random.pick(&EPOCHS), list.random.pick(&EPOCHS)];
        let stamp = list.random.timestamp();
        list.add("epoch", &pair, stamp);
    }
}
