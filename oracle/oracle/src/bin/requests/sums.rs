//! Requests of sums, differences and comparison: `add`, `sub`, `since` and `compare`.

use oracle::{Answer, Duration, Random, Timestamp};

use crate::list::List;
use crate::values::{BOTTOM, DURATIONS, TIMESTAMPS, TOP};

const EARLIEST: Timestamp = Timestamp {
    secs: BOTTOM,
    nanos: 0,
};
const LATEST: Timestamp = Timestamp {
    secs: TOP,
    nanos: 999_999_999,
};

pub fn add_all(list: &mut List) {
    for stamp in TIMESTAMPS {
        for duration in DURATIONS {
            list.add("add", &[], format_args!("{stamp} {duration}"));
            list.add("sub", &[], format_args!("{stamp} {duration}"));
        }
        add_edges(list, stamp);
    }
    for _ in 0..700 {
        let (stamp, duration) = (list.random.timestamp(), random_duration(&mut list.random));
        list.add("add", &[], format_args!("{stamp} {duration}"));
        list.add("sub", &[], format_args!("{stamp} {duration}"));
    }
    for _ in 0..120 {
        let stamp = list.random.timestamp();
        add_edges(list, stamp);
    }
    for first in TIMESTAMPS {
        for second in TIMESTAMPS {
            list.add("since", &[], format_args!("{first} {second}"));
            list.add("compare", &[], format_args!("{first} {second}"));
        }
    }
    for _ in 0..350 {
        let (first, mut second) = (list.random.timestamp(), list.random.timestamp());
        // In one case of three the nanoseconds alone decide.
        if list.random.below(3) == 0 {
            second.secs = first.secs;
        }
        list.add("since", &[], format_args!("{first} {second}"));
        list.add("since", &[], format_args!("{second} {first}"));
        list.add("compare", &[], format_args!("{first} {second}"));
    }
}

/// Sums that reach an end of the type exactly, one nanosecond short of it and one past it.
fn add_edges(list: &mut List, stamp: Timestamp) {
    for (verb, way) in [
        ("add", oracle::checked_duration_since(LATEST, stamp)),
        ("sub", oracle::checked_duration_since(stamp, EARLIEST)),
    ] {
        let Answer::Value(way) = way else { continue };
        let nanos = i128::from(way.secs) * 1_000_000_000 + i128::from(way.nanos);
        for nanos in nanos - 1..=nanos + 1 {
            let secs = u64::try_from(nanos.div_euclid(1_000_000_000));
            let nanos = nanos.rem_euclid(1_000_000_000);
            if let Ok(secs) = secs {
                list.add(verb, &[], format_args!("{stamp} {secs} {nanos}"));
            }
        }
    }
}

fn random_duration(random: &mut Random) -> Duration {
    Duration {
        secs: random.unsigned(),
        nanos: random.nanos(),
    }
}
