//! The number of cases by entry, and the differences between the Rust and the port.

use std::fmt::Debug;

/// What is counted by itself: the entries, and two further ways of asking.
#[derive(Clone, Copy)]
pub enum Entry {
    New,
    TryFromDateTime,
    TryFromUnixTimestamp,
    AsUnixSecs,
    ToTaiTime,
    CheckedAdd,
    CheckedSub,
    CheckedDurationSince,
    Cmp,
    FromStr,
    ReadingBack,
    Display,
    OtherPlaces,
    SecsToDateTime,
}

/// The names of [`Entry`], in its order.
pub const NAMES: [&str; 14] = [
    "new",
    "try_from_date_time",
    "try_from_unix_timestamp",
    "as_unix_secs",
    "to_tai_time",
    "checked_add",
    "checked_sub",
    "checked_duration_since",
    "cmp",
    "from_str",
    "from_str, reading back",
    "display",
    "display, other places",
    "secs_to_date_time",
];

/// Where the documents decide against the Rust.
#[derive(Clone, Copy)]
pub enum Split {
    FullSecond,
    PlusAccepted,
    PlusRefused,
    UnixSum,
    ToUnixSum,
    EpochSum,
}

/// What is said of each [`Split`], in its order.
pub const SPLITS: [&str; 6] = [
    "nano 1000000000 among fields: 5 is wanted",
    "a + inside a field, accepted by the Rust: 9 is wanted",
    "a + inside a field, refused by the Rust with another number: 9 is wanted",
    "Unix to timestamp, refused by the Rust for a partial sum: the exact sum is wanted",
    "timestamp to Unix, refused by the Rust for a partial sum: the exact sum is wanted",
    "a change of epoch, refused by the Rust for a partial sum: the exact sum is wanted",
];

/// How many differences of an entry are shown with their inputs.
const SHOWN: usize = 3;

#[derive(Default)]
pub struct Tally {
    pub cases: [u64; NAMES.len()],
    pub differences: [u64; NAMES.len()],
    /// Refusals 13 of these cases whose number was then offered, and a byte fewer.
    pub offers: u64,
    /// Cases in which the port is held against the documents, since the Rust says something else.
    pub splits: [u64; SPLITS.len()],
    /// The first differences of each entry, with their inputs.
    pub first: [Vec<String>; NAMES.len()],
}

impl Tally {
    /// Counts a case in which the documents decide against the Rust.
    pub fn add_split(&mut self, split: Split) {
        self.splits[split as usize] += 1;
    }

    /// Counts a case, and a difference if the port does not give what is wanted.
    #[inline]
    pub fn hold<T: PartialEq + Debug>(
        &mut self,
        entry: Entry,
        wanted: T,
        port: T,
        request: impl FnOnce() -> String,
    ) {
        self.cases[entry as usize] += 1;
        if wanted != port {
            self.add_difference(entry, || {
                [format!("{wanted:?}"), format!("{port:?}"), request()]
            });
        }
    }

    /// Counts a difference; what was wanted, what the port gave and the request are told of the first ones alone.
    #[cold]
    pub fn add_difference(&mut self, entry: Entry, told: impl FnOnce() -> [String; 3]) {
        self.differences[entry as usize] += 1;
        if self.first[entry as usize].len() < SHOWN {
            let (name, [wanted, port, request]) = (NAMES[entry as usize], told());
            self.first[entry as usize].push(format!(
                "{name}: {request}\n    wanted:   {wanted}\n    the port: {port}"
            ));
        }
    }

    /// Takes in what another tally counted behind this one.
    pub fn take_in(&mut self, other: Tally) {
        for (sum, more) in self.cases.iter_mut().zip(other.cases) {
            *sum += more;
        }
        for (sum, more) in self.differences.iter_mut().zip(other.differences) {
            *sum += more;
        }
        self.offers += other.offers;
        for (sum, more) in self.splits.iter_mut().zip(other.splits) {
            *sum += more;
        }
        for (first, more) in self.first.iter_mut().zip(other.first) {
            let room = SHOWN - first.len();
            first.extend(more.into_iter().take(room));
        }
    }

    pub fn all_cases(&self) -> u64 {
        self.cases.iter().sum()
    }

    pub fn all_differences(&self) -> u64 {
        self.differences.iter().sum()
    }
}
