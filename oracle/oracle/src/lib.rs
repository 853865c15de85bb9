//! The Rust crate tai-time 1.0.0, built unchanged, as the judge of the port.
//!
//! Each entry that 01 takes from the crate is one function here. It picks the Rust type of the
//! epoch at run time, calls the Rust, and gives the outcome in the numbers and values of 01. Where
//! the Rust has no answer it says [`Answer::Outside`]; nothing is imitated. Where document 02 decides
//! against the Rust, [`reaches_inner_plus`] and [`or_exact`] tell.

mod amendments;
mod answers;
pub mod desk;
mod entries;
mod epochs;
mod random;
pub mod readings;

pub use amendments::{
    exact_from_unix, exact_over_epoch, exact_to_unix, or_exact, reaches_inner_plus,
};
pub use answers::{Answer, DateRefusal, DateTime, Duration, Refusal, Timestamp};
pub use entries::{
    LARGEST_PRECISION, as_unix_secs, checked_add, checked_duration_since, checked_sub, compare,
    from_str, new, print, to_tai_time, try_from_date_time, try_from_unix_timestamp,
};
pub use epochs::{EPOCH_NAMES, EPOCHS};
pub use random::Random;
