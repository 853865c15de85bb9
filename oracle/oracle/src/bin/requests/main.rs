//! Writes the list of requests that the oracle answers and later comparisons replay.
//!
//! The list is the same on every run: boundary values in a fixed order, then numbers from a small
//! generator with a fixed seed.

mod counts;
mod damage;
mod dates;
mod list;
mod prints;
mod sums;
mod texts;
mod values;

use std::io::{self, Write};

use list::List;

fn main() -> io::Result<()> {
    let mut list = List::new();
    for (request, _) in oracle::readings::READINGS {
        list.add_as_is(request);
    }
    counts::add_all(&mut list);
    sums::add_all(&mut list);
    dates::add_all(&mut list);
    prints::add_all(&mut list);
    texts::add_all(&mut list);
    damage::add_all(&mut list);
    texts::add_inner_plus(&mut list);
    io::stdout().lock().write_all(list.text().as_bytes())
}
