//! The list of requests without duplicates.

use std::collections::HashSet;
use std::fmt::{Display, Write};

use oracle::{EPOCH_NAMES, EPOCHS, Random};

use crate::values::ordinary_epochs;

/// The seed of all random numbers in the list.
const SEED: u64 = 0x7A19_7001_0101_0019;

/// The requests so far, and what was asked already.
pub struct List {
    pub random: Random,
    lines: String,
    asked: HashSet<String>,
}

impl List {
    pub fn new() -> Self {
        List {
            random: Random::new(SEED),
            lines: String::new(),
            asked: HashSet::new(),
        }
    }

    /// All requests, one a line.
    pub fn text(&self) -> &str {
        &self.lines
    }

    /// Adds a request as it stands.
    pub fn add_as_is(&mut self, request: &str) {
        let mut asked = request.to_owned();
        for (name, epoch) in EPOCH_NAMES.into_iter().zip(EPOCHS) {
            asked = asked.replace(&format!(" {name} "), &format!(" {epoch} "));
        }
        if self.asked.insert(asked) {
            self.lines.push_str(request);
            self.lines.push('\n');
        }
    }

    /// Adds a request of its verb, its epochs and its other words, unless it was asked already.
    pub fn add(&mut self, verb: &str, epochs: &[i64], words: impl Display) {
        let mut asked = verb.to_owned();
        for epoch in epochs {
            write!(asked, " {epoch}").unwrap();
        }
        write!(asked, " {words}").unwrap();
        if self.asked.insert(asked) {
            self.lines.push_str(verb);
            for &epoch in epochs {
                self.write_epoch(epoch);
            }
            writeln!(self.lines, " {words}").unwrap();
        }
    }

    /// Adds a reading of a text over one of the epochs that refuse no date, each text once.
    pub fn add_text_once(&mut self, text: &str) {
        if self.asked.insert(format!("read once {text}")) {
            let epoch = self.random.pick(ordinary_epochs());
            self.add_text(epoch, text);
        }
    }

    /// Adds a reading of a text, by its bytes or in hexadecimal digits.
    ///
    /// Text with control characters goes in digits, so that a line stays a line everywhere.
    pub fn add_text(&mut self, epoch: i64, text: &str) {
        if !self.asked.insert(format!("read {epoch} {text}")) {
            return;
        }
        let plain = text.chars().all(|c| c == '\t' || !c.is_control());
        if plain && self.random.below(3) != 0 {
            self.lines.push_str("read");
            self.write_epoch(epoch);
            writeln!(self.lines, " {text}").unwrap();
        } else {
            self.lines.push_str("read-hex");
            self.write_epoch(epoch);
            self.lines.push(' ');
            for byte in text.bytes() {
                write!(self.lines, "{byte:02x}").unwrap();
            }
            self.lines
                .push_str(if text.is_empty() { "-\n" } else { "\n" });
        }
    }

    /// Writes an epoch behind a blank: a named one by its name in one of two cases.
    fn write_epoch(&mut self, epoch: i64) {
        match EPOCHS.iter().position(|&named| named == epoch) {
            Some(place) if place < EPOCH_NAMES.len() && self.random.below(2) == 0 => {
                write!(self.lines, " {}", EPOCH_NAMES[place]).unwrap();
            }
            _ => write!(self.lines, " {epoch}").unwrap(),
        }
    }
}
