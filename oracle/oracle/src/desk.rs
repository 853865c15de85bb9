//! The desk program's requests, one a line, answered in its form by the Rust.

use core::cmp::Ordering;
use core::fmt::{Display, Write};

use crate::{Answer, DateTime, Duration, EPOCH_NAMES, EPOCHS, Timestamp};

/// The longest line that is a request.
pub const LONGEST_LINE: usize = 65_535;

/// Writes the answer to one request, without a line feed, behind what `out` holds.
///
/// Where the Rust has no answer, and for what is no request, the answer is the word `outside`.
pub fn answer(request: &[u8], out: &mut String) {
    let start = out.len();
    if request.len() > LONGEST_LINE || answer_within(request, out).is_none() {
        out.truncate(start);
        out.push_str("outside");
    }
}

/// Answers a request of the domain, or gives `None`.
fn answer_within(request: &[u8], out: &mut String) -> Option<()> {
    let mut words = Words {
        rest: Some(request),
    };
    match words.next()? {
        b"new" => {
            let stamp = words.timestamp()?;
            words.end()?;
            write_answer(out, crate::new(stamp.secs, stamp.nanos))
        }
        b"date" => {
            let (epoch, date) = (words.epoch()?, words.date()?);
            words.end()?;
            write_answer(out, crate::try_from_date_time(epoch, date))
        }
        b"unix" => {
            let (epoch, unix, leap_secs) = (words.epoch()?, words.timestamp()?, words.number()?);
            words.end()?;
            let answer = crate::try_from_unix_timestamp(epoch, unix.secs, unix.nanos, leap_secs);
            write_answer(out, answer)
        }
        b"to-unix" => {
            let (epoch, stamp, leap_secs) = (words.epoch()?, words.timestamp()?, words.number()?);
            words.end()?;
            write_answer(out, crate::as_unix_secs(epoch, stamp, leap_secs))
        }
        b"epoch" => {
            let (from, to, stamp) = (words.epoch()?, words.epoch()?, words.timestamp()?);
            words.end()?;
            write_answer(out, crate::to_tai_time(from, to, stamp))
        }
        b"add" => {
            let (stamp, duration) = (words.timestamp()?, words.duration()?);
            words.end()?;
            write_answer(out, crate::checked_add(stamp, duration))
        }
        b"sub" => {
            let (stamp, duration) = (words.timestamp()?, words.duration()?);
            words.end()?;
            write_answer(out, crate::checked_sub(stamp, duration))
        }
        b"since" => {
            let (stamp, earlier) = (words.timestamp()?, words.timestamp()?);
            words.end()?;
            write_answer(out, crate::checked_duration_since(stamp, earlier))
        }
        b"compare" => {
            let (first, second) = (words.timestamp()?, words.timestamp()?);
            words.end()?;
            write_answer(out, crate::compare(first, second).map(order_name))
        }
        b"read" => {
            let epoch = words.epoch()?;
            write_answer(out, crate::from_str(epoch, words.rest?))
        }
        b"read-hex" => {
            let (epoch, text) = (words.epoch()?, bytes_of_hex(words.next()?)?);
            words.end()?;
            write_answer(out, crate::from_str(epoch, &text))
        }
        b"print" => {
            let (epoch, stamp) = (words.epoch()?, words.timestamp()?);
            let precision = words.precision()?;
            words.end()?;
            out.push_str("ok ");
            match crate::print(out, epoch, stamp, precision) {
                Ok(Answer::Value(())) => Some(()),
                _ => None,
            }
        }
        _ => None,
    }
}

/// The words of a request that are still to be taken, each behind one blank.
struct Words<'a> {
    rest: Option<&'a [u8]>,
}

impl<'a> Words<'a> {
    /// The next word, which ends before a blank or with the request.
    fn next(&mut self) -> Option<&'a [u8]> {
        let rest = self.rest?;
        let blank = rest.iter().position(|&byte| byte == b' ');
        self.rest = blank.map(|at| &rest[at + 1..]);
        Some(&rest[..blank.unwrap_or(rest.len())])
    }

    /// Nothing may be left.
    fn end(&self) -> Option<()> {
        self.rest.is_none().then_some(())
    }

    fn number<T: TryFrom<i128>>(&mut self) -> Option<T> {
        T::try_from(number_of(self.next()?)?).ok()
    }

    fn epoch(&mut self) -> Option<i64> {
        let word = self.next()?;
        match EPOCH_NAMES.iter().position(|name| name.as_bytes() == word) {
            Some(place) => Some(EPOCHS[place]),
            None => i64::try_from(number_of(word)?).ok(),
        }
    }

    fn timestamp(&mut self) -> Option<Timestamp> {
        Some(Timestamp {
            secs: self.number()?,
            nanos: self.number()?,
        })
    }

    fn duration(&mut self) -> Option<Duration> {
        Some(Duration {
            secs: self.number()?,
            nanos: self.number()?,
        })
    }

    fn date(&mut self) -> Option<DateTime> {
        Some(DateTime {
            year: self.number()?,
            month: self.number()?,
            day: self.number()?,
            hour: self.number()?,
            min: self.number()?,
            sec: self.number()?,
            nano: self.number()?,
        })
    }

    /// A number, or `-` for an absent precision.
    fn precision(&mut self) -> Option<Option<usize>> {
        match self.next()? {
            b"-" => Some(None),
            word => Some(Some(usize::try_from(number_of(word)?).ok()?)),
        }
    }
}

/// A decimal number without `+`, needless zeros or `-0`, of at most twenty digits.
fn number_of(word: &[u8]) -> Option<i128> {
    let (negative, digits) = match word {
        [b'-', digits @ ..] => (true, digits),
        digits => (false, digits),
    };
    let plain = match digits {
        [b'0'] => !negative,
        [b'1'..=b'9', tail @ ..] => tail.len() < 20 && tail.iter().all(u8::is_ascii_digit),
        _ => false,
    };
    let size = |sum: i128, &digit: &u8| sum * 10 + i128::from(digit - b'0');
    plain.then(|| digits.iter().fold(0, size) * if negative { -1 } else { 1 })
}

/// The bytes of an even number of lower-case hexadecimal digits; `-` stands for none.
fn bytes_of_hex(word: &[u8]) -> Option<Vec<u8>> {
    fn digit(byte: u8) -> Option<u8> {
        match byte {
            b'0'..=b'9' => Some(byte - b'0'),
            b'a'..=b'f' => Some(byte - b'a' + 10),
            _ => None,
        }
    }
    match word {
        b"-" => Some(Vec::new()),
        b"" => None,
        _ => (word.chunks(2))
            .map(|pair| match pair {
                &[high, low] => Some(digit(high)? * 16 + digit(low)?),
                _ => None,
            })
            .collect(),
    }
}

/// The desk program's word for the outcome of a comparison.
fn order_name(order: Ordering) -> &'static str {
    match order {
        Ordering::Less => "earlier",
        Ordering::Equal => "same",
        Ordering::Greater => "later",
    }
}

/// Writes a value behind `ok`, or a refusal with its number; `None` where the Rust has no answer.
fn write_answer<T: Display>(out: &mut String, answer: Answer<T>) -> Option<()> {
    match answer {
        Answer::Value(value) => write!(out, "ok {value}").ok(),
        Answer::Refused(refusal) => write!(out, "refused {} {refusal}", refusal.number()).ok(),
        Answer::Outside => None,
    }
}
