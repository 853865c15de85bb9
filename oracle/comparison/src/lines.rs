//! Cases of the printer: the text, its length, and each byte of the lent line and around it.

use std::fmt::{self, Write};
use std::hint::black_box;

use oracle::Timestamp;
use port::{Epoch, LengthResult};

use crate::encode;
use crate::tally::{Entry, Tally};

/// What is printed: a timestamp over an epoch, and the precision.
#[derive(Clone, Copy)]
pub struct Asked {
    pub epoch: i64,
    pub stamp: Timestamp,
    pub precision: Option<usize>,
}

/// The Rust's text.
pub struct Text {
    bytes: [u8; TEXT_ROOM],
    len: usize,
}

impl Write for Text {
    fn write_str(&mut self, more: &str) -> fmt::Result {
        let end = self.len + more.len();
        let place = self.bytes.get_mut(self.len..end).ok_or(fmt::Error)?;
        place.copy_from_slice(more.as_bytes());
        self.len = end;
        Ok(())
    }
}

impl Text {
    pub fn of(asked: Asked) -> Text {
        let mut text = Text {
            bytes: [0; TEXT_ROOM],
            len: 0,
        };
        oracle::print(&mut text, asked.epoch, asked.stamp, asked.precision)
            .expect("no text is longer than that");
        text
    }

    pub fn as_str(&self) -> &str {
        str::from_utf8(&self.bytes[..self.len]).expect("the Rust writes characters")
    }

    pub fn len(&self) -> usize {
        self.len
    }
}

/// The longest line lent here, room for any text behind it, and the bytes watched before and behind all.
pub const LONGEST_LINE: usize = 96;
const TEXT_ROOM: usize = 64;
const MARGIN: usize = 16;
const WHOLE: usize = LONGEST_LINE + TEXT_ROOM + 2 * MARGIN;

/// Bytes that no text contains, in an order that a shifted copy does not meet.
const FILLING: [u8; WHOLE + 128] = {
    let mut bytes = [0; WHOLE + 128];
    let mut at = 0;
    while at < bytes.len() {
        bytes[at] = 0x80 | ((at * 73 + at / 128) % 128) as u8;
        at += 1;
    }
    bytes
};

/// What 01 and 02's ask 11 say: 12, else 13 with the text's length, else that length.
fn right(text: usize, line: usize, at: usize) -> LengthResult {
    let (refusal, wanted, length) = match line.checked_sub(at) {
        None => (12, 0, 0),
        Some(room) if room < text => (13, text as u32, 0),
        Some(_) => (-1, 0, text),
    };
    LengthResult {
        refusal,
        wanted,
        length,
    }
}

/// One lent line of `len` bytes and one place.
pub fn at(tally: &mut Tally, entry: Entry, asked: Asked, text: &Text, len: usize, at: usize) {
    let shift = text.len + 7 * len + at % 64;
    let mut lent = [0; WHOLE];
    lent.copy_from_slice(&FILLING[shift % 128..][..WHOLE]);
    lend(
        tally,
        entry,
        asked,
        text,
        &mut lent.clone(),
        &mut lent,
        len,
        at,
    );
}

/// Lines of a megabyte, with places at both ends.
pub fn megabyte(tally: &mut Tally, asked: Asked) {
    let (text, len) = (Text::of(asked), 1 << 20);
    let whole = FILLING.iter().copied().cycle();
    let whole = whole.take(len + TEXT_ROOM + 2 * MARGIN);
    let whole: Vec<u8> = whole.collect();
    let end = len - text.len;
    for place in [0, 1, len / 2, end - 1, end, end + 1, len - 1, len, len + 1] {
        let (mut rust, mut port) = (whole.clone(), whole.clone());
        let entry = Entry::OtherPlaces;
        lend(tally, entry, asked, &text, &mut rust, &mut port, len, place);
    }
}

/// One case. Where it is refused with 13, the bytes are still as they were: from the same place, one byte fewer than the
/// port wants is refused again, and just as many as it wants are enough.
#[allow(clippy::too_many_arguments)]
#[inline]
fn lend(
    tally: &mut Tally,
    entry: Entry,
    asked: Asked,
    text: &Text,
    rust: &mut [u8],
    port: &mut [u8],
    len: usize,
    at: usize,
) {
    tally.cases[entry as usize] += 1;
    let Some(wanted) = ask(tally, entry, asked, text, rust, port, len, at) else {
        return;
    };
    tally.offers += 1;
    for room in [wanted - 1, wanted] {
        ask(tally, entry, asked, text, rust, port, at + room, at);
    }
}

/// Asks the port for the text in the middle of `port`; `rust`, the same bytes, gets what is right. The answer is the
/// number that the port wants, if it rightly says so.
#[allow(clippy::too_many_arguments)]
#[inline]
fn ask(
    tally: &mut Tally,
    entry: Entry,
    asked: Asked,
    text: &Text,
    rust: &mut [u8],
    port: &mut [u8],
    len: usize,
    at: usize,
) -> Option<usize> {
    let right = right(text.len, len, at);
    if right.refusal == -1 {
        rust[MARGIN + at..][..text.len].copy_from_slice(&text.bytes[..text.len]);
    }
    let Asked {
        epoch,
        stamp,
        precision,
    } = asked;
    let line = &mut port[MARGIN..MARGIN + len];
    let given = port::display(Epoch(epoch), stamp.secs, stamp.nanos, precision, line, at);
    let port = black_box(port);
    if given != right || rust != port {
        let side = |length: LengthResult, bytes: &[u8]| match bytes.len() <= WHOLE {
            true => format!("{length:?}, with {MARGIN} bytes before {}", hex(bytes)),
            false => format!("{length:?}"),
        };
        tally.add_difference(entry, || {
            let precision = precision.map_or("-".to_owned(), |digits| digits.to_string());
            let request = format!("line {epoch} {stamp} {precision} {at}, {len} bytes lent");
            [side(right, rust), side(given, port), request]
        });
        return None;
    }
    (given.refusal == 13).then_some(given.wanted as usize)
}

fn hex(bytes: &[u8]) -> String {
    bytes.iter().map(|byte| format!("{byte:02x}")).collect()
}

/// The text at one place, which depends on the number `which`; the moment too.
pub fn once(tally: &mut Tally, asked: Asked, which: usize) {
    let text = Text::of(asked);
    let (len, place) = place(text.len, which);
    at(tally, Entry::Display, asked, &text, len, place);
    moment(tally, asked, &text);
}

/// A line and a place: one of two with room enough, the others around the limits.
pub fn place(text: usize, which: usize) -> (usize, usize) {
    let (kind, which) = (which % 16, which / 16);
    let free = which % (LONGEST_LINE - text + 1);
    let line = text + free;
    let around = which % LONGEST_LINE;
    match kind {
        0..6 => (line, which / 64 % (free + 1)),
        6 => (line, 0),
        7 => (line, free),
        8 => (line, free + 1),
        9 => (around, around.saturating_sub(text)),
        10 => (around, (around + 1).saturating_sub(text + 2)),
        11 => (around, around),
        12 => (around, around + 1),
        13 => (around, which / 64 % (around + 2)),
        14 => (text, which % 3),
        _ => (line, usize::MAX - which % (text + 2)),
    }
}

/// Lines from empty to some bytes too long, each with the first place and all around its end.
pub fn around(tally: &mut Tally, asked: Asked) {
    let text = Text::of(asked);
    let size = text.len;
    for len in [0, 1, size - 1, size, size + 1, size + 7] {
        at(tally, Entry::OtherPlaces, asked, &text, len, 0);
        for place in len.saturating_sub(size + 1)..=len + 1 {
            at(tally, Entry::OtherPlaces, asked, &text, len, place);
        }
    }
    for place in [1 << 31, 1 << 32, 1 << 63, usize::MAX - size, usize::MAX] {
        at(tally, Entry::OtherPlaces, asked, &text, size, place);
    }
}

/// Every line up to some bytes too long with every place.
pub fn everywhere(tally: &mut Tally, asked: Asked) {
    let text = Text::of(asked);
    for len in 0..=text.len + 8 {
        for place in 0..=len + 2 {
            at(tally, Entry::OtherPlaces, asked, &text, len, place);
        }
    }
}

/// The moment of the seconds, held against the one that the Rust's text names.
pub fn moment(tally: &mut Tally, asked: Asked, text: &Text) {
    let (secs, epoch) = (asked.stamp.secs, asked.epoch);
    let rust = encode::moment(text.as_str());
    let port = port::tai_secs_to_date_time(Epoch(epoch), secs);
    tally.hold(Entry::SecsToDateTime, rust, port, || {
        format!("the moment at {secs} over {epoch}")
    });
}
