//! Random texts: good ones, damaged ones, ones of random fields, and rubbish that is UTF-8.

use std::fmt::Write;

use oracle::{EPOCHS, Random, Timestamp};

use crate::entries;
use crate::lines::{Asked, Text};
use crate::tally::Tally;

/// What a damage puts in: the reader's own characters, rubbish, and digits of other scripts.
const OTHERS: [char; 26] = [
    '0', '1', '2', '3', '4', '5', '6', '7', '8', '9', '+', '-', ':', '.', ' ', 'T', 't', 'x', '/',
    '\t', '\n', '\0', 'é', '٣', '３', '😀',
];

/// The text of the case at hand; its memory is used again.
#[derive(Default)]
pub struct Texts {
    text: String,
    chars: Vec<char>,
}

impl Texts {
    /// A case of the reader.
    pub fn one(&mut self, tally: &mut Tally, random: &mut Random) {
        self.text.clear();
        match random.below(8) {
            0..4 => self.damaged(random),
            4 | 5 => self.of_fields(random),
            6 => self.of_others(random),
            _ => self.of_any(random),
        }
        entries::from_str(tally, random.pick(&EPOCHS), &self.text);
    }

    /// A printed text of a random stamp, damaged at up to four places.
    fn damaged(&mut self, random: &mut Random) {
        let secs = match random.below(2) {
            0 => random.signed(58),
            _ => random.below(1 << 32) as i64,
        };
        let asked = Asked {
            epoch: 0,
            stamp: Timestamp {
                secs,
                nanos: random.nanos(),
            },
            precision: [None, Some(0), Some(3), Some(9)][random.below(4) as usize],
        };
        let chars = &mut self.chars;
        chars.clear();
        chars.extend(Text::of(asked).as_str().chars());
        if let Some(blank) = chars.iter().position(|&c| c == ' ') {
            chars[blank] = random.pick(&[' ', 'T', 't']);
        }
        for _ in 0..random.below(5) {
            if chars.is_empty() {
                break;
            }
            let place = random.below(chars.len() as u64) as usize;
            let other = random.pick(&OTHERS);
            match random.below(8) {
                0 => drop(chars.remove(place)),
                1 => chars.insert(place, other),
                2 => chars.insert(place, chars[place]),
                3 if place + 1 < chars.len() => chars.swap(place, place + 1),
                4 => chars.truncate(place),
                5 => chars.push(other),
                _ => chars[place] = other,
            }
        }
        self.text.extend(self.chars.iter());
    }

    /// Fields of random numbers, mostly of the right width, behind mostly right delimiters.
    fn of_fields(&mut self, random: &mut Random) {
        let text = &mut self.text;
        text.push_str(random.pick(&["", "", "", "+", "-", "++", "-+", "--"]));
        let year = random.below(1 << 34) >> random.below(34);
        let width = random.below(14) as usize;
        write!(text, "{year:0width$}").expect("a string takes any text");
        for (delimiter, limit) in [('-', 14), ('-', 33), (' ', 26), (':', 64), (':', 64)] {
            text.push(match random.below(24) {
                0 => random.pick(&OTHERS),
                _ if delimiter == ' ' => random.pick(&[' ', 'T', 't']),
                _ => delimiter,
            });
            let field = random.below(limit);
            match random.below(16) {
                0 => write!(text, "{field}"),
                1 => write!(text, "+{}", field % 10),
                2 => write!(text, "{field:03}"),
                _ => write!(text, "{field:02}"),
            }
            .expect("a string takes any text");
        }
        if random.below(2) == 0 {
            text.push('.');
            for _ in 0..random.below(14) {
                text.push(char::from(b'0' + random.below(10) as u8));
            }
            if random.below(8) == 0 {
                text.push(random.pick(&OTHERS));
            }
        }
    }

    /// Characters of the list above.
    fn of_others(&mut self, random: &mut Random) {
        for _ in 0..random.below(32) {
            self.text.push(random.pick(&OTHERS));
        }
    }

    /// Characters of one to four bytes.
    fn of_any(&mut self, random: &mut Random) {
        for _ in 0..random.below(24) {
            let size = random.pick(&[7, 7, 7, 11, 16, 21]);
            let any = random.below(1 << size) as u32;
            self.text.push(char::from_u32(any).unwrap_or('-'));
        }
    }
}
