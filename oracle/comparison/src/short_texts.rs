//! Every text of up to four characters behind each of some prefixes, and texts of a megabyte.

use oracle::EPOCHS;

use crate::entries;
use crate::tally::Tally;

/// What the short texts are made of.
const ALPHABET: [char; 17] = [
    '0', '1', '2', '3', '5', '6', '9', '+', '-', ':', '.', ' ', 'T', 't', 'x', 'é', '\0',
];

/// What stands before them: the places where the reader changes its mind.
pub const PREFIXES: [&str; 29] = [
    "",
    "+",
    "-",
    "2",
    "2020",
    "2020-",
    "2020-0",
    "2020-02",
    "2020-02-",
    "1900-02-",
    "2020-12-3",
    "2020-02-29",
    "2020-02-29 ",
    "2020-02-29T2",
    "2020-02-29t23",
    "2020-02-29 23:",
    "2020-02-29 23:5",
    "2020-02-29 23:59",
    "2020-02-29 23:59:",
    "2020-02-29 23:59:5",
    "2020-02-29 23:59:59",
    "2020-02-29 23:59:59.",
    "2020-02-29 23:59:59.12345678",
    "2020-02-29 23:59:59.123456789",
    "-0001-12-31T",
    "++02",
    "+214748364",
    "-2147483647",
    "000000000000002147483647-",
];

pub fn behind(tally: &mut Tally, prefix: &str) {
    let mut text = prefix.to_owned();
    let mut which = 0;
    lengthen(tally, &mut text, 4, &mut which);
}

/// This text, and every one that is longer by up to `more` characters.
fn lengthen(tally: &mut Tally, text: &mut String, more: usize, which: &mut usize) {
    *which += 1;
    entries::from_str(tally, EPOCHS[*which % EPOCHS.len()], text);
    if more > 0 {
        for other in ALPHABET {
            text.push(other);
            lengthen(tally, text, more - 1, which);
            text.pop();
        }
    }
}

/// Texts of a megabyte: one field, one delimiter or one fraction without an end.
pub fn megabytes(tally: &mut Tally) {
    let long = |filling: &str| filling.repeat((1 << 20) / filling.len());
    let good = "2020-02-29 23:59:59";
    for filling in [
        "0", "9", "-", "+", " ", "T", ":", ".", "x", "é", "😀", "\0", good,
    ] {
        let long = long(filling);
        for text in [
            long.clone(),
            format!("{long}2020-02-29 23:59:59.5"),
            format!("+{long}1-02-29 23:59:59"),
            format!("{long}-"),
            format!("2020-{long}"),
            format!("2020-0{long}-01 00:00:00"),
            format!("2020-02-{long}"),
            format!("2020-02-29 {long}"),
            format!("2020-02-29 23:{long}"),
            format!("2020-02-29 23:59:{long}"),
            format!("2020-02-29 23:59:59{long}"),
            format!("2020-02-29 23:59:59.{long}"),
            format!("2020-02-29 23:59:59.{long}x"),
            format!("2020-02-29 23:59:60.{long}"),
            format!("2020-02-30 23:59:59.123456789{long}"),
        ] {
            for epoch in [0, i64::MAX] {
                entries::from_str(tally, epoch, &text);
            }
        }
    }
}
