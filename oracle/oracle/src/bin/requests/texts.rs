//! Requests of the reader, field by field: `read` and `read-hex`.

use oracle::EPOCHS;

use crate::list::List;

/// What a stamp is made of: a field and the delimiter behind it, the year first.
const FIELDS: [(&str, &str); 6] = [
    ("2020", "-"),
    ("01", "-"),
    ("02", " "),
    ("03", ":"),
    ("04", ":"),
    ("05", ""),
];

/// Contents of a field of two bytes: 0 to 4 bytes wide, numbers around every limit, signs, rubbish,
/// characters of more than one byte, among them digits of other scripts.
const CONTENTS: [&str; 45] = [
    "", "5", "+", "-", "x", "00", "01", "09", "10", "12", "13", "19", "20", "23", "24", "28", "29",
    "30", "31", "32", "59", "60", "61", "99", "+0", "+5", "+9", "++", "-5", " 5", "5 ", "5+", "x5",
    "5x", "/0", "é", "٣", "005", "+05", "123", "é5", "３", "0012", "+123", "😀",
];

/// Years of 0 to 12 bytes and more: leading zeros, inner signs, the ends of i32 and wider types.
const YEARS: [&str; 42] = [
    "",
    "5",
    "05",
    "005",
    "0005",
    "00005",
    "000005",
    "0000005",
    "00000005",
    "000000005",
    "0000000005",
    "00000000005",
    "000000000005",
    "000000000000",
    "0000",
    "999",
    "1234",
    "9999",
    "99999",
    "+020",
    "+999",
    "+0000002020",
    "2+20",
    "202+",
    "x020",
    "20x0",
    " 2020",
    "2020 ",
    "é20",
    "20é0",
    "２０２０",
    "٢٠٢٠",
    "2147483646",
    "2147483647",
    "2147483648",
    "02147483647",
    "02147483648",
    "4294967296",
    "9999999999",
    "999999999999",
    "9223372036854775808",
    "18446744073709551616",
];

pub fn add_all(list: &mut List) {
    add_years(list);
    add_fields(list);
    add_two_faults(list);
    add_fractions(list);
    add_separators(list);
    add_days(list);
    add_epochs(list);
    add_short(list);
}

/// The fields with some of them replaced, up to and with the last one named.
fn stamp(replaced: &[(usize, &str)], last: usize) -> String {
    let mut text = String::new();
    for (place, (field, delimiter)) in FIELDS.into_iter().enumerate().take(last + 1) {
        let new = replaced.iter().find(|(at, _)| *at == place);
        text.push_str(new.map_or(field, |(_, content)| content));
        if place < last {
            text.push_str(delimiter);
        }
    }
    text
}

/// Every year behind every sign, whole and cut before the delimiter.
fn add_years(list: &mut List) {
    for sign in ["", "+", "-", "++", "--", "+-", "-+", "+++", "---"] {
        for year in YEARS {
            list.add_text_once(&format!("{sign}{year}-01-01 00:00:00"));
        }
    }
    for sign in ["", "+", "-", "++", "--"] {
        for year in YEARS.into_iter().step_by(3) {
            list.add_text_once(&format!("{sign}{year}"));
            list.add_text_once(&format!("{sign}{year}-"));
        }
    }
}

/// Every content of every field, whole, cut behind it, and cut behind its delimiter.
fn add_fields(list: &mut List) {
    for (place, (_, delimiter)) in FIELDS.into_iter().enumerate().skip(1) {
        for content in CONTENTS {
            list.add_text_once(&stamp(&[(place, content)], FIELDS.len() - 1));
            let cut = stamp(&[(place, content)], place);
            list.add_text_once(&cut);
            if matches!(content, "" | "5" | "+5" | "x5" | "00" | "99" | "123") {
                list.add_text_once(&format!("{cut}{delimiter}"));
                list.add_text_once(&format!("{cut}."));
                list.add_text_once(&format!("{cut}.5"));
            }
        }
    }
}

/// Two wrong fields at once, of width, value or range, whole and cut behind the second.
fn add_two_faults(list: &mut List) {
    let faults = ["1", "xx", "99"];
    for first in 1..FIELDS.len() {
        for second in first + 1..FIELDS.len() {
            for one in faults {
                for two in faults {
                    let replaced = [(first, one), (second, two)];
                    list.add_text_once(&stamp(&replaced, FIELDS.len() - 1));
                    list.add_text_once(&stamp(&replaced, second));
                }
            }
        }
    }
    for year in ["202", "2x20", "9999999999"] {
        for place in 1..FIELDS.len() {
            for fault in faults {
                list.add_text_once(&stamp(&[(0, year), (place, fault)], place));
            }
        }
    }
    for place in 1..FIELDS.len() {
        for fault in faults {
            for fraction in [".", ".x", ".5"] {
                let text = stamp(&[(place, fault)], FIELDS.len() - 1);
                list.add_text_once(&format!("{text}{fraction}"));
            }
        }
    }
}

/// A `+` inside a field (02, ask 3), alone and before a fault of a later field, of the fraction or of the date.
pub fn add_inner_plus(list: &mut List) {
    let last = FIELDS.len() - 1;
    for (first, plus) in [
        (0, "++020"),
        (0, "-+2020"),
        (1, "+5"),
        (2, "+5"),
        (3, "+5"),
        (4, "+5"),
    ] {
        for second in first + 1..FIELDS.len() {
            for fault in ["1", "xx", "99", "+5"] {
                let replaced = [(first, plus), (second, fault)];
                list.add_text_once(&stamp(&replaced, last));
                list.add_text_once(&stamp(&replaced, second));
            }
        }
    }
    for place in 1..FIELDS.len() {
        let text = stamp(&[(place, "+1")], last);
        for fraction in [".", ".x", ".5"] {
            list.add_text_once(&format!("{text}{fraction}"));
        }
        for epoch in EPOCHS {
            list.add_text(epoch, &text);
        }
    }
}

/// Fractions of 0 to 12 digits, and rubbish behind and between them.
fn add_fractions(list: &mut List) {
    let start = "2020-01-02 03:04:05";
    for len in 0..=12 {
        for digits in [
            "123456789123",
            "999999999999",
            "000000000000",
            "000000000999",
        ] {
            list.add_text_once(&format!("{start}.{}", &digits[..len]));
        }
        for tail in [
            "x", " ", "Z", "é", ".", "+", "-", "３", "٣", "/", ":", "\0", "\n", "+00:00",
        ] {
            list.add_text_once(&format!("{start}.{}{tail}", &"987654321987"[..len]));
        }
        for odd in ["x", "+", "٣"] {
            let (front, back) = "123456789123".split_at(len);
            list.add_text_once(&format!("{start}.{front}{odd}{back}"));
        }
        let one = format!("{}1", "0".repeat(len));
        list.add_text_once(&format!("{start}.{one}"));
    }
    for long in [100, 400] {
        list.add_text_once(&format!("{start}.{}", "9".repeat(long)));
        list.add_text_once(&format!("{start}.{}x", "9".repeat(long)));
    }
}

/// Every separator of day and hour, right or wrong, and bytes behind the text.
fn add_separators(list: &mut List) {
    for separator in [
        " ", "T", "t", "\t", "\n", "\r", "_", "", "  ", "TT", "T ", "\u{a0}", "\u{2003}",
    ] {
        for tail in [
            "", " ", "Z", "z", "\n", "\r\n", "+00:00", ".", "..", ".5.", ".5Z", ".5 ",
        ] {
            list.add_text_once(&format!("2020-06-30{separator}12:34:56{tail}"));
        }
    }
    for front in [" ", "\t", "\u{feff}", "T", "0", "+ ", "- ", "\u{2212}"] {
        list.add_text_once(&format!("{front}2020-06-30 12:34:56"));
    }
    for lone in [
        "+", "-", "--", "---", "----", "-----", "++", "+-", "T", ".", ":", " ", "é", "\n",
    ] {
        list.add_text_once(lone);
    }
    for text in [
        "2020-06-30",
        "2020-06-30 ",
        "2020-06-30T12:34",
        "2020-06-30 12:34:",
        "12:34:56",
    ] {
        list.add_text_once(text);
    }
    for hour in ["00", "23", "24"] {
        for minute in ["00", "59", "60"] {
            for second in ["00", "59", "60", "61"] {
                list.add_text_once(&format!("2020-06-30 {hour}:{minute}:{second}"));
            }
        }
    }
}

/// Days 0 and 28 to 32 of every month, and the leap day of years on both sides of year 0.
fn add_days(list: &mut List) {
    for month in 0..=13 {
        for day in [0, 1, 28, 29, 30, 31, 32] {
            let year = list.random.pick(&["2019", "2020"]);
            list.add_text_once(&format!("{year}-{month:02}-{day:02}T00:00:00"));
        }
    }
    for year in [
        "0000",
        "0001",
        "0004",
        "0100",
        "0400",
        "1900",
        "2000",
        "2100",
        "12000",
        "2147483647",
    ] {
        for sign in ["", "+", "-"] {
            list.add_text_once(&format!("{sign}{year}-02-29 12:00:00"));
            list.add_text_once(&format!("{sign}{year}-12-31t23:59:59.999999999"));
        }
    }
}

/// Dates around each epoch's first and last, over each of the ten.
fn add_epochs(list: &mut List) {
    for epoch in EPOCHS {
        for text in [
            "-2147483647-01-01 00:00:00",
            "-0001-12-31 23:59:59.999999999",
            "0000-01-01 00:00:00",
            "1958-01-01 00:00:00",
            "1969-12-31 23:59:57.999999999",
            "1969-12-31 23:59:58",
            "1969-12-31 23:59:58.999999999",
            "1969-12-31 23:59:59",
            "1970-01-01 00:00:00",
            "1970-01-01 00:00:01",
            "1980-01-06 00:00:19",
            "2147483647-12-31 23:59:59.999999999",
            "1970-01-01 00:00:60",
        ] {
            list.add_text(epoch, text);
        }
    }
}

/// Every text of up to two characters behind a prefix that ends where the reader changes its mind.
fn add_short(list: &mut List) {
    let alphabet = ["", "0", "1", "9", "+", "-", ":", ".", " ", "T", "x", "é"];
    for prefix in [
        "",
        "+",
        "2020-",
        "2020-0",
        "2020-01-3",
        "2020-01-30",
        "2020-01-30T",
        "2020-01-30 2",
        "2020-01-30 23:5",
        "2020-01-30 23:59:",
        "2020-01-30 23:59:5",
        "2020-01-30 23:59:59",
        "2020-01-30 23:59:59.12345678",
    ] {
        for first in alphabet {
            for second in alphabet {
                list.add_text_once(&format!("{prefix}{first}{second}"));
            }
        }
    }
}
