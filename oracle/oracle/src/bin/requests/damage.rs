//! Requests of the reader with damaged copies of good texts: `read` and `read-hex`.

use oracle::Timestamp;

use crate::list::List;

/// The good texts: each separator, each sign, with and without a fraction.
const GOOD: [&str; 3] = [
    "2020-02-29 23:59:59.123456789",
    "-0001-12-31T00:00:00.5",
    "+12345-06-07t08:09:10",
];

/// What a place of the first good text is replaced by.
const MANY: [char; 14] = [
    '0', '9', '+', '-', ':', '.', ' ', 'T', 't', 'x', '/', 'é', '\t', '\0',
];

/// What a place of the other good texts is replaced by, and what is put in between places.
const FEW: [char; 6] = ['0', '+', '-', ':', ' ', '３'];

pub fn add_all(list: &mut List) {
    for (good, others) in GOOD.into_iter().zip([&MANY[..], &FEW, &FEW]) {
        let good: Vec<char> = good.chars().collect();
        for place in 0..good.len() {
            add(list, &deleted(&good, place));
            add(list, &inserted(&good, place, good[place]));
            add(list, &swapped(&good, place));
            add(list, &good[..place]);
            add(list, &good[place..]);
            for &other in others {
                add(list, &replaced(&good, place, other));
            }
        }
    }
    let good: Vec<char> = GOOD[0].chars().collect();
    for place in 0..=good.len() {
        for other in FEW.into_iter().chain(['.', 'T', '\n']) {
            add(list, &inserted(&good, place, other));
        }
    }
    for _ in 0..5000 {
        add_random(list);
    }
}

/// A random stamp of a year in i32, whole or damaged at one or two random places.
fn add_random(list: &mut List) {
    let random = &mut list.random;
    let stamp = Timestamp {
        secs: random.signed(56),
        nanos: random.nanos(),
    };
    let mut text = String::new();
    oracle::print(&mut text, 0, stamp, None).expect("a string takes any text");
    let mut text: Vec<char> = text.chars().collect();
    if random.below(2) == 0 {
        let separator = text
            .iter()
            .position(|&c| c == ' ')
            .expect("a printed stamp has one");
        text[separator] = random.pick(&['T', 't']);
    }
    for _ in 0..random.below(3) {
        let place = random.below(text.len() as u64) as usize;
        let other = random.pick(&MANY);
        text = match random.below(5) {
            0 => deleted(&text, place),
            1 => inserted(&text, place, other),
            2 => swapped(&text, place),
            _ => replaced(&text, place, other),
        };
    }
    add(list, &text);
}

fn add(list: &mut List, text: &[char]) {
    list.add_text_once(&text.iter().collect::<String>());
}

fn deleted(text: &[char], place: usize) -> Vec<char> {
    [&text[..place], &text[place + 1..]].concat()
}

fn inserted(text: &[char], place: usize, other: char) -> Vec<char> {
    [&text[..place], &[other], &text[place..]].concat()
}

fn replaced(text: &[char], place: usize, other: char) -> Vec<char> {
    [&text[..place], &[other], &text[place + 1..]].concat()
}

/// The place and the next one exchanged; the last stays.
fn swapped(text: &[char], place: usize) -> Vec<char> {
    let mut text = text.to_vec();
    if place + 1 < text.len() {
        text.swap(place, place + 1);
    }
    text
}
