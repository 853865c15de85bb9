//! The rule by which the comparison decides against the Rust, held against the second judge's stored answers.

use std::collections::BTreeMap;

use oracle::desk::answer;
use oracle::{Answer, EPOCH_NAMES, EPOCHS, Timestamp};
use oracle::{as_unix_secs, to_tai_time, try_from_unix_timestamp};
use oracle::{exact_from_unix, exact_over_epoch, exact_to_unix, or_exact, reaches_inner_plus};

/// The requests of a stored list, each with its answer.
fn stored(group: &str) -> Vec<(Vec<u8>, String)> {
    let lines = |kind: &str| {
        let path = format!("{}/../list/{group}.{kind}", env!("CARGO_MANIFEST_DIR"));
        let list = std::fs::read(&path).unwrap_or_else(|error| panic!("{path}: {error}"));
        let lines = list.strip_suffix(b"\n").expect("a list ends its last line");
        (lines.split(|&byte| byte == b'\n').map(<[u8]>::to_vec)).collect::<Vec<_>>()
    };
    let answers = lines("answers")
        .into_iter()
        .map(|answer| String::from_utf8(answer).unwrap());
    lines("requests").into_iter().zip(answers).collect()
}

/// The text that a request reads, if it reads one.
fn text_of(request: &[u8]) -> Option<Vec<u8>> {
    let mut words = request.splitn(3, |&byte| byte == b' ');
    match (words.next()?, words.next()?, words.next()?) {
        (b"read", _, text) => Some(text.to_vec()),
        (b"read-hex", _, b"-") => Some(Vec::new()),
        (b"read-hex", _, hex) => (hex.chunks(2))
            .map(|pair| u8::from_str_radix(str::from_utf8(pair).ok()?, 16).ok())
            .collect(),
        _ => None,
    }
}

/// What a request for a conversion is answered by the Rust and by the exact sum, if it is one.
fn conversion(request: &[u8]) -> Option<[Answer<String>; 2]> {
    let (verb, words) = str::from_utf8(request).ok()?.split_once(' ')?;
    let numbers: Option<Vec<i64>> = words.split(' ').map(number_of).collect();
    let &[first, second, third, last] = numbers?.as_slice() else {
        return None;
    };
    let stamp = |secs, nanos| {
        u32::try_from(nanos)
            .ok()
            .map(|nanos| Timestamp { secs, nanos })
    };
    let said = |time: Timestamp| time.to_string();
    Some(match verb {
        "unix" => {
            let (epoch, unix, leap) = (first, stamp(second, third)?, last);
            [try_from_unix_timestamp, exact_from_unix]
                .map(|entry| entry(epoch, unix.secs, unix.nanos, leap).map(said))
        }
        "to-unix" => {
            let (epoch, time, leap) = (first, stamp(second, third)?, last);
            [
                as_unix_secs(epoch, time, leap),
                exact_to_unix(epoch, time.secs, leap),
            ]
            .map(|answer| answer.map(|secs| secs.to_string()))
        }
        "epoch" => {
            let (old, new, time) = (first, second, stamp(third, last)?);
            [to_tai_time, exact_over_epoch].map(|entry| entry(old, new, time).map(said))
        }
        _ => return None,
    })
}

/// A number, or an epoch by its name.
fn number_of(word: &str) -> Option<i64> {
    match EPOCH_NAMES.iter().position(|&name| name == word) {
        Some(place) => Some(EPOCHS[place]),
        None => word.parse().ok(),
    }
}

/// An answer that the desk would give; the exact sum knows no refusal but 10.
fn line(answer: Answer<String>) -> String {
    match answer {
        Answer::Value(value) => format!("ok {value}"),
        _ => "refused 10 NotRepresentable".to_owned(),
    }
}

#[test]
fn the_judge_differs_from_the_rust_where_02_does_and_nowhere_else() {
    let mut amended = BTreeMap::new();
    for (group, differs) in [("rust", false), ("amended", true)] {
        for (request, judged) in stored(group) {
            let mut wanted = String::new();
            answer(&request, &mut wanted);
            assert_eq!(wanted != judged, differs, "{}", request.escape_ascii());
            if text_of(&request).is_some_and(|text| reaches_inner_plus(&text)) {
                wanted = "refused 9 InvalidFieldValue".to_owned();
            } else if let Some([rust, exact]) = conversion(&request) {
                wanted = line(or_exact(rust, exact));
            }
            assert_eq!(wanted, judged, "{}", request.escape_ascii());
            let verb = request.split(|&byte| byte == b' ').next().unwrap().to_vec();
            *amended.entry(verb).or_insert(0) += u32::from(differs);
        }
    }
    for verb in ["read", "read-hex", "unix", "to-unix", "epoch"] {
        assert!(amended[verb.as_bytes()] > 0, "no {verb} is amended");
    }
}

/// Over any epoch the exact sums are the judge's, where it does not refuse the request for something else.
#[test]
fn the_exact_sums_are_those_of_the_judge() {
    let mut held = 0;
    for (request, judged) in stored("beyond") {
        if let Some([_, exact]) = conversion(&request)
            && (judged.starts_with("ok") || judged.starts_with("refused 10"))
        {
            assert_eq!(line(exact), judged, "{}", request.escape_ascii());
            held += 1;
        }
    }
    assert!(held > 1000, "the list holds {held} conversions");
}
