//! Where the Rust has no answer, and for what is no request, the answer is `outside`.

use oracle::desk::{LONGEST_LINE, answer};
use oracle::{EPOCH_NAMES, EPOCHS};

fn answered(request: impl AsRef<[u8]>) -> String {
    let mut out = String::new();
    answer(request.as_ref(), &mut out);
    out
}

#[test]
fn inputs_outside_the_domain() {
    let requests = [
        "print 2 0 0 -",
        "epoch 0 2 0 0",
        "epoch 2 0 0 0",
        "read 2 2020-01-01 00:00:00",
        "date 0 1970 1 1 0 0 0 1000000000",
        "date 0 1970 13 1 0 0 0 1000000000",
        "to-unix 0 0 1000000000 0",
        "epoch 0 1 0 1000000000",
        "add 0 1000000000 0 0",
        "add 0 0 0 1000000000",
        "sub 0 1000000000 0 0",
        "sub 0 0 0 4294967295",
        "since 0 1000000000 0 0",
        "since 0 0 0 1000000000",
        "compare 0 1000000000 0 0",
        "compare 0 0 0 1000000000",
        "print 0 0 1000000000 -",
        "print 0 0 0 1001",
        "read-hex 0 ff",
        "line 0 0 0 - 0 2020",
    ];
    for request in requests {
        assert_eq!(answered(request), "outside", "{request}");
    }
    assert_eq!(answered(b"read 0 2020\xff"), "outside");
}

#[test]
fn lines_that_are_no_request() {
    let requests = [
        "",
        " ",
        "new",
        "new ",
        "new 0",
        "new 0 ",
        "new 0 0 ",
        "new  0 0",
        " new 0 0",
        "New 0 0",
        "new 0 0 0",
        "new +1 0",
        "new 01 0",
        "new -0 0",
        "new 0 -1",
        "new 0 00",
        "new - 0",
        "new 9223372036854775808 0",
        "new -9223372036854775809 0",
        "new 0 4294967296",
        "new 100000000000000000000000000000000000000000 0",
        "add 0 0 18446744073709551616 0",
        "add 0 0 -1 0",
        "date 0 2147483648 1 1 0 0 0 0",
        "date 0 1970 256 1 0 0 0 0",
        "date GPS 1970 1 1 0 0 0 0",
        "print 0 0 0",
        "print 0 0 0 +1",
        "print 0 0 0 -1",
        "print 0 0 0 99999999999999999999",
        "read",
        "read 0",
        "read-hex 0",
        "read-hex 0 ",
        "read-hex 0 3",
        "read-hex 0 3A",
        "read-hex 0 30 ",
        "unknown 0 0",
    ];
    for request in requests {
        assert_eq!(answered(request), "outside", "{request:?}");
    }
}

#[test]
fn the_longest_line_is_the_last_that_counts() {
    let start = "read 0 2020-01-01 00:00:00.";
    let line = |len: usize| format!("{start}{}", "0".repeat(len - start.len()));
    assert_eq!(answered(line(LONGEST_LINE)), "ok 1577836800 0");
    assert_eq!(answered(line(LONGEST_LINE + 1)), "outside");
}

#[test]
fn every_epoch_answers_by_number_and_by_name() {
    for epoch in EPOCHS {
        assert_eq!(
            answered(format!("date {epoch} 1970 1 1 0 0 61 0")),
            "refused 4 InvalidSecond 61"
        );
        assert_eq!(answered(format!("read {epoch} ")), "refused 7 MissingField");
        assert_eq!(answered(format!("unix {epoch} {epoch} 5 0")), "ok 0 5");
        assert_eq!(
            answered(format!("to-unix {epoch} 0 0 0")),
            format!("ok {epoch}")
        );
        assert_eq!(answered(format!("epoch {epoch} {epoch} 7 8")), "ok 7 8");
        assert!(answered(format!("print {epoch} 0 0 -")).starts_with("ok "));
    }
    for (name, epoch) in EPOCH_NAMES.iter().zip(EPOCHS) {
        assert_eq!(
            answered(format!("to-unix {name} 0 0 0")),
            format!("ok {epoch}")
        );
    }
}
