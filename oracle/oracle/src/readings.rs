//! The readings of 01 (section "Readings we keep by the bench") as requests, with the documents' answers.

/// Each request with the answer that 01 states for it, as 02 amends it, in the order of 01.
pub const READINGS: &[(&str, &str)] = &[
    ("print 0 0 0 -", "ok 1970-01-01 00:00:00"),
    ("print gps 0 0 -", "ok 1980-01-06 00:00:19"),
    ("date 0 0 1 1 0 0 0 0", "ok -62167219200 0"),
    ("read 0 0000-01-01 00:00:00", "ok -62167219200 0"),
    ("print 0 -62167219201 0 -", "ok -0001-12-31 23:59:59"),
    ("date 0 2000 2 29 0 0 0 0", "ok 951782400 0"),
    ("read 0 2000-02-29 00:00:00", "ok 951782400 0"),
    ("date 0 1900 2 29 0 0 0 0", "refused 1 InvalidDayOfMonth 29"),
    (
        "read 0 1900-02-29 00:00:00",
        "refused 1 RangeError InvalidDayOfMonth 29",
    ),
    ("date 0 9999 12 31 23 59 59 0", "ok 253402300799 0"),
    ("read 0 9999-12-31 23:59:59", "ok 253402300799 0"),
    ("print 0 -1 500000000 -", "ok 1969-12-31 23:59:59.5"),
    (
        "print 0 9223372036854775807 0 -",
        "ok 292277026596-12-04 15:30:07",
    ),
    (
        "print 0 -9223372036854775808 0 -",
        "ok -292277022657-01-27 08:29:52",
    ),
    // The bottom timestamp plus the longest duration is the latest timestamp.
    (
        "add -9223372036854775808 0 18446744073709551615 999999999",
        "ok 9223372036854775807 999999999",
    ),
    (
        "add -9223372036854775808 1 18446744073709551615 999999999",
        "refused 10 NotRepresentable",
    ),
    ("unix 0 0 4294967295 0", "ok 4 294967295"),
    (
        "unix 0 9223372036854775807 1000000000 -1",
        "ok 9223372036854775807 0",
    ),
    // 02, ask 5: over epoch i64 bottom, second 5 moved to epoch 1 is bottom plus 4.
    (
        "epoch -9223372036854775808 1 5 0",
        "ok -9223372036854775804 0",
    ),
    ("read 0 2020-+5-01T00:00:00", "refused 9 InvalidFieldValue"),
    (
        "read 0 ++2020-01-01 00:00:00",
        "refused 9 InvalidFieldValue",
    ),
    ("read 0 ", "refused 7 MissingField"),
    ("read-hex 0 -", "refused 7 MissingField"),
    ("read 0 2020-1", "refused 8 InvalidFieldWidth"),
    ("read 0 2020-01", "refused 7 MissingField"),
    ("read 0 2020-13-01 00:00:0", "refused 8 InvalidFieldWidth"),
    ("read 0 --2020-01-01", "refused 8 InvalidFieldWidth"),
    ("read 0 2020-01-01 00:00:00.", "refused 7 MissingField"),
    ("read 0 2020-01-01 00:00:00.0000000001", "ok 1577836800 0"),
    (
        "read 0 2020-01-01 00:00:00.0000000001x",
        "refused 9 InvalidFieldValue",
    ),
    (
        "read 0 2020-01-01 00:00:60",
        "refused 4 RangeError InvalidSecond 60",
    ),
    (
        "read 0 2147483648-01-01 00:00:00",
        "refused 9 InvalidFieldValue",
    ),
    // 01 says "accepted and printed"; the count follows from its calendar.
    ("date 0 -2147483648 1 1 0 0 0 0", "ok -67768100567971200 0"),
    (
        "print 0 -67768100567971200 0 -",
        "ok -2147483648-01-01 00:00:00",
    ),
    (
        "read 0 -2147483648-01-01 00:00:00",
        "refused 9 InvalidFieldValue",
    ),
    ("print 0 0 123450000 -", "ok 1970-01-01 00:00:00.12345"),
    ("print 0 0 123450000 2", "ok 1970-01-01 00:00:00.12"),
    ("print 0 0 123450000 20", "ok 1970-01-01 00:00:00.123450000"),
    ("print 0 0 0 3", "ok 1970-01-01 00:00:00.000"),
];

/// What 01 stated before 02 amended it, and the Rust answers still.
pub const BEFORE_02: &[(&str, &str)] = &[
    (
        "unix 0 9223372036854775807 1000000000 -1",
        "refused 10 NotRepresentable",
    ),
    (
        "epoch -9223372036854775808 1 5 0",
        "refused 10 NotRepresentable",
    ),
    ("read 0 2020-+5-01T00:00:00", "ok 1588291200 0"),
    // 01 says "accepted"; the value is that of 2020-01-01.
    ("read 0 ++2020-01-01 00:00:00", "ok 1577836800 0"),
];
