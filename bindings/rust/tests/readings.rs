//! Readings of document 01 through the crate, by the type with the epoch in it and by the epoch as a value.

use core::time::Duration;

use admezgast::*;

fn at(secs: i64, nanos: u32) -> MonotonicTime {
    MonotonicTime::new(secs, nanos).unwrap()
}

fn count(secs: i64, nanos: u32) -> Count {
    Count::new(secs, nanos).unwrap()
}

#[test]
fn texts_of_counts() {
    let cases = [
        (at(0, 0), "1970-01-01 00:00:00"),
        (at(-62_167_219_201, 0), "-0001-12-31 23:59:59"),
        (at(-1, 500_000_000), "1969-12-31 23:59:59.5"),
        (at(i64::MAX, 0), "292277026596-12-04 15:30:07"),
        (at(i64::MIN, 0), "-292277022657-01-27 08:29:52"),
    ];
    for (time, text) in cases {
        assert_eq!(time.to_string(), text);
        let stamp = count(time.as_secs(), time.subsec_nanos()).over(Epoch(0));
        assert_eq!(stamp.to_string(), text);
    }
    assert_eq!(GpsTime::EPOCH.to_string(), "1980-01-06 00:00:19");
    let time = at(0, 123_450_000);
    assert_eq!(format!("{time}"), "1970-01-01 00:00:00.12345");
    assert_eq!(format!("{time:.2}"), "1970-01-01 00:00:00.12");
    assert_eq!(format!("{time:.20}"), "1970-01-01 00:00:00.123450000");
    assert_eq!(format!("{:.3}", at(0, 0)), "1970-01-01 00:00:00.000");
    let longest = Count::MIN.checked_add(Duration::from_nanos(1)).unwrap();
    let longest = longest.over(Epoch(i64::MIN)).to_string();
    assert_eq!(longest, "-584554047284-02-23 16:59:44.000000001");
    assert_eq!(longest.len(), LONGEST_TEXT);
}

#[test]
fn counts_of_dates() {
    let date = |year, month, day| MonotonicTime::try_from_date_time(year, month, day, 0, 0, 0, 0);
    assert_eq!(date(0, 1, 1), Ok(at(-62_167_219_200, 0)));
    assert_eq!(date(2000, 2, 29), Ok(at(951_782_400, 0)));
    assert_eq!(date(1900, 2, 29), Err(DateTimeError::InvalidDayOfMonth(29)));
    assert_eq!(
        date(i32::MIN, 1, 1).unwrap().to_string(),
        "-2147483648-01-01 00:00:00"
    );
    let fields = |fields: [u8; 5], nano| {
        let [month, day, hour, min, sec] = fields;
        Count::try_from_date_time(Epoch(i64::MIN), 1970, month, day, hour, min, sec, nano)
    };
    let bad_nano = 1_000_000_000;
    let refusals = [
        ([13, 0, 24, 60, 60], DateTimeError::InvalidMonth(13)),
        ([1, 0, 24, 60, 60], DateTimeError::InvalidDayOfMonth(0)),
        ([1, 1, 24, 60, 60], DateTimeError::InvalidHour(24)),
        ([1, 1, 0, 60, 60], DateTimeError::InvalidMinute(60)),
        ([1, 1, 0, 0, 60], DateTimeError::InvalidSecond(60)),
        ([1, 1, 0, 0, 0], DateTimeError::InvalidNanosecond(bad_nano)),
    ];
    for (wrong, refusal) in refusals {
        assert_eq!(fields(wrong, bad_nano), Err(refusal));
    }
    assert_eq!(fields([1, 1, 0, 0, 0], 0), Err(DateTimeError::OutOfRange));
}

#[test]
fn counts_of_texts() {
    let read = str::parse::<MonotonicTime>;
    assert_eq!(read("9999-12-31 23:59:59"), Ok(at(253_402_300_799, 0)));
    assert_eq!(read("+2020-05-01T00:00:00"), Ok(at(1_588_291_200, 0)));
    for inner_plus in [
        "2020-+5-01T00:00:00",
        "++2020-01-01 00:00:00",
        "-+020-01-01 00:00:00",
        "2020-01-+1 00:00:00",
        "2020-01-01 +0:00:00",
        "2020-01-01 00:+0:00",
        "2020-01-01 00:00:+0",
        "2020-01-01 00:00:+0.5",
        "2020-01-01 00:00:00.+5",
        "2020-+5-1", // 8 in tai-time, which goes on to the day
    ] {
        let refused = Err(ParseDateTimeError::InvalidFieldValue);
        assert_eq!(read(inner_plus), refused, "{inner_plus}");
    }
    let three_bytes = "2020-+05-01 00:00:00";
    assert_eq!(
        read(three_bytes),
        Err(ParseDateTimeError::InvalidFieldWidth)
    );
    assert_eq!(read(""), Err(ParseDateTimeError::MissingField));
    assert_eq!(read("2020-1"), Err(ParseDateTimeError::InvalidFieldWidth));
    let too_late = "2147483648-01-01 00:00:00";
    assert_eq!(read(too_late), Err(ParseDateTimeError::InvalidFieldValue));
    let refused = |inner| Err(ParseDateTimeError::RangeError(inner));
    let second = DateTimeError::InvalidSecond(60);
    assert_eq!(read("2016-12-31 23:59:60"), refused(second));
    let month = DateTimeError::InvalidMonth(13);
    assert_eq!(read("2020-13-01 00:00:00"), refused(month));
    let bottom = "1970-01-01 00:00:00".parse::<TaiTime<{ i64::MIN }>>();
    assert_eq!(
        bottom.unwrap_err().to_string(),
        "timestamp outside representable range"
    );

    assert_eq!(
        GpsTime::from_text(b"1980-01-06 00:00:19.5"),
        Ok(GpsTime::new(0, 500_000_000).unwrap())
    );
    assert_eq!(
        Count::from_text(Epoch::GPS_TIME, b"1980-01-06 00:00:19"),
        Ok(Count::EPOCH)
    );
    assert_eq!(
        GpsTime::from_text(&[0xff]),
        Err(ParseDateTimeError::MissingField)
    );
}

#[test]
fn sums() {
    let longest = Duration::new(u64::MAX, 999_999_999);
    assert_eq!(GpsTime::MIN.checked_add(longest), Some(GpsTime::MAX));
    assert_eq!(at(i64::MIN, 1).checked_add(longest), None);
    assert_eq!(GpsTime::MAX.checked_sub(longest), Some(GpsTime::MIN));
    assert_eq!(
        at(0, 0).checked_sub(Duration::new(0, 1)),
        Some(at(-1, 999_999_999))
    );
    assert_eq!(GpsTime::MIN.checked_sub(Duration::new(0, 1)), None);
    assert_eq!(
        GpsTime::MAX.checked_duration_since(GpsTime::MIN),
        Some(longest)
    );
    assert_eq!(GpsTime::MIN.checked_duration_since(GpsTime::MAX), None);
    assert_eq!(Count::MAX.checked_sub(longest), Some(Count::MIN));
    assert_eq!(Count::MIN.checked_duration_since(Count::MAX), None);
}

#[test]
fn orders() {
    let ascending = [
        at(i64::MIN, 0),
        at(-1, 5),
        at(0, 0),
        at(0, 2),
        at(i64::MAX, 0),
    ];
    for (a, first) in ascending.iter().enumerate() {
        for (b, second) in ascending.iter().enumerate() {
            assert_eq!(first.cmp(second), a.cmp(&b));
            let counts = [first, second].map(|time| count(time.as_secs(), time.subsec_nanos()));
            assert_eq!(counts[0].partial_cmp(&counts[1]), Some(a.cmp(&b)));
        }
    }
    assert_eq!(
        (MonotonicTime::default(), Count::default()),
        (at(0, 0), Count::EPOCH)
    );
    assert_eq!(
        (
            MonotonicTime::new(0, 1_000_000_000),
            Count::new(0, 1_000_000_000)
        ),
        (None, None)
    );
}

#[test]
fn conversions() {
    let unix = MonotonicTime::try_from_unix_timestamp;
    assert_eq!(unix(0, u32::MAX, 0), Ok(at(4, 294_967_295)));
    assert_eq!(unix(i64::MAX, 0, 0), Ok(at(i64::MAX, 0)));
    assert_eq!(unix(i64::MAX, 1_000_000_000, -1), Ok(at(i64::MAX, 0)));
    assert!(unix(i64::MAX, 1_000_000_000, 0).is_err());
    let time = GpsTime::try_from_unix_timestamp(1_700_000_000, 0, 37).unwrap();
    assert_eq!(
        (time.as_secs(), time.as_unix_secs(37)),
        (1_384_035_218, Some(1_700_000_000))
    );
    assert_eq!(GpsTime::MAX.as_unix_secs(0), None);
    assert_eq!(GpsTime::MAX.to_tai_time::<0>(), None);
    assert_eq!(
        GpsTime::new(5, 7).unwrap().to_tai_time(),
        Some(at(315_964_824, 7))
    );

    let (gps, leap) = (Epoch::GPS_TIME, LeapOffset(37));
    let made = Count::try_from_unix_timestamp(gps, UnixSeconds(1_700_000_000), 0, leap).unwrap();
    assert_eq!(
        made.as_unix_secs(gps, leap),
        Some(UnixSeconds(1_700_000_000))
    );
    assert_eq!(Count::MAX.as_unix_secs(gps, leap), None);
    assert_eq!(
        Count::MIN.as_unix_secs(Epoch(1), LeapOffset(1)),
        Some(UnixSeconds(i64::MIN))
    );
    assert_eq!(
        count(5, 7).change_epoch(gps, Epoch(0)),
        Some(count(315_964_824, 7))
    );
    let bottom = Epoch(i64::MIN);
    assert_eq!(
        count(5, 7).change_epoch(bottom, Epoch(1)),
        Some(count(i64::MIN + 4, 7))
    );
    assert_eq!(count(0, 7).change_epoch(bottom, Epoch(1)), None);
}

#[test]
fn lent_lines() {
    let mut line = [b'x'; 21];
    let time = MonotonicTime::EPOCH;
    assert_eq!(
        time.write_text(None, &mut line, 22),
        Err(PrintError::StartOutside)
    );
    let no_room = Err(PrintError::NoRoom { wanted: 19 });
    assert_eq!(time.write_text(None, &mut line, 3), no_room);
    assert_eq!(time.write_text(None, &mut [], 0), no_room);
    assert_eq!(line, [b'x'; 21]);
    assert_eq!(time.write_text(None, &mut line, 1), Ok(19));
    assert_eq!(&line, b"x1970-01-01 00:00:00x");
    assert_eq!(
        Count::EPOCH.write_text(Epoch::GPS_TIME, Some(1), &mut line, 0),
        Ok(21)
    );
    assert_eq!(&line, b"1980-01-06 00:00:19.0");
}

/// Texts of each length, from three places: one byte fewer than wanted is refused with the same number.
#[test]
fn wanted_is_enough() {
    let years = [
        (0, 0),
        (253_402_300_800, 0),
        (i64::MAX, 0),
        (i64::MIN, i64::MIN),
    ];
    for (secs, epoch) in years {
        for precision in (0..=9).map(Some).chain([None]) {
            let count = count(secs, 123_456_789);
            let text = match precision {
                Some(digits) => format!("{:.digits$}", count.over(Epoch(epoch))),
                None => count.over(Epoch(epoch)).to_string(),
            };
            for place in [0, 1, 40] {
                let write =
                    |line: &mut [u8]| count.write_text(Epoch(epoch), precision, line, place);
                let Err(PrintError::NoRoom { wanted }) = write(&mut vec![0; place]) else {
                    panic!("a text has no room at the end of a line");
                };
                let mut fewer = vec![7; place + wanted - 1];
                assert_eq!(write(&mut fewer), Err(PrintError::NoRoom { wanted }));
                assert_eq!(fewer, vec![7; place + wanted - 1]);
                let mut line = vec![7; place + wanted];
                assert_eq!(write(&mut line), Ok(wanted));
                assert_eq!(line, [vec![7; place].as_slice(), text.as_bytes()].concat());
            }
        }
    }
    assert_eq!(
        PrintError::NoRoom { wanted: 38 }.to_string(),
        "the text has 38 bytes, more than are left of the line"
    );
}

#[test]
fn moments_and_stamps() {
    let moment = GpsTime::new(-20, 5).unwrap().moment();
    let shown = "Moment { year: 1980, month: 1, day: 5, hour: 23, minute: 59, second: 59 }";
    assert_eq!(format!("{moment:?}"), shown);
    assert_eq!(count(-20, 5).moment(Epoch::GPS_TIME), moment);
    assert!(moment < GpsTime::EPOCH.moment());

    let stamp = Stamp::from(GpsTime::new(5, 7).unwrap());
    assert_eq!(
        (stamp.count(), stamp.epoch()),
        (count(5, 7), Epoch::GPS_TIME)
    );
    assert_eq!(GpsTime::try_from(stamp), Ok(GpsTime::new(5, 7).unwrap()));
    let error: Box<dyn core::error::Error> = MonotonicTime::try_from(stamp).unwrap_err().into();
    assert_eq!(
        error.to_string(),
        "the stamp counts from 315964819, and not from 0"
    );
}
