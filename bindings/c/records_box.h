/* Admezgast for C (C99 and later) and C++ (C++11 and later), x86-64 Linux. Link crates/records_box/out/librecords_box.a,
 * which `rt lib` in crates/records_box writes; nothing else is needed beside it.
 *
 * A timestamp is a count: secs from an epoch, and nanos below 10^9 that count forward from there. A count does not tell
 * its epoch: compare and subtract only counts over one epoch.
 *
 * Every call ends, for every number. refusal is TAI_ACCEPTED (-1), or the call is refused and it is one of the other
 * names of tai_refusal. The remaining fields of a refusal are 0, but value, in_range_error where a text's date is
 * refused, and wanted where there is no room. Take a number that is not named here for a refusal too. */
#ifndef RECORDS_BOX_H
#define RECORDS_BOX_H

#include <stddef.h>
#include <stdint.h>

#ifdef __cplusplus
extern "C" {
#endif

/* Three kinds of number; one handed over for another does not compile. */
typedef struct { int64_t seconds; } tai_epoch;        /* from 1970-01-01 00:00:00 TAI */
typedef struct { int64_t seconds; } tai_leap_offset;  /* TAI minus UTC */
typedef struct { int64_t seconds; } tai_unix_seconds; /* a Unix time */

static const tai_epoch TAI_EPOCH_MONOTONIC = {0};       /* 1970-01-01 00:00:00 TAI */
static const tai_epoch TAI_EPOCH_GPS = {315964819};     /* 1980-01-06 00:00:19 TAI */
static const tai_epoch TAI_EPOCH_GST = {935280019};     /* Galileo, 1999-08-22 00:00:19 TAI */
static const tai_epoch TAI_EPOCH_BDT = {1136073633};    /* BeiDou, 2006-01-01 00:00:33 TAI */
static const tai_epoch TAI_EPOCH_TAI1958 = {-378691200}; /* 1958-01-01 00:00:00 TAI */
static const tai_epoch TAI_EPOCH_TAI1972 = {63072000};  /* 1972-01-01 00:00:00 TAI */

/* No text that is written has more bytes; no NUL is written behind it. */
#define TAI_LONGEST_TEXT 38

/* value, where there is one, stands in brackets. */
typedef enum {
    TAI_ACCEPTED = -1,
    TAI_INVALID_MONTH = 0,        /* outside 1 to 12 (the month) */
    TAI_INVALID_DAY_OF_MONTH = 1, /* 0 or past the month's end (the day) */
    TAI_INVALID_HOUR = 2,         /* above 23 (the hour) */
    TAI_INVALID_MINUTE = 3,       /* above 59 (the minute) */
    TAI_INVALID_SECOND = 4,       /* above 59 (the second) */
    TAI_INVALID_NANOSECOND = 5,   /* 10^9 or more in calendar fields (the nanoseconds) */
    TAI_OUT_OF_RANGE = 6,         /* the date's seconds minus the epoch leave int64_t */
    TAI_MISSING_FIELD = 7,        /* a delimiter is absent, or nothing follows the point */
    TAI_INVALID_FIELD_WIDTH = 8,
    TAI_INVALID_FIELD_VALUE = 9,  /* anything but digits, or too large */
    TAI_NOT_REPRESENTABLE = 10,   /* the result is none of its type */
    TAI_BAD_NANOS = 11,           /* a given count or duration has 10^9 nanoseconds or more */
    TAI_START_OUTSIDE = 12,       /* at is beyond the line's length */
    TAI_NO_ROOM = 13              /* the text is longer than what is left of the line (wanted: its length) */
} tai_refusal;

typedef struct {
    int32_t refusal;
    int32_t in_range_error; /* 1: a text was read, and its date is refused (0 to 6) */
    uint32_t value;
    uint32_t nanos;
    int64_t secs;
} tai_time_result;

typedef struct {
    int32_t refusal;
    tai_unix_seconds secs;
} tai_unix_result;

typedef struct {
    int32_t refusal;
    uint32_t nanos;
    uint64_t secs;
} tai_duration_result;

typedef struct {
    int32_t refusal;
    int32_t ordering; /* -1, 0, 1: the first is earlier, the same, later */
} tai_ordering_result;

typedef struct {
    int32_t refusal;
    uint32_t wanted; /* the length of a text that had no room (TAI_NO_ROOM), else 0 */
    size_t length;
} tai_length_result;

typedef struct {
    int64_t year; /* with a year 0 */
    uint8_t month, day, hour, minute, second;
} tai_moment_result;

/* A count of its parts. Refuses 11. */
tai_time_result tai_new(int64_t secs, uint32_t nanos);

/* The count over the epoch that reads as the calendar fields. Refuses 0 to 6, in this order. */
tai_time_result tai_try_from_date_time(tai_epoch epoch, int32_t year, uint8_t month, uint8_t day, uint8_t hour,
                                       uint8_t min, uint8_t sec, uint32_t nano);

/* The count of a Unix time; whole seconds in the nanoseconds are carried. Refuses 10 where secs + carry + leap - epoch
 * leaves int64_t: the exact sum decides, here and in the next two, whatever comes on the way. */
tai_time_result tai_try_from_unix_timestamp(tai_epoch epoch, tai_unix_seconds secs, uint32_t nanos,
                                            tai_leap_offset leap);

/* The Unix seconds of a count, rounded down. Refuses 11, then 10 where secs - leap + epoch leaves int64_t. */
tai_unix_result tai_as_unix_secs(tai_epoch epoch, int64_t secs, uint32_t nanos, tai_leap_offset leap);

/* The count of the same moment over the new epoch. Refuses 11, then 10 where old_epoch - new_epoch + secs leaves
 * int64_t. */
tai_time_result tai_to_tai_time(tai_epoch old_epoch, tai_epoch new_epoch, int64_t secs, uint32_t nanos);

/* A duration later, and earlier. Both refuse 11, of the count or of the duration, then 10 where no count lies there. */
tai_time_result tai_checked_add(int64_t secs, uint32_t nanos, uint64_t duration_secs, uint32_t duration_nanos);
tai_time_result tai_checked_sub(int64_t secs, uint32_t nanos, uint64_t duration_secs, uint32_t duration_nanos);

/* The first count minus the second. Refuses 11, of either, then 10 where the first is earlier. */
tai_duration_result tai_checked_duration_since(int64_t secs, uint32_t nanos, int64_t earlier_secs,
                                               uint32_t earlier_nanos);

/* The first count against the second. Refuses 11, of either. */
tai_ordering_result tai_cmp(int64_t secs, uint32_t nanos, int64_t other_secs, uint32_t other_nanos);

/* Reads a text, any bytes: [+-]YYYY-MM-DD hh:mm:ss[.d...], the year of four digits or more, the blank also T or t; a
 * field is digits only. Refuses 7 to 9 while reading; then the date, 0 to 6, in_range_error 1. text may not be null,
 * also where text_len is 0. */
tai_time_result tai_from_str(tai_epoch epoch, const uint8_t *text, size_t text_len);

/* Writes the text of a count, [-]YYYY-MM-DD hh:mm:ss[.d...], into the line from the place at, and tells its length.
 * given 0: no precision, all digits but trailing zeros; else digits of the fraction, at most nine, cut. Refuses 11, 12,
 * 13, in this order, and then leaves the line; after 13, wanted bytes from the same place are enough. Else no byte
 * before at or behind the text is touched. line may not be null, also where line_len is 0. */
tai_length_result tai_display(tai_epoch epoch, int64_t secs, uint32_t nanos, int32_t given, size_t digits,
                              uint8_t *line, size_t line_len, size_t at);

/* The calendar moment at secs plus epoch. Refuses nothing. */
tai_moment_result tai_secs_to_date_time(tai_epoch epoch, int64_t secs);

#ifdef __cplusplus
}
#endif

#endif
