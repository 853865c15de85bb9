/* Calls every entry with what it accepts and what it refuses, looks at every field of each result, and tells the
 * header's constants on standard output. It is C11, and through every_entry.cpp also C++17. */
#include "records_box.h"

#include <stdio.h>
#include <string.h>

static int failures = 0;

static void hold(int right, int line, const char *condition) {
    if (!right) {
        fprintf(stderr, "every_entry.c:%d: not so: %s\n", line, condition);
        failures++;
    }
}

#define HOLD(condition) hold(condition, __LINE__, #condition)

static int gives(tai_time_result r, int64_t secs, uint32_t nanos) {
    return r.refusal == TAI_ACCEPTED && r.in_range_error == 0 && r.value == 0 && r.nanos == nanos && r.secs == secs;
}

static int refuses(tai_time_result r, tai_refusal refusal, uint32_t value) {
    return r.refusal == refusal && r.in_range_error == 0 && r.value == value && r.nanos == 0 && r.secs == 0;
}

static int refuses_its_date(tai_time_result r, tai_refusal refusal, uint32_t value) {
    return r.refusal == refusal && r.in_range_error == 1 && r.value == value && r.nanos == 0 && r.secs == 0;
}

static int is_unix(tai_unix_result r, int32_t refusal, int64_t seconds) {
    return r.refusal == refusal && r.secs.seconds == seconds;
}

static int lasts(tai_duration_result r, int32_t refusal, uint64_t secs, uint32_t nanos) {
    return r.refusal == refusal && r.secs == secs && r.nanos == nanos;
}

static int is_order(tai_ordering_result r, int32_t refusal, int32_t ordering) {
    return r.refusal == refusal && r.ordering == ordering;
}

static int writes(tai_length_result r, size_t length) {
    return r.refusal == TAI_ACCEPTED && r.wanted == 0 && r.length == length;
}

static int writes_nothing(tai_length_result r, tai_refusal refusal, uint32_t wanted) {
    return r.refusal == refusal && r.wanted == wanted && r.length == 0;
}

static const tai_epoch zero = {0}, one = {1}, bottom = {INT64_MIN};
static const uint32_t too_many = 1000000000;

static void counts_of_fields(void) {
    HOLD(gives(tai_new(INT64_MIN, 999999999), INT64_MIN, 999999999));
    HOLD(refuses(tai_new(5, too_many), TAI_BAD_NANOS, 0));

    HOLD(gives(tai_try_from_date_time(TAI_EPOCH_GPS, 2024, 2, 29, 12, 34, 56, 7), 1393245277, 7));
    HOLD(gives(tai_try_from_date_time(TAI_EPOCH_MONOTONIC, 1970, 1, 1, 0, 0, 0, 0), 0, 0));
    HOLD(gives(tai_try_from_date_time(TAI_EPOCH_GPS, 1980, 1, 6, 0, 0, 19, 0), 0, 0));
    HOLD(gives(tai_try_from_date_time(TAI_EPOCH_GST, 1999, 8, 22, 0, 0, 19, 0), 0, 0));
    HOLD(gives(tai_try_from_date_time(TAI_EPOCH_BDT, 2006, 1, 1, 0, 0, 33, 0), 0, 0));
    HOLD(gives(tai_try_from_date_time(TAI_EPOCH_TAI1958, 1958, 1, 1, 0, 0, 0, 0), 0, 0));
    HOLD(gives(tai_try_from_date_time(TAI_EPOCH_TAI1972, 1972, 1, 1, 0, 0, 0, 0), 0, 0));
    HOLD(refuses(tai_try_from_date_time(zero, 1970, 13, 0, 0, 0, 0, 0), TAI_INVALID_MONTH, 13));
    HOLD(refuses(tai_try_from_date_time(zero, 1900, 2, 29, 24, 0, 0, 0), TAI_INVALID_DAY_OF_MONTH, 29));
    HOLD(refuses(tai_try_from_date_time(zero, 1970, 1, 1, 24, 60, 0, 0), TAI_INVALID_HOUR, 24));
    HOLD(refuses(tai_try_from_date_time(zero, 1970, 1, 1, 0, 60, 61, 0), TAI_INVALID_MINUTE, 60));
    HOLD(refuses(tai_try_from_date_time(zero, 1970, 1, 1, 0, 0, 61, too_many), TAI_INVALID_SECOND, 61));
    HOLD(refuses(tai_try_from_date_time(bottom, 1970, 1, 1, 0, 0, 0, too_many), TAI_INVALID_NANOSECOND, too_many));
    HOLD(refuses(tai_try_from_date_time(bottom, 1970, 1, 1, 0, 0, 0, 0), TAI_OUT_OF_RANGE, 0));
}

static void conversions(void) {
    const tai_unix_seconds unix_time = {1700000000}, latest = {INT64_MAX};
    const tai_leap_offset leap = {37}, none = {0}, ahead = {1}, back = {-1};

    HOLD(gives(tai_try_from_unix_timestamp(TAI_EPOCH_GPS, unix_time, UINT32_MAX, leap), 1384035222, 294967295));
    HOLD(gives(tai_try_from_unix_timestamp(zero, latest, too_many, back), INT64_MAX, 0));
    HOLD(refuses(tai_try_from_unix_timestamp(zero, latest, too_many, none), TAI_NOT_REPRESENTABLE, 0));

    HOLD(is_unix(tai_as_unix_secs(TAI_EPOCH_GPS, 1384035218, 5, leap), TAI_ACCEPTED, 1700000000));
    HOLD(is_unix(tai_as_unix_secs(one, INT64_MIN, 5, ahead), TAI_ACCEPTED, INT64_MIN));
    HOLD(is_unix(tai_as_unix_secs(one, INT64_MAX, too_many, leap), TAI_BAD_NANOS, 0));
    HOLD(is_unix(tai_as_unix_secs(zero, INT64_MAX, 5, back), TAI_NOT_REPRESENTABLE, 0));

    HOLD(gives(tai_to_tai_time(TAI_EPOCH_GPS, zero, 5, 7), 315964824, 7));
    HOLD(refuses(tai_to_tai_time(bottom, one, 5, too_many), TAI_BAD_NANOS, 0));
    HOLD(gives(tai_to_tai_time(bottom, one, 5, 7), INT64_MIN + 4, 7));
    HOLD(refuses(tai_to_tai_time(bottom, one, 0, 7), TAI_NOT_REPRESENTABLE, 0));
}

static void durations(void) {
    HOLD(gives(tai_checked_add(INT64_MIN, 0, UINT64_MAX, 999999999), INT64_MAX, 999999999));
    HOLD(refuses(tai_checked_add(INT64_MIN, 1, UINT64_MAX, 999999999), TAI_NOT_REPRESENTABLE, 0));
    HOLD(refuses(tai_checked_add(INT64_MAX, too_many, 1, 0), TAI_BAD_NANOS, 0));
    HOLD(refuses(tai_checked_add(INT64_MAX, 0, 1, too_many), TAI_BAD_NANOS, 0));

    HOLD(gives(tai_checked_sub(0, 0, 3, 1), -4, 999999999));
    HOLD(refuses(tai_checked_sub(INT64_MIN, 0, 0, 1), TAI_NOT_REPRESENTABLE, 0));
    HOLD(refuses(tai_checked_sub(INT64_MIN, too_many, 1, 0), TAI_BAD_NANOS, 0));
    HOLD(refuses(tai_checked_sub(INT64_MIN, 0, 1, too_many), TAI_BAD_NANOS, 0));

    HOLD(lasts(tai_checked_duration_since(INT64_MAX, 999999999, INT64_MIN, 0), TAI_ACCEPTED, UINT64_MAX, 999999999));
    HOLD(lasts(tai_checked_duration_since(3, 500000000, 5, 0), TAI_NOT_REPRESENTABLE, 0, 0));
    HOLD(lasts(tai_checked_duration_since(3, too_many, 5, 0), TAI_BAD_NANOS, 0, 0));
    HOLD(lasts(tai_checked_duration_since(3, 0, 5, too_many), TAI_BAD_NANOS, 0, 0));

    HOLD(is_order(tai_cmp(3, 500000000, 5, 0), TAI_ACCEPTED, -1));
    HOLD(is_order(tai_cmp(-3, 5, -3, 5), TAI_ACCEPTED, 0));
    HOLD(is_order(tai_cmp(3, 6, 3, 5), TAI_ACCEPTED, 1));
    HOLD(is_order(tai_cmp(3, too_many, 5, 0), TAI_BAD_NANOS, 0));
    HOLD(is_order(tai_cmp(3, 0, 5, too_many), TAI_BAD_NANOS, 0));
}

static tai_time_result read(tai_epoch epoch, const char *text) {
    return tai_from_str(epoch, (const uint8_t *)text, strlen(text));
}

static void reading(void) {
    HOLD(gives(read(TAI_EPOCH_GPS, "1980-01-06 00:00:19.5"), 0, 500000000));
    HOLD(refuses(read(zero, ""), TAI_MISSING_FIELD, 0));
    HOLD(refuses(read(zero, "2020-1"), TAI_INVALID_FIELD_WIDTH, 0));
    HOLD(refuses(read(zero, "2147483648-01-01 00:00:00"), TAI_INVALID_FIELD_VALUE, 0));
    HOLD(refuses(read(zero, "2020-+5-01T00:00:00"), TAI_INVALID_FIELD_VALUE, 0));
    HOLD(refuses(read(zero, "++2020-01-01 00:00:00"), TAI_INVALID_FIELD_VALUE, 0));
    HOLD(refuses_its_date(read(zero, "2020-13-01 00:00:00"), TAI_INVALID_MONTH, 13));
    HOLD(refuses_its_date(read(zero, "1900-02-29 00:00:00"), TAI_INVALID_DAY_OF_MONTH, 29));
    HOLD(refuses_its_date(read(zero, "2020-01-01 24:00:00"), TAI_INVALID_HOUR, 24));
    HOLD(refuses_its_date(read(zero, "2020-01-01 00:60:00"), TAI_INVALID_MINUTE, 60));
    HOLD(refuses_its_date(read(zero, "2020-01-01 00:00:60"), TAI_INVALID_SECOND, 60));
    HOLD(refuses_its_date(read(bottom, "1970-01-01 00:00:00"), TAI_OUT_OF_RANGE, 0));
}

static void writing(void) {
    uint8_t line[TAI_LONGEST_TEXT + 4];
    memset(line, 'x', sizeof line);
    HOLD(writes_nothing(tai_display(TAI_EPOCH_GPS, 0, too_many, 0, 0, line, 1, 2), TAI_BAD_NANOS, 0));
    HOLD(writes_nothing(tai_display(TAI_EPOCH_GPS, 0, 0, 0, 0, line, 1, 2), TAI_START_OUTSIDE, 0));
    HOLD(writes_nothing(tai_display(TAI_EPOCH_GPS, 0, 0, 0, 0, line, 19, 1), TAI_NO_ROOM, 19));
    HOLD(writes_nothing(tai_display(zero, 0, 129000000, 1, 2, line, 0, 0), TAI_NO_ROOM, 22));
    HOLD(writes_nothing(tai_display(bottom, INT64_MIN, 1, 0, 0, line, 38, 1), TAI_NO_ROOM, TAI_LONGEST_TEXT));
    HOLD(line[0] == 'x' && memcmp(line, line + 1, sizeof line - 1) == 0);

    HOLD(writes(tai_display(TAI_EPOCH_GPS, 0, 0, 0, 9, line, 20, 1), 19));
    HOLD(memcmp(line, "x1980-01-06 00:00:19x", 21) == 0);
    HOLD(writes(tai_display(zero, 0, 129000000, 1, 2, line, sizeof line, 1), 22));
    HOLD(memcmp(line, "x1970-01-01 00:00:00.12x", 24) == 0);

    HOLD(writes(tai_display(bottom, INT64_MIN, 1, 0, 0, line, sizeof line, 1), TAI_LONGEST_TEXT));
    HOLD(memcmp(line, "x-584554047284-02-23 16:59:44.000000001xxx", sizeof line) == 0);
}

static void moments(void) {
    tai_moment_result m = tai_secs_to_date_time(TAI_EPOCH_GPS, 1393245277);
    HOLD(m.year == 2024 && m.month == 2 && m.day == 29 && m.hour == 12 && m.minute == 34 && m.second == 56);
    m = tai_secs_to_date_time(bottom, INT64_MIN);
    HOLD(m.year == -584554047284 && m.month == 2 && m.day == 23 && m.hour == 16 && m.minute == 59 && m.second == 44);
}

static void tell_constants(void) {
    const tai_epoch epochs[] = {TAI_EPOCH_MONOTONIC, TAI_EPOCH_GPS,     TAI_EPOCH_GST,
                                TAI_EPOCH_BDT,       TAI_EPOCH_TAI1958, TAI_EPOCH_TAI1972};
    for (size_t which = 0; which < sizeof epochs / sizeof epochs[0]; which++) {
        printf("%lld ", (long long)epochs[which].seconds);
    }
    printf("%d\n", TAI_LONGEST_TEXT);
}

int main(void) {
    counts_of_fields();
    conversions();
    durations();
    reading();
    writing();
    moments();
    tell_constants();
    return failures == 0 ? 0 : 1;
}
