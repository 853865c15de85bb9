#!/usr/bin/env python3
"""Writes requests that the Rust has no answer to; the second judge answers them.

    beyond.py          the list that is kept, the same on every run
    beyond.py SEED     the same boundary values with other random numbers
"""

import sys
from itertools import product

sys.dont_write_bytecode = True

import lines
import malformed
import texts
from days import closed_count
from request_list import BAD_NANOS, BOTTOM, FULL, HIGHEST, OTHER_EPOCHS, RUST_EPOCHS, SECS, TOP, List

SEED = 0x7A19_7001_0101_0020
PRECISIONS = ("-", *range(10), 20, 1000)
LARGE_PRECISIONS = (1001, 65_536, 2**31, 2**32, 2**63 - 1, 2**63, HIGHEST)


def add_dates_over_other_epochs(requests):
    """Dates that reach an end of i64 over an epoch, miss it by one, or pass it by one."""
    random = requests.random
    for year in (-(2**31), -9999, -1, 0, 1969, 1970, 2000, 9999, 2**31 - 1):
        for month, day, clock in ((1, 1, (0, 0, 0)), (2, 29, (12, 34, 56)), (12, 31, (23, 59, 59))):
            hour, minute, second = clock
            count = closed_count(year, month, day) * 86_400 + hour * 3600 + minute * 60 + second
            for end in (BOTTOM, TOP):
                for step in (-1, 0, 1):
                    epoch = count - end - step
                    if BOTTOM <= epoch <= TOP and epoch not in RUST_EPOCHS:
                        fields = (year, month, day, *clock, random.nanos())
                        requests.add("date", epoch, *fields)
                        sign = b"-" if year < 0 else b""
                        text = b"%04d-%02d-%02d %02d:%02d:%02d" % (abs(year), month, day, *clock)
                        requests.add_text(epoch, sign + text)
    for epoch in OTHER_EPOCHS:
        requests.add("date", epoch, 1970, 1, 1, 0, 0, 0, 0)
        requests.add("date", epoch, -(2**31), 1, 1, 0, 0, 0, 999_999_999)
        requests.add("date", epoch, 2**31 - 1, 12, 31, 23, 59, 59, 999_999_999)
    for _ in range(200):
        fields = [random.signed(32), 1 + random.below(12), 1 + random.below(31)]
        fields += [random.below(24), random.below(60), random.below(60), random.nanos()]
        requests.add("date", random.other_epoch(), *fields)


def add_full_seconds(requests):
    """Nano 1,000,000,000 among fields, with every choice of other wrong fields."""
    for faults in range(64):
        wrong = [faults >> place & 1 for place in range(6)]
        fields = (2021, 13 if wrong[0] else 2, 29 if wrong[1] else 28, 24 if wrong[2] else 23)
        fields += (60 if wrong[3] else 59, 60 if wrong[4] else 59, FULL)
        requests.add("date", BOTTOM if wrong[5] else 0, *fields)
        requests.add("date", BOTTOM + 1 if wrong[5] else "gps", *fields)
    for epoch in (*RUST_EPOCHS, *OTHER_EPOCHS[::5]):
        for year in (-(2**31), 0, 1970, 2**31 - 1):
            requests.add("date", epoch, year, 1, 1, 0, 0, 0, FULL)


def add_sums_over_other_epochs(requests):
    """Each partial sum at, before and past the ends of i64."""
    random = requests.random
    for epoch in OTHER_EPOCHS:
        for end in (BOTTOM, TOP):
            for step in (-1, 0, 1):
                leap, nanos = random.pick((0, 37, -1, random.signed(40))), random.pick((0, 2**32 - 1))
                unix = end + step + epoch - leap - nanos // FULL
                if BOTTOM <= unix <= TOP:
                    requests.add("unix", epoch, unix, nanos, leap)
                secs = end + step - epoch + leap
                if BOTTOM <= secs <= TOP:
                    requests.add("to-unix", epoch, secs, random.nanos(), leap)
                other = random.other_epoch()
                secs = end + step - epoch + other
                if BOTTOM <= secs <= TOP:
                    requests.add("epoch", epoch, other, secs, random.nanos())
        for other in (BOTTOM, -1, 0, TOP, random.pick(OTHER_EPOCHS)):
            requests.add("epoch", epoch, other, random.pick(SECS), random.nanos())
            requests.add("epoch", other, epoch, random.pick(SECS), random.nanos())
    for _ in range(150):
        epoch, secs, leap = random.other_epoch(), random.signed(), random.signed()
        requests.add("unix", epoch, secs, random.below(2**32), leap)
        requests.add("to-unix", epoch, secs, random.nanos(), leap)
        requests.add("epoch", epoch, random.other_epoch(), secs, random.nanos())


def add_exact_sums(requests):
    """The exact sum at, before and past the ends of i64, with and without a partial sum that leaves it."""
    targets = [end + step for end in (BOTTOM, TOP) for step in (-1, 0, 1)]
    for epoch, target, far in product(OTHER_EPOCHS, targets, (BOTTOM, BOTTOM + 1, TOP)):
        unix = target + epoch - far - 4
        if BOTTOM <= unix <= TOP:
            requests.add("unix", epoch, unix, 2**32 - 1, far)
        secs = target - epoch + far
        if BOTTOM <= secs <= TOP:
            requests.add("to-unix", epoch, secs, 0, far)
            requests.add("epoch", epoch, far, secs, 0)
        secs = target - far + epoch
        if BOTTOM <= secs <= TOP:
            requests.add("epoch", far, epoch, secs, 0)


def add_bad_nanos(requests):
    """Nanoseconds of 10^9 and more, alone and where the sum would be refused as well."""
    for nanos in BAD_NANOS:
        for secs in (BOTTOM, 0, TOP):
            for leap in (BOTTOM, 0, TOP):
                for epoch in (0, "gps", BOTTOM, TOP, 2):
                    requests.add("to-unix", epoch, secs, nanos, leap)
            for old, new in ((0, 0), ("gps", "gst"), (BOTTOM, TOP), (TOP, BOTTOM), (2, -2)):
                requests.add("epoch", old, new, secs, nanos)
            for epoch in (0, BOTTOM, TOP, 2):
                for precision in ("-", 0, 9, HIGHEST):
                    requests.add("print", epoch, secs, nanos, precision)
    for first in (0, 999_999_999, *BAD_NANOS):
        for second in (0, 999_999_999, *BAD_NANOS):
            if max(first, second) < FULL:
                continue
            for secs in (BOTTOM, 0, TOP):
                for duration in (0, 1, TOP, HIGHEST):
                    requests.add("add", secs, first, duration, second)
                    requests.add("sub", secs, first, duration, second)
                for other in (BOTTOM, 0, TOP):
                    requests.add("since", secs, first, other, second)
                    requests.add("compare", secs, first, other, second)


def add_prints(requests):
    """Other epochs with every precision, and precisions above 1,000 over any epoch."""
    random = requests.random
    for place, epoch in enumerate(OTHER_EPOCHS):
        for secs in SECS:
            requests.add("print", epoch, secs, random.nanos(), "-")
        requests.add("print", epoch, -epoch, 0, "-") if epoch != BOTTOM else None
        requests.add("print", epoch, place, 120_000_000, PRECISIONS[place % len(PRECISIONS)])
    for precision in LARGE_PRECISIONS:
        for nanos in (0, 1, 120_000_000, 999_999_999):
            for epoch in (0, "bdt", 2, BOTTOM, TOP):
                requests.add("print", epoch, random.signed(), nanos, precision)
    for _ in range(300):
        words = random.other_epoch(), random.signed(), random.nanos(), random.pick(PRECISIONS)
        requests.add("print", *words)


def main(words):
    requests = List(int(words[0]) if words else SEED)
    add_dates_over_other_epochs(requests)
    add_full_seconds(requests)
    add_sums_over_other_epochs(requests)
    add_bad_nanos(requests)
    add_prints(requests)
    texts.add_all(requests)
    lines.add_all(requests)
    malformed.add_all(requests)
    add_exact_sums(requests)
    lines.add_offers(requests)
    sys.stdout.buffer.write(b"".join(request + b"\n" for request in requests.lines))


if __name__ == "__main__":
    main(sys.argv[1:])
