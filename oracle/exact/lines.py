"""Requests of lent lines: every place and room around the text's length, and the order of refusals."""

from entries import text_of
from request_list import BAD_NANOS, BOTTOM, FULL, HIGHEST, NAMED, TOP

# Epoch, seconds, nanoseconds and precision: texts of 19 to 38 bytes.
STAMPS = (
    (0, 0, 0, None),
    (0, -1, 500_000_000, None),
    (NAMED[1], 0, 120_000_000, None),
    (NAMED[2], 951_782_400, 123_000_000, 3),
    (NAMED[4], -62_167_219_201, 0, 4),
    (2, 253_402_300_798, 999_999_999, 0),
    (-2, 253_402_300_802, 999_999_999, 5),
    (63_072_000, 0, 1, 7),
    (7, -(10**15), 10, 8),
    (NAMED[3], 10**12, 999_999_999, 9),
    (-(2**40), 2**44, 123_456_789, None),
    (2**61, 2**61, 5_000, 6),
    (TOP, TOP, 999_999_999, None),
    (TOP, TOP, 0, 2**64 - 1),
    (BOTTOM, BOTTOM, 0, None),
    (BOTTOM, BOTTOM, 999_999_999, 1001),
    (BOTTOM, TOP, 0, 1),
)


def word(precision):
    return "-" if precision is None else precision


def add_line(requests, stamp, at, length):
    epoch, secs, nanos, precision = stamp
    lent = requests.random.some_bytes(length)
    requests.add("line", epoch, secs, nanos, word(precision), at, lent.hex() or "-")


def add_places(requests):
    """The line from empty to some bytes too long, each with the first place and all around its end."""
    for stamp in STAMPS:
        size = len(text_of(*stamp))
        for length in (size, size + 1, size + 4):
            for at in sorted({0, *range(max(0, length - size - 1), length + 2)}):
                add_line(requests, stamp, at, length)
        for length in (0, 1, size - 1):
            for at in sorted({0, 1, length, length + 1}):
                add_line(requests, stamp, at, length)
        for at in (2**31, 2**32, 2**63 - 1, 2**63, HIGHEST - size, HIGHEST - size + 1, HIGHEST):
            add_line(requests, stamp, at, size)


def add_refusals(requests):
    """Bad nanoseconds go before the place, and the place before the room."""
    for nanos in (0, FULL - 1, *BAD_NANOS):
        for epoch, secs in ((0, 0), (BOTTOM, BOTTOM), (TOP, TOP), (2, -1)):
            for length in (0, 5, 18, 19, 40):
                for at in (0, 1, length, length + 1, HIGHEST):
                    add_line(requests, (epoch, secs, nanos, None), at, length)


def add_random(requests):
    random = requests.random
    for _ in range(500):
        precision = random.pick((None, random.below(12), random.below(12), random.unsigned()))
        epoch = random.pick((random.signed(), random.pick(NAMED)))
        stamp = (epoch, random.signed(), random.nanos(), precision)
        size, length = len(text_of(*stamp)), random.below(60)
        at = random.pick((random.below(length + 2), max(0, length - size), max(0, length - size + 1)))
        add_line(requests, stamp, at, length)


def add_offers(requests):
    """No room from a place on; from there just as many bytes as are wanted; and one byte fewer."""
    for stamp in STAMPS:
        size = len(text_of(*stamp))
        for at in (0, 1, 2, 19, 300):
            for room in (0, size // 2, size - 1, size):
                add_line(requests, stamp, at, at + room)


def add_all(requests):
    add_places(requests)
    add_refusals(requests)
    add_random(requests)
