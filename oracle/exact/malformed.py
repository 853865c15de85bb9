"""Lines that are no request, or that are one by a hair; what the judge calls a request is left out."""

from judge import LONGEST_LINE, answer

GOOD = (
    "new -7 8",
    "date gps 2020 2 29 23 59 58 7",
    "date -5 -2020 2 28 23 59 58 7",
    "unix gst 10 11 12",
    "unix 0 -10 11 -12",
    "to-unix bdt 10 11 12",
    "to-unix 7 -10 11 -12",
    "epoch tai1958 tai1972 10 11",
    "epoch 12 -13 -10 11",
    "add 10 11 12 13",
    "sub -10 11 12 13",
    "since 10 11 -12 13",
    "compare -10 11 12 13",
    "read monotonic 2020-01-01 00:00:00",
    "read-hex gps 323032302d30312d30312030303a30303a3030",
    "read-hex 5 -",
    "print gps 10 11 -",
    "print 12 -10 11 3",
    "line gps 10 11 - 1 20202020202020202020202020202020202020202020202020",
    "line 12 -10 11 3 0 -",
)

# The first numbers outside each type, on both sides, and far outside.
OUTSIDE = (
    *(str(2**bits) for bits in (8, 31, 32, 63, 64)),
    *(str(-(2**bits) - 1) for bits in (31, 63)),
    "-1",
    "18446744073709551626",
    "99999999999999999999",
    "100000000000000000000",
    "-100000000000000000000",
    "340282366920938463463374607431768211456",
    "1" + "0" * 100,
)

# What is no number, no epoch and no HEX.
ODD_WORDS = (
    "", "+", "-", "--", "+1", "-0", "+0", "00", "01", "-01", "007", "--1", "-+1", "+-1", "1-", "1+",
    "0x1", "1.0", "1.", ".5", "1e3", "1_000", "1,000", "x", "1x", "x1", "a", "ab", "0a1", "2G", "g0",
    "AB", "2A", "a0F", "123", "abc", "-ab", "ab-", "0xab", "GPS", "Gps", "gp", "gpss", "utc", "tai",
    "tai1958x", "Monotonic", "-gps", "１", "٣", "1\t", "\t1", "1\r", "é", "-20", "20-", "2 0",
)

UNKNOWN = (
    "now", "help", "quit", "NEW", "New", "ne", "newer", "dates", "print-hex", "read-HEX", "readhex",
    "read_hex", "tounix", "to_unix", "to-Unix", "from-unix", "lines", "epochs", "cmp", "date-time",
    "-", "--help", "0", "ok", "refused", "malformed", "outside", "#", "ñew", "new\t", "\tnew",
)


def keep(requests, request):
    if answer(request.encode()) == b"malformed":
        requests.add_bytes(request.encode())


def add_all(requests):
    for request in ("", " ", "  ", "\t", "\r", *UNKNOWN):
        keep(requests, request)
    for verb in UNKNOWN:
        keep(requests, f"{verb} 0 0")
        keep(requests, f"{verb} gps 0 0 -")
    for good in GOOD:
        words = good.split(" ")
        add_wrong_words(requests, words)
        add_wrong_blanks(requests, good, words)
    add_longest(requests)


def add_wrong_words(requests, words):
    """Each word replaced by a third of the wrong ones, left out, doubled; the line cut behind it."""
    for place in range(1, len(words)):
        for odd in (*ODD_WORDS, *OUTSIDE)[requests.random.below(3) :: 3]:
            keep(requests, " ".join([*words[:place], odd, *words[place + 1 :]]))
    for place in range(len(words)):
        keep(requests, " ".join(words[:place] + words[place + 1 :]))
        keep(requests, " ".join(words[: place + 1] + words[place:]))
        keep(requests, " ".join(words[: place + 1]))
        keep(requests, " ".join(words[: place + 1]) + " ")
    for more in ("0", "-", "x", "gps"):
        keep(requests, " ".join([*words, more]))


def add_wrong_blanks(requests, good, words):
    """A blank too many at each place, other characters for a blank, none."""
    for place in range(len(good) + 1):
        if place == len(good) or good[place] == " " or place == 0:
            keep(requests, good[:place] + " " + good[place:])
    for place in range(1, len(words)):
        for blank in ("\t", "_", "", "\u00a0", "  ", " \t", ","):
            keep(requests, " ".join(words[:place]) + blank + " ".join(words[place:]))
    for tail in ("\t", "\r", ".", "\u00a0", " \r"):
        keep(requests, good + tail)
    keep(requests, good.upper())
    keep(requests, good.capitalize())


def add_longest(requests):
    """The longest lines that are requests, and one byte more."""
    start = b"read 2 2020-01-01 00:00:00."
    for length in (LONGEST_LINE, LONGEST_LINE + 1):
        requests.add_bytes(start.ljust(length, b"0"))
    start = b"line 2 0 0 - 32741 "
    requests.add_bytes(start.ljust(LONGEST_LINE - (LONGEST_LINE - len(start)) % 2, b"f"))
    add_too_long(requests)


def add_too_long(requests):
    """Lines far too long, each with a request behind it, which shows an answer too few or too many."""
    for length in (70_000, 100_000, 131_000, 110_000, 130_945, 120_000, 131_071, 131_072, 200_000):
        requests.add_bytes(b"print".ljust(length, b" "))
        requests.add("print", length, 0, 0, "-")
