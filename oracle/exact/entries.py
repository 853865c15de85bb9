"""The entries of 01 in exact whole numbers: counts, the reader and the printer."""

from days import closed_count, date_of, moment, month_lengths

I32 = (-(2**31), 2**31 - 1)
I64 = (-(2**63), 2**63 - 1)
U8, U32, U64 = (0, 2**8 - 1), (0, 2**32 - 1), (0, 2**64 - 1)
SECOND = 10**9

# Whether 01 is read as 02 amends it. The Rust answers by 01 as it was.
AMENDED = True

# The table of 01, "When the box says no"; the place of a name is its number.
NAMES = (
    "InvalidMonth InvalidDayOfMonth InvalidHour InvalidMinute InvalidSecond InvalidNanosecond "
    "OutOfRange MissingField InvalidFieldWidth InvalidFieldValue NotRepresentable BadNanos "
    "StartOutside NoRoom"
).split()


class Refused(Exception):
    """A refusal: its number in the table of 01, its values, and whether reading met it."""

    def __init__(self, number, *values, in_range_error=False):
        super().__init__(number)
        self.number, self.values, self.in_range_error = number, values, in_range_error

    def __str__(self):
        words = ["refused", str(self.number)] + ["RangeError"] * self.in_range_error
        return " ".join(words + [NAMES[self.number], *map(str, self.values)])


# 01, "Counts and durations", and 02, ask 5.


def within(number, limits, refusal):
    if not limits[0] <= number <= limits[1]:
        raise Refused(refusal)
    return number


def good_nanos(*nanos):
    if any(each >= SECOND for each in nanos):
        raise Refused(11)


def new(secs, nanos):
    good_nanos(nanos)
    return secs, nanos


def date_time(epoch, year, month, day, hour, minute, second, nano):
    if not 1 <= month <= 12:
        raise Refused(0, month)
    if not 1 <= day <= month_lengths(year)[month - 1]:
        raise Refused(1, day)
    clock = ((hour, 23), (minute, 59), (second, 59), (nano, SECOND - 1))
    for number, (value, last) in enumerate(clock, 2):
        if value > last:
            raise Refused(number, value)
    days = closed_count(year, month, day)
    assert date_of(days) == (year, month, day)
    count = days * 86_400 + hour * 3600 + minute * 60 + second
    return within(count - epoch, I64, 6), nano


def whole_sum(*parts):
    # 02, ask 5: the exact sum alone decides; 01 as it was asks each partial sum.
    total = 0
    for part in parts:
        total += part
        if not AMENDED:
            within(total, I64, 10)
    return within(total, I64, 10)


def from_unix(epoch, secs, nanos, leap):
    return whole_sum(secs, nanos // SECOND, leap, -epoch), nanos % SECOND


def to_unix(epoch, secs, nanos, leap):
    good_nanos(nanos)
    return (whole_sum(secs, -leap, epoch),)


def change_epoch(old, new_epoch, secs, nanos):
    good_nanos(nanos)
    return whole_sum(old, -new_epoch, secs), nanos


def add(secs, nanos, duration_secs, duration_nanos, sign=1):
    good_nanos(nanos, duration_nanos)
    exact = secs * SECOND + nanos + sign * (duration_secs * SECOND + duration_nanos)
    return within(exact // SECOND, I64, 10), exact % SECOND


def sub(secs, nanos, duration_secs, duration_nanos):
    return add(secs, nanos, duration_secs, duration_nanos, sign=-1)


def since(secs, nanos, earlier_secs, earlier_nanos):
    good_nanos(nanos, earlier_nanos)
    exact = (secs - earlier_secs) * SECOND + nanos - earlier_nanos
    if exact < 0:
        raise Refused(10)
    return divmod(exact, SECOND)


def compare(secs, nanos, other_secs, other_nanos):
    good_nanos(nanos, other_nanos)
    first, second = secs * SECOND + nanos, other_secs * SECOND + other_nanos
    return ("earlier" if first < second else "later" if first > second else "same",)


# 01, "How a stamp is read", and 02, ask 3: bytes alone.


def number_in(field):
    # 02, ask 3: digits only; 01 as it was allows one `+` in front of them.
    digits = field if AMENDED or field[:1] != b"+" else field[1:]
    if not digits or digits.strip(b"0123456789"):
        raise Refused(9)
    digits = digits.lstrip(b"0")
    # More than ten digits are above every limit, however many they are.
    if len(digits) > 10 or int(digits or b"0") > I32[1]:
        raise Refused(9)
    return int(digits or b"0")


def two_bytes(rest, delimiters, may_end=False):
    """A field of two bytes up to the first delimiter, and what follows (None: there was none)."""
    place = next((at for at, byte in enumerate(rest) if byte in delimiters), None)
    field = rest if place is None else rest[:place]
    if len(field) != 2:
        raise Refused(8)
    value = number_in(field)
    if place is None and not may_end:
        raise Refused(7)
    return value, None if place is None else rest[place + 1 :]


def read(epoch, text):
    sign = -1 if text[:1] == b"-" else 1
    if text[:1] in (b"+", b"-"):
        text = text[1:]
    year, dash, rest = text.partition(b"-")
    if not dash:
        raise Refused(7)
    if len(year) < 4:
        raise Refused(8)
    year = sign * number_in(year)
    month, rest = two_bytes(rest, b"-")
    day, rest = two_bytes(rest, b" Tt")
    hour, rest = two_bytes(rest, b":")
    minute, rest = two_bytes(rest, b":")
    second, fraction = two_bytes(rest, b".", may_end=True)
    if fraction == b"":
        raise Refused(7)
    if fraction is not None and fraction.strip(b"0123456789"):
        raise Refused(9)
    nano = int((fraction or b"")[:9].ljust(9, b"0"))
    try:
        return date_time(epoch, year, month, day, hour, minute, second, nano)
    except Refused as inner:
        raise Refused(inner.number, *inner.values, in_range_error=True) from None


# 01, "How a stamp is written".


def text_of(epoch, secs, nanos, precision):
    good_nanos(nanos)
    year, *fields = moment(secs + epoch)
    fraction = b"%09d" % nanos
    fraction = fraction.rstrip(b"0") if precision is None else fraction[:precision]
    sign = b"-" if year < 0 else b""
    text = sign + b"%04d-%02d-%02d %02d:%02d:%02d" % (abs(year), *fields)
    return text + b"." + fraction if fraction else text


def line(epoch, secs, nanos, precision, at, lent):
    text = text_of(epoch, secs, nanos, precision)
    if at > len(lent):
        raise Refused(12)
    if len(text) > len(lent) - at:
        # 02, ask 11: with the full length of the text; 01 as it was has no value here.
        raise Refused(13, *([len(text)] if AMENDED else []))
    return len(text), lent[:at] + text + lent[at + len(text) :]
