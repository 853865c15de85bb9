"""Requests of the reader: texts that are not UTF-8, and any text over epochs the Rust was not built for."""

from entries import I32
from request_list import OTHER_EPOCHS, RUST_EPOCHS

GOOD = (
    b"2020-02-29 23:59:59.123456789",
    b"-0001-12-31T00:00:00.5",
    b"+12345-06-07t08:09:10",
)

# Bytes that begin, continue or never belong to a character, and Latin-1's second digit.
ODD = (0x80, 0xB2, 0xBF, 0xC3, 0xE2, 0xFF)

# Sequences that look like characters and are none: too long a form, a surrogate, past the end, cut.
BROKEN = (b"\xc0\xb0", b"\xe0\x80\xb0", b"\xed\xa0\x80", b"\xf4\x90\x80\x80", b"\xef\xbc", b"\xf0\x9f\x98")

ALPHABET = b"0123456789+-:. Ttx"


def is_utf8(text):
    try:
        text.decode()
        return True
    except UnicodeDecodeError:
        return False


def add_odd(requests, text):
    """A text that is not UTF-8, over any of the ten epochs or another."""
    if not is_utf8(text):
        random = requests.random
        epoch = random.pick(RUST_EPOCHS) if random.below(2) else random.other_epoch()
        requests.add("read-hex", epoch, text.hex())


def add_not_utf8(requests):
    random = requests.random
    for good in GOOD:
        for place in range(len(good) + 1):
            for odd in ODD:
                add_odd(requests, good[:place] + bytes([odd]) + good[place + 1 :])
            for broken in (*BROKEN, bytes([random.pick(ODD)])):
                add_odd(requests, good[:place] + broken + good[place:])
            add_odd(requests, good[:place] + bytes([random.pick(ODD)]))
    for field in (b"\xff", b"\xff\xff", b"\xff\xff\xff", b"+\xff", b"\xff5", b"5\xff", b"\xb2\xb2"):
        for place in (5, 8, 11, 14, 17):
            add_odd(requests, GOOD[0][:place] + field + GOOD[0][place + 2 :])
            add_odd(requests, GOOD[0][:place] + field)
        add_odd(requests, field + b"-01-01 00:00:00")
        add_odd(requests, field + b"20-01-01 00:00:00")
        add_odd(requests, b"+" + field + b"2020-01-01 00:00:00")
        add_odd(requests, field)
    for digits in range(13):
        for odd in (b"\xff", b"\x80", b"\xc3"):
            add_odd(requests, b"2020-01-02 03:04:05." + b"123456789123"[:digits] + odd)
            add_odd(requests, b"2020-01-02 03:04:60." + b"000000000000"[:digits] + odd + b"7")
    for _ in range(250):
        add_odd(requests, random.some_bytes(random.below(40)))
        text = bytearray(random.pick(GOOD))
        for _ in range(1 + random.below(3)):
            text[random.below(len(text))] = 128 + random.below(128)
        add_odd(requests, bytes(text))


def add_other_epochs(requests):
    """Good and damaged texts over other epochs, years at the ends, and every byte in one place."""
    random = requests.random
    for epoch in OTHER_EPOCHS:
        for text in (b"%d-12-31 23:59:59.999999999" % I32[1], b"-%d-01-01 00:00:00" % I32[1]):
            requests.add_text(epoch, text)
        requests.add_text(epoch, b"1970-01-01 00:00:00")
        requests.add_text(epoch, b"1970-01-01 00:00:60")
        requests.add_text(epoch, b"")
    for byte in range(256):
        requests.add_text(2, b"2020-06-30" + bytes([byte]) + b"12:34:56")
        requests.add_text(-2, b"2020-06-30 12:34:56" + bytes([byte]) + b"5")
    for _ in range(400):
        text = bytearray(random.pick(GOOD))
        for _ in range(random.below(4)):
            place, other = random.below(len(text)), random.pick(ALPHABET)
            change = random.below(4)
            if change == 0:
                del text[place]
            elif change == 1:
                text.insert(place, other)
            else:
                text[place] = other
        requests.add_text(random.other_epoch(), bytes(text))


def add_all(requests):
    add_not_utf8(requests)
    add_other_epochs(requests)
