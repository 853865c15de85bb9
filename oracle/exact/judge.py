#!/usr/bin/env python3
"""The second judge: answers the desk program's requests in exact whole numbers.

It is written from the prose of 01, 02 and DESK alone, shares nothing with the port or with the Rust,
and has an answer to every line: any epoch, any nanoseconds, any bytes, any line and place.

    judge.py                        answers the requests on standard input, one line each
    judge.py WORDS..                answers the one request that the words make
    judge.py --before-02 [WORDS..]  answers by 01 as it was before 02 amended it
    judge.py --check                walks days one by one and holds the closed formula against the walk
"""

import os
import re
import sys

sys.dont_write_bytecode = True

import days
import entries
from entries import I32, I64, U8, U32, U64, Refused

LONGEST_LINE = 65_535

EPOCHS = {
    b"monotonic": 0,
    b"gps": 315964819,
    b"gst": 935280019,
    b"bdt": 1136073633,
    b"tai1958": -378691200,
    b"tai1972": 63072000,
}


class Malformed(Exception):
    """What is no request."""


def number(limits):
    def take(word):
        # A word of more than twenty bytes and no needless zero is outside every type.
        if len(word) > 20 or not re.fullmatch(rb"0|-?[1-9][0-9]*", word):
            raise Malformed
        if not limits[0] <= int(word) <= limits[1]:
            raise Malformed
        return int(word)

    return take


def epoch_word(word):
    return EPOCHS[word] if word in EPOCHS else number(I64)(word)


def precision_word(word):
    return None if word == b"-" else number(U64)(word)


def hex_word(word):
    if word != b"-" and not re.fullmatch(rb"([0-9a-f]{2})+", word):
        raise Malformed
    return b"" if word == b"-" else bytes.fromhex(word.decode())


def hex_of(text):
    return text.hex().encode() or b"-"


def spoken(values):
    return b" ".join([b"ok", *(str(value).encode() for value in values)])


E, S, N, D, P = epoch_word, number(I64), number(U32), number(U64), precision_word
B = number(U8)

VERBS = {
    b"new": (entries.new, S, N),
    b"date": (entries.date_time, E, number(I32), B, B, B, B, B, N),
    b"unix": (entries.from_unix, E, S, N, S),
    b"to-unix": (entries.to_unix, E, S, N, S),
    b"epoch": (entries.change_epoch, E, E, S, N),
    b"add": (entries.add, S, N, D, N),
    b"sub": (entries.sub, S, N, D, N),
    b"since": (entries.since, S, N, S, N),
    b"compare": (entries.compare, S, N, S, N),
    b"read": (entries.read, E, bytes),
    b"read-hex": (entries.read, E, hex_word),
    b"print": (entries.text_of, E, S, N, P),
    b"line": (entries.line, E, S, N, P, number(U64), hex_word),
}


def answer(request):
    """The answer line to a request line, both without their line feeds."""
    verb = request.partition(b" ")[0]
    if len(request) > LONGEST_LINE or verb not in VERBS:
        return b"malformed"
    entry, *kinds = VERBS[verb]
    words = request.split(b" ", 2)[1:] if verb == b"read" else request.split(b" ")[1:]
    if len(words) != len(kinds):
        return b"malformed"
    try:
        given = [kind(word) for kind, word in zip(kinds, words)]
        value = entry(*given)
    except Malformed:
        return b"malformed"
    except Refused as refusal:
        refused = str(refusal).encode()
        return refused + b" " + hex_of(given[-1]) if verb == b"line" else refused
    if verb == b"print":
        return b"ok " + value
    if verb == b"line":
        return b"ok %d " % value[0] + hex_of(value[1])
    return spoken(value)


def main(words):
    if words[:1] == ["--before-02"]:
        entries.AMENDED, words = False, words[1:]
    if words == ["--check"]:
        days.check()
    elif words:
        sys.stdout.buffer.write(answer(b" ".join(map(os.fsencode, words))) + b"\n")
    else:
        for request in sys.stdin.buffer:
            sys.stdout.buffer.write(answer(request.removesuffix(b"\n")) + b"\n")


if __name__ == "__main__":
    main(sys.argv[1:])
