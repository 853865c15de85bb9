"""The list of requests without duplicates, the boundary values, and the generator of random numbers."""

from entries import I64, U64

BOTTOM, TOP = I64
HIGHEST = U64[1]
FULL = 10**9

# The epochs that the Rust is built for; the first six are those with a name.
NAMED = (0, 315964819, 935280019, 1136073633, -378691200, 63072000)
RUST_EPOCHS = (*NAMED, 1, -1, BOTTOM, TOP)

# Epochs at the ends of i64, beside each of the ten, and at the ends of narrower types.
OTHER_EPOCHS = sorted(
    {
        epoch
        for known in (*RUST_EPOCHS, 2**31, -(2**31), 2**32, -(2**32), -62167219200, 2**62, -(2**62))
        for epoch in (known - 1, known, known + 1)
        if BOTTOM <= epoch <= TOP
    }
    - set(RUST_EPOCHS)
)

SECS = (BOTTOM, BOTTOM + 1, -1, 0, 1, TOP - 1, TOP)
BAD_NANOS = (FULL, FULL + 1, 2**31, 2**32 - 1)


class Random:
    """The generator splitmix64."""

    def __init__(self, seed):
        self.state = seed

    def next(self):
        self.state = (self.state + 0x9E3779B97F4A7C15) & HIGHEST
        mixed = (self.state ^ (self.state >> 30)) * 0xBF58476D1CE4E5B9 & HIGHEST
        mixed = (mixed ^ (mixed >> 27)) * 0x94D049BB133111EB & HIGHEST
        return mixed ^ (mixed >> 31)

    def below(self, limit):
        return self.next() % limit

    def pick(self, choices):
        return choices[self.below(len(choices))]

    def signed(self, bits=64):
        """A signed number of a random size, so that small ones are as frequent as large ones."""
        size = 1 + self.below(bits)
        return (self.next() >> (64 - size)) - 2 ** (size - 1)

    def unsigned(self):
        return self.next() >> self.below(64)

    def nanos(self):
        return self.pick((0, 1, 999_999_999, *[self.below(FULL)] * 3))

    def other_epoch(self):
        while True:
            epoch = self.pick((self.signed(), self.pick(OTHER_EPOCHS)))
            if epoch not in RUST_EPOCHS:
                return epoch

    def some_bytes(self, length):
        return bytes(self.below(256) for _ in range(length))


class List:
    """The requests so far, each once."""

    def __init__(self, seed):
        self.random, self.lines = Random(seed), {}

    def add(self, *words):
        self.add_bytes(b" ".join(w if isinstance(w, bytes) else str(w).encode() for w in words))

    def add_bytes(self, request):
        assert b"\n" not in request
        self.lines[request] = None

    def add_text(self, epoch, text):
        """A reading of a text, by its bytes where they make a plain line, else in HEX."""
        plain = all(0x20 <= byte < 0x7F for byte in text)
        if plain and self.random.below(3):
            self.add("read", epoch, text)
        else:
            self.add("read-hex", epoch, text.hex() or "-")
