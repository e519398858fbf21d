"""PCG64 (the XSL RR form with 128 bits of state), seeded by one number as the Rust crates rand_core and rand_pcg seed it."""

TOP, TOP32, TOP128 = 2**64 - 1, 2**32 - 1, 2**128 - 1
MULTIPLIER = 0x2360ED051FC65DA44385DF649FCCF645


def turned_right(value, count, bits):
    return (value >> count | value << (bits - count)) & (2**bits - 1)


def seed_bytes(number):
    """32 bytes from a number, four at a time, by the smaller generator PCG32."""
    out = b""
    for _ in range(8):
        number = (number * 6364136223846793005 + 11634580027462260723) & TOP
        mixed = (number >> 18 ^ number) >> 27 & TOP32
        out += turned_right(mixed, number >> 59, 32).to_bytes(4, "little")
    return out


class Pcg64:
    """The words that a generator gives, one after another."""

    def __init__(self, number):
        seed = seed_bytes(number & TOP)
        self.step_by = int.from_bytes(seed[16:], "little") | 1
        self.state = int.from_bytes(seed[:16], "little") + self.step_by
        self.step()

    def step(self):
        self.state = (self.state * MULTIPLIER + self.step_by) & TOP128

    def word(self):
        self.step()
        return turned_right((self.state >> 64 ^ self.state) & TOP, self.state >> 122, 64)
