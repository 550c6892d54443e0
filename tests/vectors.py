#!/usr/bin/env python3
"""The input of the program vectors, and the lines that it is to write.

  tests/vectors.py small DIR        a few vectors, for crates/vectors: writes DIR/stdin and DIR/stdout
  tests/vectors.py all DIR [SEED]   every published vector of python3-cryptography-vectors, and random messages
                                    whose digests are those of Python's hashlib

The format is said in crates/vectors/src/main.rt.
"""
import hashlib
import pathlib
import random
import sys

PUBLISHED = pathlib.Path("/usr/lib/python3/dist-packages/cryptography_vectors/hashes/SHA1")
EXAMPLES = [  # FIPS 180-4's examples, and the million a's that NIST gives with them
    (b"abc", "a9993e364706816aba3e25717850c26c9cd0d89d"),
    (b"abcdbcdecdefdefgefghfghighijhijkijkljklmklmnlmnomnopnopq", "84983e441c3bd26ebaae4aa1f95129e5e54670f1"),
    (b"a" * 1000000, "34aa973cd4c4daa4f61eeb2bdbad27316534016f"),
]
LONGEST = 65535  # of a part


class Input:
    def __init__(self):
        self.commands, self.lines, self.count, self.wrong = [], [], 0, 0

    def add(self, letter, digest=b"", part=b""):
        assert len(part) <= LONGEST and len(digest) <= 20
        self.commands.append(letter + bytes(1) + len(part).to_bytes(2, "big") + bytes(8) + digest.ljust(20, b"\0") + part)

    def expect(self, digest, wrong=False):
        self.add(b"c", digest)
        self.count += 1
        self.wrong += wrong

    def line(self, name):
        assert len(name) < 20
        self.add(b"l", name.encode().ljust(20))
        self.lines.append(f"{name:<20}{self.count} digests, {self.wrong} differ\n")
        self.count = self.wrong = 0

    def whole(self, message, digest):
        if len(message) <= LONGEST:
            self.add(b"h", part=message)
            self.expect(digest)

    def parts(self, message, digest, cuts):
        """The message in parts that end at the cuts, multiples of 64, and the rest of it."""
        at = 0
        for cut in [*cuts, None]:
            self.add(b"t" if cut is not None else b"f", part=message[at:cut])
            at = cut
        self.expect(digest)

    def both(self, message, digest, size=LONGEST // 64 * 64):
        self.whole(message, digest)
        self.parts(message, digest, range(size, len(message) + 1, size))


def examples(to, among):
    for message, digest in among:
        to.both(message, bytes.fromhex(digest))
    to.line("FIPS 180-4")


def messages(to, name):
    length, message = 0, b""
    for text in (PUBLISHED / f"{name}.rsp").read_text().split("\n"):
        word, _, value = text.partition(" = ")
        if word == "Len":
            length = int(value) // 8
        elif word == "Msg":
            message = bytes.fromhex(value.strip())[:length]
        elif word == "MD":
            to.both(message, bytes.fromhex(value.strip()), 64)
    to.line(name)


def monte_carlo(to, name):
    for text in (PUBLISHED / f"{name}.rsp").read_text().split("\n"):
        word, _, value = text.partition(" = ")
        if word == "Seed":
            to.add(b"s", bytes.fromhex(value.strip()))
        elif word == "MD":
            to.add(b"m")
            to.expect(bytes.fromhex(value.strip()))
    to.line(name)


def at_random(to, dice, most):
    for _ in range(most):
        message = dice.randbytes(dice.randint(0, 20000))
        blocks = len(message) // 64
        cuts = sorted(64 * dice.randint(0, blocks) for _ in range(dice.randint(0, 5)))
        to.whole(message, hashlib.sha1(message).digest())
        to.parts(message, hashlib.sha1(message).digest(), cuts)
    to.line("random parts")


def shuffled(to, dice):
    pages = [dice.randbytes(4096) for _ in range(64)]
    dice.shuffle(pages)
    for page in pages:
        to.add(b"t", part=page)
    to.add(b"f")
    to.expect(hashlib.sha1(b"".join(pages)).digest())
    to.line("64 shuffled pages")


def pairs(to, dice, most):
    for _ in range(most):
        x, y = dice.randbytes(20), dice.randbytes(20)
        to.add(b"s", x)
        to.add(b"p", y)
        to.expect(hashlib.sha1(x + y).digest())
    to.line("pairs")


def wrong(to):
    """A digest that differs shows: in its first byte, in its last bit, and not at all."""
    digest = hashlib.sha1(b"abc").digest()
    to.add(b"h", part=b"abc")
    to.expect(bytes([digest[0] ^ 255]) + digest[1:], wrong=True)
    to.expect(digest[:-1] + bytes([digest[-1] ^ 1]), wrong=True)
    to.expect(digest)
    to.line("two wrong of three")


def main():
    if len(sys.argv) < 3 or sys.argv[1] not in ("small", "all"):
        sys.exit(__doc__)
    to, where = Input(), pathlib.Path(sys.argv[2])
    if sys.argv[1] == "small":
        examples(to, EXAMPLES[:2])
        pairs(to, random.Random(1), 2)
        wrong(to)
    else:
        seed = int(sys.argv[3]) if len(sys.argv) > 3 else random.randrange(2**32)
        print(f"seed {seed}")
        dice = random.Random(seed)
        examples(to, EXAMPLES)
        messages(to, "SHA1ShortMsg")
        messages(to, "SHA1LongMsg")
        monte_carlo(to, "SHA1Monte")
        at_random(to, dice, 1000)
        shuffled(to, dice)
        pairs(to, dice, 1000)
        wrong(to)
    (where / "stdin").write_bytes(b"".join(to.commands))
    (where / "stdout").write_text("".join(to.lines))


main()
