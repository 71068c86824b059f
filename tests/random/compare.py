"""Random messages through the C interface, hash at once, against Digest::SHA and hashlib. tests/random/run says how it is run."""
import hashlib
import os
import random
import struct
import subprocess
import sys
import tempfile
from collections import Counter
from pathlib import Path

from driver import ALIGNED, Call, compare

# SPEC, "Editions": digest bytes; and hashlib's name
DIGEST = {1: 28, 2: 32, 3: 48, 4: 64, 5: 28, 6: 32}
NAME = {1: "sha224", 2: "sha256", 3: "sha384", 4: "sha512", 5: "sha512_224", 6: "sha512_256"}
LONGEST = 2**40  # SPEC, "Padding": bytes of a message
# where padding changes its count of blocks, at either width
EDGES = (55, 56, 63, 64, 111, 112, 119, 120, 127, 128)
LONGEST_OUTPUT = 96

seed = int(os.environ.get("SEED") or random.SystemRandom().randrange(2**32))
rng = random.Random(seed)


class Case:
    """Hash at once. A message that is a number is so many zeros, more than can be sent; it is one that is refused."""

    def __init__(self, edition, message, bits, closing, out):
        self.edition, self.message, self.bits, self.closing, self.out = edition, message, bits, closing, out

    def refusal(self):
        """SPEC, "Calls and their numbers": 5, 7, 8, 9, the first that applies."""
        if self.edition not in DIGEST:
            return 5
        if isinstance(self.message, int) and self.message > LONGEST:
            return 7
        if self.bits > 7 or self.closing & (0xFF >> self.bits):
            return 8
        if self.out < DIGEST[self.edition]:
            return 9
        return 0

    def packed(self):
        """As digests.pl reads it."""
        return struct.pack(">BBBI", self.edition, self.bits, self.closing, len(self.message)) + self.message

    def by_hashlib(self):
        return hashlib.new(NAME[self.edition], self.message).digest()

    def call(self):
        """The call, with bytes and output anywhere."""
        args = (self.edition, self.message, self.closing, self.bits, (self.out, where.randrange(256)))
        return Call("hash", args, where.randrange(ALIGNED**2))


def content(n):
    kind = rng.randrange(16)
    if kind == 0:
        return bytes(n)
    if kind == 1:
        return b"\xff" * n
    return rng.randbytes(n)


def upper(bits):
    """A closing byte with no set bit below its upper bits."""
    return rng.randrange(256) & (0xFF00 >> bits) & 0xFF


def message(edition, n, bits):
    out = DIGEST[edition] if rng.randrange(4) else rng.randint(DIGEST[edition], LONGEST_OUTPUT)
    return Case(edition, content(n), bits, upper(bits), out)


def messages(edition):
    near = sorted({edge + d for edge in EDGES for d in range(-3, 4)})
    for bits in range(8):
        for n in [0, 1, 2] + near:
            yield message(edition, n, bits)
    for _ in range(300):
        n = 128 * rng.randint(1, 40) + 64 * rng.randrange(2) + rng.choice(EDGES) + rng.randint(-1, 1)
        yield message(edition, n, rng.randrange(8))
    for count, low, high in ((1600, 0, 300), (700, 300, 5_000), (150, 5_000, 20_000), (60, 20_000, 102_400)):
        for _ in range(count):
            yield message(edition, rng.randint(low, high), rng.choice((0, rng.randrange(8))))


def refused():
    # SPEC, "Samples": closing byte 68 with b=4 is 8; output of 31 bytes for edition 2 is 9; both at once is 8
    yield Case(2, b"", 4, 0x68, 32)
    yield Case(2, b"", 0, 0x00, 31)
    yield Case(2, b"", 4, 0x68, 31)
    unknown = (0, 7, 8, 9, 224, 256, 1008, 1504, 2**32 + 2, 2**63, 2**64 - 2, 2**64 - 1)
    for edition in unknown:
        yield Case(edition, b"", 0, 0, 64)
        yield Case(edition, content(200), rng.randrange(2**64), rng.randrange(256), rng.randrange(LONGEST_OUTPUT + 1))
    for edition in DIGEST:
        for bits in (8, 9, 16, 255, 256, 2**32, 2**32 + 1, 2**63, 2**64 - 8, 2**64 - 1):
            for closing in (0, 0x80, 0xFF):
                yield Case(edition, content(rng.randrange(300)), bits, closing, rng.choice((0, DIGEST[edition], LONGEST_OUTPUT)))
        for bits in range(8):
            for below in range(8 - bits):
                closing = upper(bits) | 1 << below
                yield Case(edition, content(rng.randrange(300)), bits, closing, rng.choice((DIGEST[edition] - 1, LONGEST_OUTPUT)))
        for out in range(DIGEST[edition]):
            bits = rng.randrange(8)
            yield Case(edition, content(rng.randrange(300)), bits, upper(bits), out)
    # too many bytes, by themselves and with what is refused before and after it
    for edition in (*DIGEST, 7):
        for n in (LONGEST + 1, LONGEST + rng.randrange(2, LONGEST)):
            for bits, closing, out in ((0, 0, LONGEST_OUTPUT), (8, 0, LONGEST_OUTPUT), (3, 0x10, LONGEST_OUTPUT), (0, 0, 0), (9, 0xFF, 0)):
                yield Case(edition, n, bits, closing, out)


def by_perl(cases):
    """Each case with its digest by Digest::SHA."""
    with tempfile.TemporaryFile() as data:
        data.writelines(case.packed() for case in cases)
        data.seek(0)
        done = subprocess.run(["perl", Path(__file__).with_name("digests.pl")], stdin=data, stdout=subprocess.PIPE)
    if done.returncode != 0:
        print(f"perl ended with status {done.returncode}")
    return dict(zip(cases, map(bytes.fromhex, done.stdout.decode().split())))


def calls(cases):
    """Each case as one call, with the reply that is expected."""
    for case in cases:
        call = case.call()
        yield ((call, call.reply(case.refusal(), wrote=digests.get(case, b""))),)


print(f"seed {seed} (SEED={seed} repeats this run)", flush=True)
cases = [case for edition in DIGEST for case in messages(edition)] + list(refused())
rng.shuffle(cases)
where = random.Random(f"{seed} places")
hashed = [case for case in cases if case.refusal() == 0]
whole = [case for case in hashed if case.bits == 0]
digests = by_perl(hashed)
passed, failed = compare(calls(cases))
apart = [case for case in whole if digests.get(case) != case.by_hashlib()]
failed += len(apart)
for case in apart[:10]:
    print(f"not ok: Digest::SHA and hashlib differ: {case.call()}")

compared = Counter(case.edition for case in hashed)
print("messages of each edition: " + ", ".join(f"{e}: {compared[e]}" for e in DIGEST))
print(
    f"{len(hashed) - len(whole)} with closing bits against Digest::SHA alone, {len(whole)} of whole bytes against hashlib too, "
    f"{len(cases) - len(hashed)} refusals"
)
print(f"{passed} passed, {failed} failed")
sys.exit(0 if failed == 0 else 1)
