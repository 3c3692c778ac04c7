#!/usr/bin/env python3
"""A second keeper of rolls, with the interface of the program `calls`, to compare that program with.

    second_keeper.py < CALLS        answers each line of the first 65,536 bytes of standard input
    second_keeper.py --self-test    compares its JH with the known digests, and tries the roll's rules

It has no window and no running seal, and never winds back: it keeps every standing passage, and computes
total and digest from the first one on whenever they are asked for. JH is the definition in docs/jh.md on
elements, one in each byte of a byte string.
"""

import functools
import math
import pathlib
import random
import re
import struct
import sys
from typing import Callable, NamedTuple, Optional

# ---- JH

ROUNDS = 42
S0 = bytes([9, 0, 4, 11, 13, 12, 3, 15, 1, 10, 2, 6, 7, 5, 8, 14])
S1 = bytes([3, 12, 6, 13, 5, 7, 1, 9, 15, 2, 0, 4, 11, 10, 14, 8])
ONES = int.from_bytes(bytes([1]) * 128, "big")


def times(factor, element):
    """The product in GF(16), modulo x^4 + x + 1."""
    product = 0
    for place in range(3, -1, -1):
        product = product << 1 ^ (element if factor >> place & 1 else 0)
        product ^= 0b10011 if product & 16 else 0
    return product


def table(entries):
    """A table for bytes.translate; what the entries do not reach never occurs."""
    return bytes(entries).ljust(256, b"\0")


S_BOXES = table(S0 + S1)  # by element + 16 × constant bit
TIMES_2 = table(times(2, element) for element in range(16))
TIMES_5 = table(times(5, element) for element in range(16))
DIGIT_OF_BIT = [table(b"01"[element >> 3 - bit & 1] for element in range(16)) for bit in range(4)]


def xor(one, other):
    return (int.from_bytes(one, "big") ^ int.from_bytes(other, "big")).to_bytes(len(one), "big")


def moved(elements):
    """P_d."""
    elements[2::4], elements[3::4] = elements[3::4], elements[2::4]
    even, odd = elements[0::2], elements[1::2]
    odd[0::2], odd[1::2] = odd[1::2], odd[0::2]
    return even + odd


def round_forth(elements, constants):
    """R_d; the constants are 16 × the constant bit of each element."""
    chosen = xor(elements, constants).translate(S_BOXES)
    a, b = chosen[0::2], chosen[1::2]
    mixed = bytearray(len(chosen))
    mixed[0::2] = xor(a.translate(TIMES_5), b.translate(TIMES_2))
    mixed[1::2] = xor(a.translate(TIMES_2), b)
    return moved(mixed)


def round_constants():
    """C_0 to C_41 in hexadecimal."""
    constants = [f"{math.isqrt(2**513) - 2**256:064x}"]
    while len(constants) < ROUNDS:
        elements = bytes(int(digit, 16) for digit in constants[-1])
        constants.append("".join(f"{element:x}" for element in round_forth(elements, bytes(64))))
    return constants


CONSTANTS = [bytes(16 * int(bit) for bit in f"{int(digits, 16):0256b}") for digits in round_constants()]


def grouped(value):
    """The 256 elements of 1,024 bits."""
    bits = f"{int.from_bytes(value, 'big'):01024b}".encode()
    elements = bytearray(256)
    for half in 0, 1:
        number = 0
        for start in range(128 * half, 1024, 256):
            number = 2 * number + (int.from_bytes(bits[start : start + 128], "big") & ONES)
        elements[half::2] = number.to_bytes(128, "big")
    return elements


def ungrouped(elements):
    bits = b"".join(elements[half::2].translate(digit) for digit in DIGIT_OF_BIT for half in (0, 1))
    return int(bits, 2).to_bytes(128, "big")


def e8(value):
    elements = grouped(value)
    for constants in CONSTANTS:
        elements = round_forth(elements, constants)
    return ungrouped(elements)


@functools.lru_cache(maxsize=4096)  # courses compute the same beginnings again and again
def jh_step(chain, block):
    """F8."""
    value = e8(xor(chain[:64], block) + chain[64:])
    return value[:64] + xor(value[64:], block)


def jh_opening(size):
    return jh_step(drill_opening(size), bytes(64))


def jh_digest(message, bits, size):
    """JH42 of the first bits of the message."""
    number = int.from_bytes(message, "big") >> 8 * len(message) - bits
    zeros = 383 + -bits % 512
    padded = ((number << 1 | 1) << zeros + 128 | bits).to_bytes((bits + 1 + zeros + 128) // 8, "big")
    return sealed(JH, size, [padded[start : start + 64] for start in range(0, len(padded), 64)])[-size // 8 :]


# ---- Presses


def drill_opening(size):
    return size.to_bytes(2, "big") + bytes(126)


def drill_step(chain, block):
    turned = chain[1:] + chain[:1]
    return turned[:64] + xor(turned[64:], block)


def ending(count):
    return b"\x80" + bytes(47) + (512 * count).to_bytes(16, "big")


class Press(NamedTuple):
    opening: Callable[[int], bytes]
    step: Callable[[bytes, bytes], bytes]


JH = Press(jh_opening, jh_step)
DRILL = Press(drill_opening, drill_step)


def sealed(press, size, blocks):
    """The opening value stepped through the blocks."""
    return functools.reduce(press.step, blocks, press.opening(size))


# ---- Rolls


class Passage(NamedTuple):
    gate: int
    serial: int
    time: int
    kind: int  # the class
    version: int
    byte_18: int
    byte_19: int
    full: int
    discount: int
    charged: int
    tag: bytes


FORM = struct.Struct(">IIQBBBBIII32s")


def decoded(passage):
    return Passage._make(FORM.unpack(passage))


class Roll:
    """The standing passages, 64 bytes each; the first `shipped` of them are shipped."""

    def __init__(self, press, size):
        self.press, self.size = press, size
        self.standing, self.shipped, self.closed = [], 0, False

    def serials(self):
        return [decoded(passage).serial for passage in self.standing]

    def last_serial(self):
        return decoded(self.standing[-1]).serial if self.standing else 0

    def last_shipped(self):
        return decoded(self.standing[self.shipped - 1]).serial if self.shipped else 0

    def cents(self):
        return sum(decoded(passage).charged for passage in self.standing)

    def digest(self):
        blocks = self.standing + [ending(len(self.standing))]
        return sealed(self.press, self.size, blocks)[-self.size // 8 :]


# ---- Lines

LIMIT = 65536
WINDOW = 32
MOST_PASSAGES = 1_000_000
HIGHEST_SERIAL = 2**32 - 1
SIZES = 224, 256, 384, 512
PRESSES = {b"jh": JH, b"drill": DRILL}
DECIMAL = rb"(0|[1-9][0-9]{0,15})"
LINES = {
    "open": re.compile(rb"open\t(jh|drill)\t" + DECIMAL),
    "pass": re.compile(rb"pass\t([0-9a-f]{128})"),
    "cancel": re.compile(rb"cancel\t" + DECIMAL),
    "ship": re.compile(rb"ship"),
    "close": re.compile(rb"close"),
    "reopen": re.compile(rb"reopen"),
    "total": re.compile(rb"total"),
}


class Call(NamedTuple):
    name: str
    press: Optional[Press] = None
    number: int = 0  # the size or the serial
    passage: bytes = b""


def read(line):
    """The call of a line without its line feed, or None where it cannot be read."""
    for name, form in LINES.items():
        match = form.fullmatch(line)
        if match and name == "open":
            return Call(name, press=PRESSES[match[1]], number=int(match[2]))
        if match and name == "pass":
            return Call(name, passage=bytes.fromhex(match[1].decode()))
        if match and name == "cancel":
            return Call(name, number=int(match[1])) if int(match[1]) <= HIGHEST_SERIAL else None
        if match:
            return Call(name)
    return None


# ---- The keeper


def allowed(name, roll):
    """Whether the state allows the call; the roll is None before an accepted open."""
    if roll is None or name == "open":
        return roll is None and name == "open"
    return name == "total" or (name == "reopen") == roll.closed


def refusal(call, roll):
    """The number of the first sentence that holds, or None. No input of 65,536 bytes meets 2 to 5, 7, 14 or 15."""
    if call is None or not allowed(call.name, roll):
        return 16
    if call.name == "open":
        if call.number not in SIZES:
            return 1
    if call.name == "pass":
        passage = decoded(call.passage)
        if len(roll.standing) - roll.shipped >= WINDOW:
            return 6
        if len(roll.standing) >= MOST_PASSAGES:
            return 7
        if passage.serial <= roll.last_serial():
            return 8
        if not (1 <= passage.kind <= 9 and 1 <= passage.version <= 4 and passage.byte_18 == passage.byte_19 == 0):
            return 9
        if passage.charged + passage.discount != passage.full:
            return 10
    if call.name == "cancel":
        if roll.shipped > 0 and call.number <= roll.last_shipped():
            return 11
        if call.number not in roll.serials()[roll.shipped :]:
            return 12
    if call.name == "ship":
        if roll.shipped == len(roll.standing):
            return 13
    return None


class Keeper:
    """Answers lines, one after the other."""

    def __init__(self):
        self.roll = None

    def answer(self, line):
        """The answer to a line that had its line feed, both without it."""
        call = read(line)
        number = refusal(call, self.roll)
        return f"refused\t{number}" if number else self.accepted(call)

    def accepted(self, call):
        roll = self.roll
        if call.name == "open":
            self.roll = Roll(call.press, call.number)
        elif call.name == "pass":
            roll.standing.append(call.passage)
        elif call.name == "cancel":
            del roll.standing[roll.serials().index(call.number)]
        elif call.name == "ship":
            roll.shipped += 1
            return f"shipped\t{roll.standing[roll.shipped - 1].hex()}"
        elif call.name == "close":
            roll.closed = True
            return f"closed\t{roll.digest().hex()}"
        elif call.name == "reopen":
            roll.closed = False
        elif call.name == "total":
            return f"total\t{roll.cents()}\t{len(roll.standing)}"
        return "ok"


def answers(given):
    """What the program `calls` prints for the bytes given."""
    keeper = Keeper()
    *lines, rest = given[:LIMIT].split(b"\n")
    said = [keeper.answer(line) for line in lines]
    if rest:
        said.append("refused\t16")
    return "".join(answer + "\n" for answer in said).encode()


# ---- The self-test

TOP = pathlib.Path(__file__).resolve().parent.parent


def rows(name):
    """The lines of a file of known values, in fields."""
    lines = (TOP / "crates" / "vectors" / "data" / name).read_text().splitlines()
    return [line.split("\t") for line in lines if not line.startswith("#")]


def same(what, got, wanted):
    if got != wanted:
        sys.exit(f"second_keeper: {what}: {str(got)[:1000]}, not {str(wanted)[:1000]}")


def test_constants():
    known = rows("round-constants.txt")
    same("number of round constants", len(known), ROUNDS)
    for (number, digits), constant in zip(known, round_constants()):
        same(f"round constant {number}", constant, digits)
    return f"{len(known)} round constants"


def test_digests():
    known = [(size, None, message, digest) for size, message, digest in rows("published-digests.txt")]
    known += [(size, bits, message, digest) for bits, message, size, digest in rows("bit-messages.txt")]
    for size, bits, digits, digest in known:
        message = bytes.fromhex(digits.replace("-", ""))
        count = 8 * len(message) if bits is None else int(bits)
        same(f"digest of {count} bits", jh_digest(message, count, int(size)).hex(), digest)
    return f"{len(known)} digests"


def pass_line(serial, full=400, discount=150, charged=250, kind=2, version=3, spare=0, tag=b""):
    passage = Passage(7, serial, 1_000_000 + serial, kind, version, 0, spare, full, discount, charged, tag)
    return f"pass\t{FORM.pack(*passage).hex()}"


def test_cases():
    """Lines after an accepted open, and their answers; a number stands for its refusal."""
    empty = "closed\t80" + "0" * 124 + "02"
    one = pass_line(1)
    shipped_one = one.replace("pass", "shipped")
    closed_one = "closed\t80" + one[9:131] + "0000"
    cases = [
        (["cancel\t7", "close", "reopen", "total"], [12, empty, "ok", "total\t0\t0"]),
        ([one, "total"], ["ok", "total\t250\t1"]),
        ([pass_line(1, charged=251), "total"], [10, "total\t0\t0"]),
        ([pass_line(1, discount=2**32 - 1, charged=401)], [10]),
        ([pass_line(1, kind=kind) for kind in (0, 10, 1)], [9, 9, "ok"]),
        ([pass_line(1, version=version) for version in (0, 5, 4)], [9, 9, "ok"]),
        ([pass_line(1, spare=1, charged=251), pass_line(0, spare=1)], [9, 8]),
        ([pass_line(5), pass_line(5)], ["ok", 8]),
        ([pass_line(5), "cancel\t5", pass_line(5)], ["ok", "ok", "ok"]),
        ([*map(pass_line, range(1, 34)), "ship", pass_line(33)], ["ok"] * 32 + [6, shipped_one, "ok"]),
        ([one, "ship", "ship", one, "cancel\t1", "cancel\t0", "cancel\t2"], ["ok", shipped_one, 13, 8, 11, 11, 12]),
        ([one, "ship", "close", "total", "reopen"], ["ok", shipped_one, closed_one, "total\t250\t1", "ok"]),
        (["open\tdrill\t512", "reopen", "cancel\t4294967296", "cancel\t07", "", "ship\t"], [16] * 6),
        (["close", "close", "ship", "cancel\t1", one, "total"], [empty, 16, 16, 16, 16, "total\t0\t0"]),
    ]
    for lines, wanted in cases:
        given = "".join(line + "\n" for line in ["open\tdrill\t512", *lines]).encode()
        wanted = ["ok"] + [f"refused\t{answer}" if isinstance(answer, int) else answer for answer in wanted]
        same(f"answers to {lines}", answers(given).decode().splitlines(), wanted)
    return f"{len(cases)} cases"


def test_inputs():
    """Whole inputs."""
    almost = b"total\n" * 10922  # 65,532 bytes
    cases = [
        (b"", b""),
        (b"\n", b"refused\t16\n"),
        (b"ship\nopen\tjh\t255\nopen\tjh\t256", b"refused\t16\nrefused\t1\nrefused\t16\n"),
        (b"open\tdrill\t224\n" + almost[:-12] + b"total\n", b"ok\n" + b"total\t0\t0\n" * 10920 + b"refused\t16\n"),
        (almost + b"all\n", b"refused\t16\n" * 10923),
        (almost + b"all\nall\n", b"refused\t16\n" * 10923),
        (almost + b"four\n", b"refused\t16\n" * 10923),
    ]
    for given, wanted in cases:
        same(f"answers to {len(given)} bytes", answers(given), wanted)
    return f"{len(cases)} inputs"


def test_worked_day():
    given, wanted = TOP / "docs" / "worked-day.txt", TOP / "docs" / "worked-day.answers.txt"
    same("answers to the worked day", answers(given.read_bytes()), wanted.read_bytes())
    return "the worked day"


def random_roll(chance):
    """Lines of accepted calls, and the pass lines whose passages then stand."""
    standing, shipped, lines = {}, 0, []
    for serial in range(1, chance.randrange(60)):
        charged = chance.randrange(1000)
        standing[serial] = pass_line(serial, charged + 20, 20, charged, tag=chance.randbytes(32))
        lines.append(standing[serial])
        window = [passed for passed in standing if passed > shipped]
        if len(window) == WINDOW or chance.random() < 0.1:
            shipped = window[0]
            lines.append("ship")
        elif chance.random() < 0.3:
            cancelled = chance.choice(window)
            del standing[cancelled]
            lines += ["close", "reopen"] * chance.randrange(2) + [f"cancel\t{cancelled}"]
    return lines, list(standing.values())


def test_cancels():
    """A roll ends as a new one with the remaining passages does, and over JH with the digest of these joined."""
    count = 200
    for number in range(count):
        chance = random.Random(number)
        press, size = chance.choice(["jh", "drill"]), chance.choice(SIZES)
        lines, standing = random_roll(chance)
        plain = [line for passed in standing for line in (passed, "ship")]
        said = []
        for course in lines, plain:
            course = [f"open\t{press}\t{size}", *course, "close", "total"]
            said.append(answers("".join(line + "\n" for line in course).encode()).decode().splitlines())
        same(f"refusals in roll {number}", [line for line in said[0] + said[1] if line.startswith("refused")], [])
        same(f"end of roll {number}", said[0][-2:], said[1][-2:])
        if press == "jh":
            joined = bytes.fromhex("".join(passed[5:] for passed in standing))
            digest = jh_digest(joined, 8 * len(joined), size).hex()
            same(f"digest of roll {number}", said[0][-2], f"closed\t{digest}")
    return f"{count} rolls with cancels"


def main():
    if sys.argv[1:] == ["--self-test"]:
        tests = test_constants, test_digests, test_cases, test_inputs, test_worked_day, test_cancels
        print(", ".join(test() for test in tests) + ": no difference")
    elif sys.argv[1:]:
        sys.exit("usage: second_keeper.py [--self-test]")
    else:
        sys.stdout.buffer.write(answers(sys.stdin.buffer.read(LIMIT)))


if __name__ == "__main__":
    main()
