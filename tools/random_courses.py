#!/usr/bin/env python3
"""Random inputs for the program `calls`, and the second keeper's answers to them.

    random_courses.py SEED NUMBER                 prints course NUMBER of the seed
    random_courses.py SEED FIRST COUNT FOLDER     writes COUNT courses to the files NUMBER.course and the answers to
                                                  NUMBER.expected in the folder, and prints how often each thing was met

A course is made line by line. The second keeper goes along, so that the next line can be chosen by the roll's state:
each refusal and each way through the calls comes often.
"""

import collections
import pathlib
import random
import sys

sys.dont_write_bytecode = True
import second_keeper
from second_keeper import FORM, HIGHEST_SERIAL, LIMIT, SIZES, WINDOW, Keeper, Passage

WRONG_SIZES = [0, 1, 7, 28, 32, 223, 225, 255, 257, 383, 385, 511, 513, 1024]
WRONG_SIZES += [2**16 + 224, 2**32 + 256, 2**48 + 512, 10**16 - 1]
FIXED_LINES = [
    b"", b" ", b"\t", b"\r", b"\0", b"open", b"open\t", b"open\tjh", b"open\tjh\t", b"open\t256", b"open\t256\tjh",
    b"open\tjh\t+256", b"open\tjh\t256.", b"open\tjh\t0x100", b"open\tJH\t256", b"open\tjh42\t256",
    b"open\tsliced\t256", b"open\tdril\t256", b"open\tdrill\t-256", b"open\tdrill\t", b"\xef\xbb\xbfopen\tjh\t256",
    b"pass", b"pass\t", b"pass\t00", b"cancel", b"cancel\t", b"cancel\t-1", b"cancel\t+1", b"cancel\t1.0",
    b"cancel\t1e1", b"cancel\t00", b"cancel\t0x1", b"cancel\tf", b"cancel\t\xd9\xa1", b"cancel\t1\t2", b"ship\t",
    b"ship\t1", b"ships", b"shi", b"close\t", b"closed",
    b"reopen\t", b"re-open", b"total\t", b"total\t0\t0", b"totals", b"save", b"resume", b"seal", b"digest",
    b"roll\t256\t0\t0\t0\t0", b"chain", b"ok", b"refused\t16",
]

# How often each kind of line comes while the roll is open, by the course's mood.
MOODS = {
    "filling": dict(fitting_pass=60, faulty_pass=4, cancel=6, ship=1, total=1, close=1, unreadable=1),
    "flowing": dict(fitting_pass=30, faulty_pass=4, ship=26, cancel=6, stray_cancel=4, total=3, close=2, unreadable=1),
    "cancelling": dict(fitting_pass=24, cancel=20, again=4, stray_cancel=6, ship=3, total=3, close=4, unreadable=1),
    "closing": dict(close=24, fitting_pass=20, cancel=14, ship=4, total=4, again=2),
    "faulty": dict(faulty_pass=30, fitting_pass=20, again=8, stray_cancel=8, cancel=4, ship=4, close=2),
    "muddled": dict(unreadable=24, any_call=16, fitting_pass=12, ship=4, cancel=4, total=2, close=2),
    "draining": dict(ship=30, cancel=8, stray_cancel=6, fitting_pass=4, total=2, close=2),
    "long": dict(fitting_pass=60, ship=58, cancel=12, stray_cancel=1, faulty_pass=2, total=1, close=1, unreadable=1),
}
CLOSED = dict(reopen=40, total=10, close=4, any_call=8, unreadable=2)
UNOPENED = dict(open=40, wrong_open=24, any_call=16, unreadable=8)


def any_of(chance, weights):
    return chance.choices(list(weights), list(weights.values()))[0]


class Course:
    def __init__(self, chance):
        self.chance, self.keeper = chance, Keeper()
        self.lines, self.length = [], 0
        self.high = chance.random() < 0.06  # the serials of this course come to their upper end

    @property
    def roll(self):
        return self.keeper.roll

    def say(self, line):
        self.lines.append(line)
        self.length += len(line) + 1
        self.keeper.answer(line)

    def step(self, mood):
        """One line more."""
        weights = UNOPENED if self.roll is None else CLOSED if self.roll.closed else MOODS[mood]
        self.say(getattr(self, any_of(self.chance, weights))())

    # The kinds of lines.

    def open(self):
        return f"open\t{self.chance.choice(['jh', 'drill'])}\t{self.chance.choice(SIZES)}".encode()

    def wrong_open(self):
        return f"open\t{self.chance.choice(['jh', 'drill'])}\t{self.chance.choice(WRONG_SIZES)}".encode()

    def ship(self):
        return b"ship" if self.window() or self.chance.random() < 0.2 else self.fitting_pass()

    def close(self):
        return b"close"

    def reopen(self):
        return b"reopen"

    def total(self):
        return b"total"

    def fitting_pass(self):
        return pass_line(self.passage())

    def faulty_pass(self):
        passage = self.passage()
        for _ in range(self.chance.choice([1, 1, 2, 3])):
            passage = self.chance.choice([self.faulty_serial, self.faulty_fields, self.faulty_prices])(passage)
        return pass_line(passage)

    def again(self):
        """A pass line that was there before, or another call if there was none."""
        passed = [line for line in self.lines[-40:] if second_keeper.LINES["pass"].fullmatch(line)]
        return self.chance.choice(passed[-1:] + passed) if passed else self.any_call()

    def cancel(self):
        """Of the first, the last or any passage in the window."""
        window = self.window()
        if not window:
            return self.fitting_pass()
        return f"cancel\t{self.chance.choice([window[0], window[-1], self.chance.choice(window)])}".encode()

    def stray_cancel(self):
        """Mostly of a passage that is not in the window."""
        last = self.last_serial()
        serials = [0, 1, last - 1, last, last + 1, HIGHEST_SERIAL]
        serials += [self.chance.randrange(2**32), self.chance.randrange(last + 1)]
        if self.roll and self.roll.shipped:
            shipped = self.roll.serials()[: self.roll.shipped]
            serials += [shipped[-1], shipped[-1], shipped[-1] - 1, shipped[-1] + 1, self.chance.choice(shipped)]
        return f"cancel\t{min(max(self.chance.choice(serials), 0), HIGHEST_SERIAL)}".encode()

    def any_call(self):
        """Without regard to the state."""
        calls = [self.open, self.wrong_open, self.fitting_pass, self.cancel, self.stray_cancel]
        return self.chance.choice(calls + [self.ship, self.close, self.reopen, self.total])()

    def unreadable(self):
        """Nearly always a line that cannot be read."""
        chance = self.chance
        kind = chance.randrange(10)
        if kind < 3:
            line = chance.choice(FIXED_LINES)
        elif kind < 4:
            line = chance.randbytes(chance.choice([1, 2, 5, 30, 133, 500]))
        elif kind < 7:
            line = chance.choice([damaged_pass, damaged_decimal])(chance, self)
        else:
            line = damaged(chance, self.any_call())
        return line.replace(b"\n", b"\r")

    # Passages.

    def window(self):
        return self.roll.serials()[self.roll.shipped :] if self.roll else []

    def last_serial(self):
        return self.roll.last_serial() if self.roll else 0

    def passage(self):
        """One that the roll accepts if a place is free and a higher serial is left."""
        chance = self.chance
        below = max(self.last_serial(), HIGHEST_SERIAL - 3000) if self.high else self.last_serial()
        serial = min(below + chance.choice([1, 1, 1, 1, 2, 3, 10, 1000]), HIGHEST_SERIAL)
        full = chance.choice([0, 1, 400, 65536, HIGHEST_SERIAL, chance.randrange(2000), chance.randrange(2**32)])
        discount = chance.choice([0, full, full // 3, chance.randrange(full + 1)])
        gate, time, tag = chance.choice([0, 17, 2**32 - 1]), chance.randrange(2**64), chance.randbytes(32)
        if chance.random() < 0.1:
            time, tag = chance.choice([0, 2**64 - 1]), bytes([chance.choice([0, 255])]) * 32
        kind, version = chance.randrange(1, 10), chance.randrange(1, 5)
        return Passage(gate, serial, time, kind, version, 0, 0, full, discount, full - discount, tag)

    def faulty_serial(self, passage):
        last = self.last_serial()
        serials = [0, last, last, max(last - 1, 0), self.chance.randrange(last + 1)]
        return passage._replace(serial=self.chance.choice(serials))

    def faulty_fields(self, passage):
        value = self.chance.choice([1, 2, 128, 255])
        wrong = [
            dict(kind=0), dict(kind=10), dict(kind=self.chance.randrange(10, 256)),
            dict(version=0), dict(version=5), dict(version=self.chance.randrange(5, 256)),
            dict(byte_18=value), dict(byte_19=value), dict(byte_18=value, byte_19=value),
        ]
        return passage._replace(**self.chance.choice(wrong))

    def faulty_prices(self, passage):
        full, charged = passage.full, passage.charged
        name = self.chance.choice(["full", "discount", "charged"])
        off = (getattr(passage, name) + self.chance.choice([-1, 1, 256, 2**31])) % 2**32
        beyond = self.chance.randrange(full + 1, 2**32) if full < HIGHEST_SERIAL else full
        wrong = [
            {name: off}, {name: off},
            dict(full=charged, charged=full), dict(discount=0), dict(charged=full),
            dict(discount=beyond, charged=(full - beyond) % 2**32),  # the sum is 2^32 too high
        ]
        return passage._replace(**self.chance.choice(wrong))


def pass_line(passage):
    return b"pass\t" + FORM.pack(*passage).hex().encode()


def damaged_pass(chance, course):
    line = course.fitting_pass()
    digits = line[5:]
    at, wrong = chance.randrange(128), chance.choice([b"g", b"A", b"F", b"/", b":", b"`", b"@", b" ", b"\t"])
    return chance.choice([
        b"pass\t" + digits.upper(), b"pass\t" + digits[:-1], b"pass\t" + digits[:-2], b"pass\t" + digits + b"0",
        b"pass\t" + digits + digits[:2], b"pass\t" + digits * 2, b"pass" + digits, b"pass\t0x" + digits[2:],
        b"pass\t" + digits[:at] + wrong + digits[at + 1 :],
    ])


def damaged_decimal(chance, course):
    number = chance.choice([*course.window(), 0, 5])
    lines = [f"cancel\t{text}" for text in (f"0{number}", f"{number:016}", f"{number:017}")]
    lines += [f"cancel\t{added + number}" for added in (2**32, 2**48, 10**15, 10**16, 2**64)] + ["cancel\t4294967296"]
    size = chance.choice(SIZES)
    lines += [f"open\tjh\t{text}" for text in (f"0{size}", f"{size:017}", f"{10**16 + size}", f"{2**64 + size}")]
    return chance.choice(lines).encode()


def damaged(chance, line):
    """The line with a small damage."""
    at, byte = chance.randrange(len(line)), bytes([chance.randrange(256)])
    return chance.choice([
        line.upper(), line.capitalize(), line.replace(b"\t", b" "), line.replace(b"\t", b"\t\t"),
        line + b"\t", line + b" ", line + b"\r", line + b"\0", b" " + line, b"\t" + line, line + line, line[::-1],
        line[:at], line[at + 1 :], line[:at] + line[at + 1 :], line[:at] + byte + line[at:],
        line[:at] + byte + line[at + 1 :],
    ])


# ---- Courses


def tiny_input(chance):
    course = Course(chance)
    opening = course.open()
    return chance.choice([
        b"", b"\n", b"\n\n\n", opening, opening + b"\n", opening + b"\nclose", opening + b"\r\ntotal\r\n",
        b"total\n" * 3, chance.randbytes(chance.randrange(400)),
        b"x" * (LIMIT + chance.randrange(-1, 2)), b"\n" * (LIMIT + 1),
    ])


def long_course(chance):
    """More bytes than are read; a call's line ends near the last one."""
    course = Course(chance)
    course.say(course.open())
    while course.length < LIMIT - 700:
        course.step("long")
    line = chance.choice([b"ship", b"close", b"reopen", b"total", course.fitting_pass(), course.cancel()])
    filler = LIMIT + chance.choice([-2, -1, 0, 0, 1, 1, 2, len(line)]) - course.length - len(line) - 2
    course.say(b"x" * filler)
    course.say(line)
    for _ in range(chance.randrange(12)):
        course.step("long")
    return course


def usual_course(chance):
    course = Course(chance)
    for _ in range(chance.choice([1, 2, 2, 3, 4])):
        mood = chance.choice([mood for mood in MOODS if mood != "long"])
        for _ in range(chance.choice([3, 10, 25, 45, 80])):
            course.step(mood)
    if course.roll and chance.random() < 0.9:
        if not course.roll.closed:
            course.say(b"close")
        course.say(b"total")
    return course


def course_of(seed, number):
    """The input with that number: its bytes."""
    chance = random.Random(f"{seed}/{number}")
    kind = chance.random()
    if kind < 0.02:
        return tiny_input(chance)
    course = long_course(chance) if kind < 0.04 else usual_course(chance)
    last = b"" if chance.random() < 0.1 else b"\n"
    return b"\n".join(course.lines) + last


# ---- What was met


def place_in(serials, serial):
    if len(serials) == 1:
        return "the only one"
    place = "first" if serial == serials[0] else "last" if serial == serials[-1] else "middle"
    return f"{place} of {len(serials) if len(serials) == WINDOW else 'some'}"


def met(given):
    """What the input brings, each thing once for each time."""
    keeper = Keeper()
    if len(given) > LIMIT:
        yield "input longer than 65,536 bytes"
    *lines, rest = given[:LIMIT].split(b"\n")
    reopened = False
    for line in lines:
        call, roll = second_keeper.read(line), keeper.roll
        window = roll.serials()[roll.shipped :] if roll else []
        answer = keeper.answer(line).split("\t")
        said = " ".join(answer[:2]) if answer[0] == "refused" else answer[0]
        name = call.name if call else "unreadable line"
        yield f"{name}: {said}"
        if call and said == "ok":
            reopened = reopened or name == "reopen"
            if name == "open":
                yield line.decode().replace("\t", " ")
            if name == "cancel":
                yield "cancel of " + place_in(window, call.number)
                if reopened:
                    yield "cancel after a reopen"
    if rest:
        yield "last part without a line feed: refused 16"


def write_courses(seed, first, count, folder):
    counts = collections.Counter()
    for number in range(first, first + count):
        given = course_of(seed, number)
        (folder / f"{number}.course").write_bytes(given)
        (folder / f"{number}.expected").write_bytes(second_keeper.answers(given))
        counts.update(met(given))
    for what, times in counts.items():
        print(f"{times}\t{what}")


def main():
    if len(sys.argv) == 3:
        sys.stdout.buffer.write(course_of(int(sys.argv[1]), int(sys.argv[2])))
    elif len(sys.argv) == 5:
        write_courses(*map(int, sys.argv[1:4]), pathlib.Path(sys.argv[4]))
    else:
        sys.exit("usage: random_courses.py SEED NUMBER | SEED FIRST COUNT FOLDER")


if __name__ == "__main__":
    main()
