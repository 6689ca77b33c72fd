#!/usr/bin/env python3
# Due times once more, written from document 01 and request 1 of document 02 and from nothing else of the project, to
# compare the program `times` with.
# `table FILE` writes what the program must answer to the questions in FILE; `compare PROGRAM [COUNT [SEED]]` asks the
# program many questions and fails at the first answer that differs.
import random
import subprocess
import sys

DAY = 86_400
DAYS = 1_000_000
OFFSET = 50_400
DRUMS = 8
LEAST, MOST = -(2**63), 2**63 - 1
LONGEST = 96  # bytes that the program keeps of a line; a longer one is not looked at, remark or not
LIMIT = 100  # differences that are shown


def floor_parts(z, lot):
    """Floor and remainder by counting whole lots up from zero, not by Python's own // on a negative number."""
    if z >= 0:
        return z // lot, z % lot
    up = (-z + lot - 1) // lot  # whole lots that lift z to zero or above
    return -up, z + up * lot


def key_of(day, second, offset, drum):
    if abs(day) > DAYS or not 0 <= second < DAY or abs(offset) > OFFSET or not 0 <= drum < DRUMS:
        return None
    return (day * DAY + second - offset) * DRUMS + drum


def time_of(key, offset):
    if abs(offset) > OFFSET:
        return None
    moment, drum = floor_parts(key, DRUMS)
    day, second = floor_parts(moment + offset, DAY)
    if abs(day) > DAYS:
        return None
    return day, second, drum


def number(word):
    """A signed 64-bit number in plain decimal, or None."""
    digits = word[1:] if word.startswith("-") else word
    if not digits or any(c not in "0123456789" for c in digits):
        return None
    value = int(word)
    return value if LEAST <= value <= MOST else None


def answer(line):
    if len(line) > LONGEST:
        return "(a line that is too long) -> no question"
    if line == "" or line.startswith("#"):
        return line
    words = line.split(" ")
    values = [number(w) for w in words[1:]]
    said = "no question"
    if None not in values:
        if words[0] == "key" and len(values) == 4:
            key = key_of(*values)
            said = "refused 6" if key is None else str(key)
        elif words[0] == "time" and len(values) == 2:
            time = time_of(*values)
            said = "refused 6" if time is None else f"{time[0]} {time[1]} {time[2]}"
    return f"{line} -> {said}"


def near(values, reach):
    return [v + d for v in values for d in range(-reach, reach + 1) if LEAST <= v + d <= MOST]


def questions(count, seed):
    rnd = random.Random(seed)
    ends = [LEAST, MOST]
    days = near([-DAYS, DAYS, 0], 2) + near(ends, 1)
    seconds = near([0, DAY - 1], 2) + near(ends, 1)
    offsets = near([-OFFSET, OFFSET, 0], 2) + near(ends, 1)
    drums = near([0, DRUMS - 1], 1) + ends
    asked = [f"key {d} {s} {o} {n}" for d in days for s in seconds for o in offsets for n in drums]
    edges = [d * DAY for d in (-DAYS - 1, -DAYS, -2, -1, 0, 1, 2, DAYS, DAYS + 1)]
    for o in offsets:
        # keys whose local second is at the edge of a day, and keys whose sum with the offset leaves 64 bits
        keys = near([(e - o) * DRUMS for e in edges if LEAST <= (e - o) * DRUMS <= MOST], DRUMS + 1) + near(ends, DRUMS)
        keys += [k for k in (MOST - o, MOST - o + 1, LEAST - o, LEAST - o - 1) if LEAST <= k <= MOST]
        asked += [f"time {k} {o}" for k in keys]
    while len(asked) < count:
        o = rnd.randint(-OFFSET - 50, OFFSET + 50)
        kind = rnd.randrange(6)
        if kind < 2:
            asked.append(f"key {rnd.randint(-DAYS, DAYS)} {rnd.randint(0, DAY - 1)} {o} {rnd.randrange(DRUMS)}")
        elif kind == 2:
            n = rnd.randint(-2, DRUMS + 1)
            asked.append(f"key {rnd.randint(-DAYS - 9, DAYS + 9)} {rnd.randint(-9, DAY + 9)} {o} {n}")
        elif kind == 3:
            span = DAYS * DAY + 2 * DAY
            asked.append(f"time {rnd.randint(-span * DRUMS, span * DRUMS)} {o}")
        elif kind == 4:
            asked.append(f"time {rnd.randint(-3 * DAY * DRUMS, 3 * DAY * DRUMS)} {o}")
        else:
            asked.append(f"time {rnd.randint(LEAST, MOST)} {rnd.choice([o, rnd.randint(LEAST, MOST)])}")
    return asked


def compare(program, count, seed):
    asked = questions(count, seed)
    text = "".join(line + "\n" for line in asked)
    got = subprocess.run([program], input=text, capture_output=True, text=True, check=True).stdout.split("\n")
    want = [answer(line) for line in asked] + [""]
    if len(got) != len(want):
        print(f"due: {len(got) - 1} answers to {len(asked)} questions", file=sys.stderr)
        return 1
    wrong = [(w, g) for w, g in zip(want, got) if w != g]
    for w, g in wrong[:LIMIT]:
        print(f"due: wanted {w!r}, got {g!r}", file=sys.stderr)
    refused = sum(w.endswith("refused 6") for w in want)
    print(f"due: {len(asked)} questions (seed {seed}), {refused} refused, {len(wrong)} differences")
    return 1 if wrong else 0


def main(args):
    if args[:1] == ["table"] and len(args) == 2:
        with open(args[1], encoding="ascii") as f:
            for line in f.read().split("\n")[:-1]:
                print(answer(line))
        return 0
    if args[:1] == ["compare"] and 2 <= len(args) <= 4:
        count = int(args[2]) if len(args) > 2 else 100_000
        seed = int(args[3]) if len(args) > 3 else 1
        return compare(args[1], count, seed)
    print("usage: due_times.py table FILE | compare PROGRAM [COUNT [SEED]]", file=sys.stderr)
    return 2


sys.exit(main(sys.argv[1:]))
