#!/usr/bin/env python3
"""Keeps the entries of a history by itself, from calls and answers alone, and compares the queue with them.

usage: history_check.py REPLAY SCRIPTS OPERATIONS SEED

For each of SCRIPTS random scripts: a first run of REPLAY gives the answers; from calls and answers the entries that should be left are
worked out here, with no tree; then a second run of the same script, with questions put in between, must show these entries in order by
first and next, backwards by last and prev, and must read every handle ever given, live or dead, as the history says.
"""
import random
import subprocess
import sys


def run(program, lines):
    done = subprocess.run([program], input="\n".join(lines) + "\n", capture_output=True, text=True, check=True)
    return done.stdout.splitlines()


def script(rng, operations):
    """One call a line, each answered by one line."""
    capacity, top = rng.choice([(1, 1), (2, 3), (8, 3), (40, 2), (200, 1000), (1024, 4294967295)])
    lines = [f"new {capacity} {top}"]
    keys = [rng.randrange(-50, 50) for _ in range(8)] + [-(2**63), 2**63 - 1]
    given = 0
    for _ in range(operations):
        key = rng.choice(keys) if rng.random() < 0.3 else rng.randrange(-(10 ** rng.randrange(1, 18)), 10 ** rng.randrange(1, 18))
        n = rng.randrange(0, given + 2)
        kind = rng.choice(["ins"] * 8 + ["emp", "man", "man"] + ["rem"] * 6)
        if kind in ("ins", "emp"):
            lines.append(f"{kind} {key} {rng.randrange(2**64)}")
        elif kind == "man":
            lines.append(f"man {n} {rng.choice([-1, 0, 1])} {key} {rng.randrange(2**64)}")
        else:
            lines.append(f"rem {n}")
        given += kind != "rem"
    return lines


class History:
    """What calls and answers leave: entries by the number of the insertion that gave them."""

    def __init__(self, capacity):
        self.left, self.given, self.free = {}, 0, capacity

    def tell(self, call, answer):
        said = answer.split()
        if said[0] == "new":
            words = call.split()
            key, value = int(words[-2]), int(words[-1])
            assert int(said[1]) == self.given, "an insertion's number"
            self.left[self.given] = (key, value)
            self.given += 1
            self.free -= 1
        elif said[0] == "rep":
            n, old = int(said[1]), int(said[2])
            key, value = self.left[n]
            assert value == old, "the old value"
            self.left[n] = (key, int(call.split()[-1]))
        elif said[0] == "rem":
            n, key, value = int(said[1]), int(said[2]), int(said[3])
            assert self.left.pop(n) == (key, value), "the removed entry"
            self.free += "overflow" not in said
        else:
            assert said[0] == "err", answer
            if said[1] == "1":
                assert self.free == 0, "refused 1 with a free slot"

    def questions(self):
        """Lines to ask, and the answers that the history gives."""
        order = sorted(self.left, key=lambda n: self.left[n][0])
        ask, want = ["first", "last"], [f"at {order[0]}", f"at {order[-1]}"] if order else ["end", "end"]
        for step, row in (("next", order), ("prev", order[::-1])):
            for n, after in zip(row, row[1:] + [None]):
                ask.append(f"{step} {n}")
                want.append("end" if after is None else f"at {after}")
        for n in range(self.given + 1):
            ask.append(f"get {n}")
            want.append("got {} {}".format(*self.left[n]) if n in self.left else "err 3")
        return ask, want


def check(program, lines, rng):
    answers = run(program, lines)
    assert len(answers) == len(lines), "a line for a line"
    history, asked, wanted = None, [], []
    for call, answer in zip(lines, answers):
        asked.append(call)
        wanted.append(answer)
        if call.startswith("new"):
            assert answer == "ok"
            history = History(int(call.split()[1]))
            continue
        history.tell(call, answer)
        if rng.random() < 0.02:
            ask, want = history.questions()
            asked += ask
            wanted += want
    ask, want = history.questions()
    asked += ask
    wanted += want
    got = run(program, asked)
    for line, (a, b) in enumerate(zip(wanted, got)):
        assert a == b, f"{asked[line]}: the history says {a}, the queue {b}"
    assert len(got) == len(wanted)
    return len(asked)


def main():
    program, scripts, operations, seed = sys.argv[1], int(sys.argv[2]), int(sys.argv[3]), int(sys.argv[4])
    total = 0
    for number in range(scripts):
        rng = random.Random(seed * 1_000_003 + number)
        try:
            total += check(program, script(rng, operations), rng)
        except AssertionError as difference:
            print(f"script {number} of seed {seed}: {difference}")
            sys.exit(1)
    print(f"histories kept: {scripts} scripts, {total} answers compared")


main()
