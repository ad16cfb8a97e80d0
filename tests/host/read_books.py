#!/usr/bin/env python3
"""Writes the files stdin and stdout of crates/read_books: books on both sides of every limit and for every refusal, and what document 01 says of each,
with document 02's changes so far.

    tests/host/read_books.py FOLDER     to FOLDER/stdin and FOLDER/stdout

`outcome` is the reader once more, written from the documents' text alone: the tests that each command fails, and their order.
"""
import sys

# Document 01, "Deck book", and change 6's 54: each command's group and its number of bytes behind the first.
COMMANDS = {0x43: (0, 2), 0x52: (1, 1), 0x53: (1, 3), 0x54: (1, 6), 0x42: (2, 3), 0x48: (3, 1), 0x45: (4, 0)}

# The commands that add a step, with a kind and a position or with two of each.
STEPS = (0x53, 0x54)

# The order of a command's tests behind 2 and 3: document 01's, with change 1's 30 and 31 where 8 was tested.
ORDER = (4, 5, 7, 8, 30, 31, 9, 6, 10)


def faults(command, operands, pairs, runs, cuts, history):
    """The numbers of the tests from 4 on, but for a later group, that a whole command fails."""
    if command == 0x43:
        a, b = operands
        return {5: a > 15 or b > 15 or a > b, 6: pairs and (a, b) <= pairs[-1]}
    if command == 0x52:
        return {7: operands[0] != len(runs), 8: len(runs) == 16}
    if command in STEPS:
        return {4: not runs, 5: any(kind > 15 for kind in operands[::3]), 30: runs and len(runs[-1]) == 32, 31: sum(map(len, runs)) == 128}
    r = operands[0]
    if command == 0x42:
        j, o = operands[1:]
        return {7: r >= len(runs) or o >= len(runs) or r == o, 9: j == 0 or r >= len(runs) or j >= len(runs[r]), 6: cuts and (r, j, o) <= cuts[-1]}
    return {7: r >= len(runs), 10: r >= len(runs) or history.count(r) == len(runs[r])}


def outcome(s):
    if len(s) > 16384:
        return "refused 1 at 0"
    at, group, pairs, runs, cuts, history = 0, 0, [], [], [], []
    while True:
        if at == len(s):
            return f"refused 3 at {at}"
        if s[at] not in COMMANDS:
            return f"refused 2 at {at}"
        command, (own_group, count) = s[at], COMMANDS[s[at]]
        operands = tuple(s[at + 1 : at + 1 + count])
        if len(operands) < count:
            return f"refused 3 at {at}"
        if command == 0x45:
            return f"accepted, done {len(history)}" if at + 1 == len(s) else f"refused 11 at {at + 1}"
        failed = faults(command, operands, pairs, runs, cuts, history)
        failed[4] = failed.get(4) or own_group < group
        for number in ORDER:
            if failed.get(number):
                return f"refused {number} at {at}"
        if command == 0x43:
            pairs.append(operands)
        elif command == 0x52:
            runs.append([])
        elif command in STEPS:
            runs[-1].append(operands)
        elif command == 0x42:
            cuts.append(operands)
        else:
            history.append(operands[0])
        group = own_group
        at += 1 + count


def pair(a, b):
    return bytes([0x43, a, b])


def run(r):
    return bytes([0x52, r])


def step(kind=0, position=0):
    return bytes([0x53, kind, position >> 8, position & 255])


def transfer(first=0, second=0, position=0):
    return b"\x54" + step(first, position)[1:] + step(second, position)[1:]


def cut(r, j, o):
    return bytes([0x42, r, j, o])


def done(*runs):
    return b"".join(bytes([0x48, r]) for r in runs)


def runs_of(*lengths, of=step()):
    return b"".join(run(r) + of * n for r, n in enumerate(lengths))


END = b"\x45"
TWO = runs_of(2, 2)

BOOKS = [
    ("empty input", b""),
    ("the one byte 45", END),
    ("document 01's example", bytes.fromhex("430001 430101 5200 53010005 53010006 5201 53000005 53000006 4800 4801 4800 4801 45".replace(" ", ""))),
    ("example with a cut", pair(0, 1) + TWO + cut(0, 1, 1) + done(0, 1, 1, 0) + END),
    ("history leaves steps undone", TWO + done(0) + END),
    ("run without steps", runs_of(0, 1) + done(1) + END),
    ("transfers among single steps", run(0) + step() + transfer(1, 2) + step() + run(1) + transfer() * 2 + done(0, 1, 0, 1, 0) + END),
    ("a transfer is one step", run(0) + transfer() + done(0) + END),
    ("16384 bytes", END + bytes(16383)),
    ("16385 bytes, 1 and 11", END + bytes(16384)),
    ("largest book", b"".join(pair(a, b) for a in range(16) for b in range(a, 16)) + runs_of(*[8] * 16)
        + b"".join(cut(r, j, o) for r in range(16) for j in range(1, 8) for o in range(16) if o != r) + done(*list(range(16)) * 8) + END),
    # 2
    ("byte that is no command", b"\x00"),
    ("byte that is no command, later", TWO + b"\x44"),
    # 3
    ("no 45", TWO),
    # 5
    ("kind 15 in a pair", pair(15, 15) + END),
    ("kind 16 in a pair", pair(15, 16) + END),
    ("kind 16 first in a pair", pair(16, 16) + END),
    ("pair turned round", pair(1, 0) + END),
    ("kind 15 in a step", run(0) + step(15) + END),
    ("kind 16 in a step", run(0) + step(16) + END),
    ("kinds 15 in a transfer", run(0) + transfer(15, 15) + END),
    ("kind 16 first in a transfer", run(0) + transfer(16, 15) + END),
    ("kind 16 second in a transfer", run(0) + transfer(15, 16) + END),
    ("positions at the limit in a transfer", run(0) + transfer(0, 0, 65535) + END),
    # 6
    ("pair twice", pair(0, 1) + pair(0, 1) + END),
    ("pair below in b", pair(0, 2) + pair(0, 1) + END),
    ("pair below in a", pair(1, 1) + pair(0, 2) + END),
    ("pair above in a, below in b", pair(0, 2) + pair(1, 1) + END),
    ("cut twice", TWO + cut(0, 1, 1) + cut(0, 1, 1) + END),
    ("cut below in o", runs_of(2, 2, 2) + cut(0, 1, 2) + cut(0, 1, 1) + END),
    ("cut below in j", runs_of(3, 2) + cut(0, 2, 1) + cut(0, 1, 1) + END),
    ("cut below in r", TWO + cut(1, 1, 0) + cut(0, 1, 1) + END),
    ("cut above in r, below in o", TWO + cut(0, 1, 1) + cut(1, 1, 0) + END),
    ("cut above in j, below in o", runs_of(3, 2, 2) + cut(0, 1, 2) + cut(0, 2, 1) + END),
    # 7
    ("first run 1", run(1) + END),
    ("run twice", run(0) + run(0) + END),
    ("cut in an undeclared run", TWO + cut(2, 1, 0) + END),
    ("cut seen by an undeclared run", TWO + cut(0, 1, 2) + END),
    ("cut seen by its own run", TWO + cut(0, 1, 0) + END),
    ("done step of an undeclared run", TWO + done(2) + END),
    # 8
    ("16 runs", runs_of(*[0] * 16) + END),
    ("17th run", runs_of(*[0] * 17) + END),
    # 30
    ("32 steps in a run", runs_of(32) + END),
    ("33rd step of a run", runs_of(33) + END),
    ("33rd step of a second run", runs_of(1, 33) + END),
    ("32 transfers in a run", runs_of(32, of=transfer()) + END),
    ("33rd transfer of a run", runs_of(33, of=transfer()) + END),
    ("transfer as the 32nd step of a run", runs_of(31) + transfer() + END),
    ("transfer as the 33rd step of a run", runs_of(32) + transfer() + END),
    ("33rd step of a run behind a transfer", run(0) + transfer() + step() * 32 + END),
    # 31
    ("128 steps", runs_of(32, 32, 32, 32) + END),
    ("129th step", runs_of(32, 32, 32, 32, 1) + END),
    ("128 steps in 16 runs", runs_of(*[8] * 16) + END),
    ("129th step in the 16th run", runs_of(*[8] * 15, 9) + END),
    ("128 transfers", runs_of(*[8] * 16, of=transfer()) + done(*range(16)) + END),
    ("129th transfer", runs_of(*[8] * 15, 9, of=transfer()) + END),
    ("transfer as the 128th step", runs_of(*[8] * 15, 7) + transfer() + END),
    ("transfer as the 129th step", runs_of(*[8] * 16) + transfer() + END),
    # 9
    ("cut after step 0", TWO + cut(0, 0, 1) + END),
    ("cut after step 1 of 2", TWO + cut(0, 1, 1) + END),
    ("cut after step 2 of 2", TWO + cut(0, 2, 1) + END),
    ("cut after step 31 of 32", runs_of(32, 1) + cut(0, 31, 1) + END),
    ("cut after step 32 of 32", runs_of(32, 1) + cut(0, 32, 1) + END),
    ("cut in a run without steps", runs_of(0, 1) + cut(0, 1, 1) + END),
    ("cut after transfer 1 of 2", runs_of(2, 1, of=transfer()) + cut(0, 1, 1) + END),
    ("cut after transfer 1 of 1", runs_of(1, 1, of=transfer()) + cut(0, 1, 1) + END),
    # 10
    ("all steps done", TWO + done(0, 1, 1, 0) + END),
    ("done step too many", TWO + done(0, 0, 0) + END),
    ("done step of a run without steps", runs_of(0) + done(0) + END),
    ("second done step of one transfer", runs_of(1, of=transfer()) + done(0, 0) + END),
    # 11
    ("byte after 45", TWO + END + b"\x00"),
    ("45 after 45", END + END),
]

# Each command cut short before each operand.
WHOLE = {
    "43": (b"", pair(0, 1)),
    "52": (b"", run(0)),
    "53": (run(0), step()),
    "54": (run(0), transfer()),
    "42": (TWO, cut(0, 1, 1)),
    "48": (TWO, done(0)),
}
BOOKS += [(f"{name} cut short after {n} bytes", front + command[:n]) for name, (front, command) in WHOLE.items() for n in range(1, len(command))]

# Each command after each later group, and 53 and 54 before any 52.
GROUPS = [pair(0, 1), run(0) + step() * 2 + run(1) + step() * 2, cut(0, 1, 1), done(0)]
NAMES = ["43", "52 and 53", "42", "48"]
LATE = [("43", 0, pair(0, 2)), ("52", 1, run(2)), ("53", 1, step()), ("54", 1, transfer()), ("42", 2, cut(1, 1, 0))]
BOOKS += [(f"{name} after {NAMES[g]}", b"".join(GROUPS[: g + 1]) + command + END) for name, own, command in LATE for g in range(own + 1, 4)]
BOOKS += [("43 after 54", run(0) + transfer() + pair(0, 1) + END)]
BOOKS += [("53, its position 54 54", run(0) + step(0, 0x5454) + END)]
for name, command in ("53", step()), ("54", transfer()):
    BOOKS += [(f"{name} before any 52", command + END), (f"{name} before any 52, after 43", pair(0, 1) + command + END)]

# Several faults at once: the earliest test answers.
FULL_RUNS = runs_of(*[0] * 16)
FULL_STEPS = runs_of(*[8] * 16)
BOOKS += [
    ("43, 3 and 4", run(0) + pair(0, 1)[:2]),
    ("43, 3 and 5", pair(16, 16)[:2]),
    ("43, 4 and 5", run(0) + pair(0, 16) + END),
    ("43, 4 and 6", pair(0, 1) + run(0) + pair(0, 1) + END),
    ("43, 5 and 6", pair(2, 2) + pair(1, 0) + END),
    ("52, 3 and 4", TWO + cut(0, 1, 1) + run(2)[:1]),
    ("52, 4 and 7", TWO + cut(0, 1, 1) + run(5) + END),
    ("52, 4 and 8", runs_of(*[2] * 16) + cut(0, 1, 1) + run(16) + END),
    ("52, 7 and 8", FULL_RUNS + run(0) + END),
    ("53, 3 and 4", step()[:3]),
    ("53, 3 and 5", run(0) + step(16)[:3]),
    ("53, 4 and 5", step(16) + END),
    ("53, 3 and 30", runs_of(32) + step()[:3]),
    ("53, 3 and 31", FULL_STEPS + step()[:3]),
    ("53, 4 and 30", runs_of(2, 32) + cut(0, 1, 1) + step() + END),
    ("53, 4 and 31", FULL_STEPS + cut(0, 1, 1) + step() + END),
    ("53, 5 and 30", runs_of(32) + step(16) + END),
    ("53, 5 and 31", FULL_STEPS + step(16) + END),
    ("53, 30 and 31", runs_of(32, 32, 32, 32) + step() + END),
    ("53, 4, 5, 30 and 31", runs_of(32, 32, 32, 32) + cut(0, 1, 1) + step(16) + END),
    ("54, 3 and 4", transfer()[:6]),
    ("54, 3 and 4, a later group", TWO + cut(0, 1, 1) + transfer()[:6]),
    ("54, 3 and 5", run(0) + transfer(16, 0)[:6]),
    ("54, 3 and 5, the second kind", run(0) + transfer(0, 16)[:5]),
    ("54, 4 and 5", transfer(16, 0) + END),
    ("54, 4 and 5, the second kind", transfer(0, 16) + END),
    ("54, 3 and 30", runs_of(32) + transfer()[:6]),
    ("54, 3 and 31", FULL_STEPS + transfer()[:6]),
    ("54, 4 and 30", runs_of(2, 32) + cut(0, 1, 1) + transfer() + END),
    ("54, 4 and 31", FULL_STEPS + cut(0, 1, 1) + transfer() + END),
    ("54, 5 and 30", runs_of(32) + transfer(16, 0) + END),
    ("54, 5 and 30, the second kind", runs_of(32) + transfer(0, 16) + END),
    ("54, 5 and 31", FULL_STEPS + transfer(16, 0) + END),
    ("54, 5 and 31, the second kind", FULL_STEPS + transfer(0, 16) + END),
    ("54, 30 and 31", runs_of(32, 32, 32, 32) + transfer() + END),
    ("54, 4, 5, 30 and 31", runs_of(32, 32, 32, 32) + cut(0, 1, 1) + transfer(16, 16) + END),
    ("42, 3 and 4", TWO + done(0) + cut(0, 1, 1)[:3]),
    ("42, 3 and 7", TWO + cut(2, 1, 0)[:3]),
    ("42, 4 and 7", TWO + done(0) + cut(2, 1, 0) + END),
    ("42, 4 and 9", TWO + done(0) + cut(0, 2, 1) + END),
    ("42, 4 and 6", TWO + cut(0, 1, 1) + done(0) + cut(0, 1, 1) + END),
    ("42, 7 and 9", TWO + cut(0, 0, 0) + END),
    ("42, 7 and 6", TWO + cut(1, 1, 0) + cut(0, 1, 0) + END),
    ("42, 9 and 6", TWO + cut(1, 1, 0) + cut(0, 2, 1) + END),
    ("48, 7 and 10", TWO + done(2) + END),
    ("3 and 11", END + b"\x43"),
    ("2 after a whole book", END + b"\x00"),
]


def main():
    if len(sys.argv) != 2:
        sys.exit("usage: read_books.py FOLDER")
    labels = [label for label, _ in BOOKS]
    assert len(set(labels)) == len(labels), sorted(label for label in labels if labels.count(label) > 1)
    with open(f"{sys.argv[1]}/stdin", "wb") as f:
        for label, book in BOOKS:
            f.write(bytes([len(label)]) + label.encode() + len(book).to_bytes(2, "big") + book)
    with open(f"{sys.argv[1]}/stdout", "w") as f:
        f.writelines(f"{label}: {outcome(book)}\n" for label, book in BOOKS)


if __name__ == "__main__":
    main()
