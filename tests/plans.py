#!/usr/bin/env python3
"""Prints policy files, the text that the plan of each has to have and that of what one more account costs, from document 01
and Asks 1 and 3 of document 02 alone. A program's stored input and output come from here.

python3 tests/plans.py policy CASE    the bytes of the policy file
python3 tests/plans.py text CASE      the bytes of the plan's text
python3 tests/plans.py growth CASE    the bytes of the text of what one more account costs

CASE is E (document 01's example), refused (E without its last two pairs), full (64 labels, 512 pairs) or the path of a
policy file.
"""
import pathlib
import sys

E_LABELS = [("SUITE", 2), ("CURVES", 3), ("CONV32", 5), ("ACCRUED", 4)]
E_PAIRS = [(0, 1), (0, 2), (1, 3), (2, 3)]

# The texts that document 01 gives itself; what is computed here has to agree.
GIVEN = {
    "E": b"SUITE - 2 1 2\nCURVES SUITE 3 2 3\nCONV32 SUITE 5 1 5\nACCRUED CONV32 7 1 4\nTOTAL 17\n",
    "refused": b"REFUSED 10\n",
}


def written(labels, pairs):
    """The policy file of names with their accounts, and pairs."""
    records = [b"LB" + name.encode().ljust(8) + count.to_bytes(2, "big") for name, count in labels]
    return b"".join(records + [b"OV" + bytes(pair) for pair in pairs])


def full():
    """64 labels under up to nine earlier ones each, 512 pairs in mixed order, names of 2 to 8 bytes, and counts
    with 0, 65,535 and equal ones among them."""
    state = 1

    def below(bound):
        nonlocal state
        state = (state * 6364136223846793005 + 1442695040888963407) % 2**64
        return (state >> 33) % bound

    labels, pairs = [], []
    for label in range(64):
        name = ("M%d" % label + "ABCDEFGH")[: max(len("M%d" % label), 1 + label % 8)]
        count = (0, 65_535, below(4), below(65_536))[below(4)]
        labels.append((name, count))
        uppers = set()
        while len(uppers) < min(label, 8 + (label >= 28)):
            uppers.add(label - 1 - below(min(label, 24)))
        pairs += [(upper, label) for upper in sorted(uppers)]
    for i in reversed(range(1, len(pairs))):
        j = below(i + 1)
        pairs[i], pairs[j] = pairs[j], pairs[i]
    assert len(labels) == 64 and len(pairs) == 512
    return written(labels, pairs)


CASES = {
    "E": lambda: written(E_LABELS, E_PAIRS),
    "refused": lambda: written(E_LABELS, E_PAIRS[:-2]),
    "full": full,
}


class Refused(Exception):
    pass


def check(passes, number):
    if not passes:
        raise Refused(number)


def read(file):
    """Labels and pairs of a policy file, each check in its place."""
    check(len(file) > 0, 1)
    labels, pairs, at = [], [], 0
    while at < len(file):
        mark = file[at : at + 2]
        check(mark in (b"LB", b"OV"), 2)
        record = file[at : at + (12 if mark == b"LB" else 4)]
        check(len(record) == (12 if mark == b"LB" else 4), 3)
        if mark == b"LB":
            read_label(labels, pairs, record[2:10], int.from_bytes(record[10:], "big"))
        else:
            read_pair(labels, pairs, record[2], record[3])
        at += len(record)
    check(set(range(1, len(labels))) <= {lower for _, lower in pairs}, 10)
    return labels, pairs


def read_label(labels, pairs, name, count):
    check(not pairs, 4)
    check(len(labels) < 64, 5)
    text = name.rstrip(b" ")
    check(text and all(byte in b"ABCDEFGHIJKLMNOPQRSTUVWXYZ0123456789" for byte in text), 6)
    check(text.decode() not in [earlier for earlier, _ in labels], 7)
    labels.append((text.decode(), count))


def read_pair(labels, pairs, upper, lower):
    check(len(pairs) < 512, 5)
    check(upper < len(labels) and lower < len(labels), 8)
    check(upper < lower, 9)
    pairs.append((upper, lower))


def ordered(labels, pairs):
    """For each label the set of the labels that it is at or below."""
    at_or_above = [{m} for m in range(len(labels))]
    while True:
        before = [len(uppers) for uppers in at_or_above]
        for upper, lower in pairs:
            at_or_above[lower] |= at_or_above[upper]
        if before == [len(uppers) for uppers in at_or_above]:
            return at_or_above


def plan(labels, at_or_above):
    """The parent, weight and keys of each label in an accepted policy's plan, and the total."""

    def weight(parent, label):
        return sum(labels[l][1] for l in at_or_above[label] - at_or_above[parent])

    def parent_of(label):
        return min(at_or_above[label] - {label}, key=lambda parent: (weight(parent, label), -parent))

    parents = [None] + [parent_of(label) for label in range(1, len(labels))]
    weights = [labels[0][1]] + [weight(parents[label], label) for label in range(1, len(labels))]
    sizes = []
    for label in range(len(labels)):
        below = {m for m in range(len(labels)) if label in at_or_above[m]}
        sizes.append(len([m for m in below if m == 0 or parents[m] not in below]))
    total = sum(count * size for (_, count), size in zip(labels, sizes))
    assert total == sum(weights)
    return list(zip(parents, weights, sizes)), total


def plan_lines(labels, pairs):
    rows, total = plan(labels, ordered(labels, pairs))
    for (name, count), (parent, weight, size) in zip(labels, rows):
        yield f"{name} {'-' if parent is None else labels[parent][0]} {weight} {size} {count}\n"
    yield f"TOTAL {total}\n"


def growth_lines(labels, pairs):
    """What one more account costs at each label, planned anew, and the number of labels at or below the label."""
    at_or_above = ordered(labels, pairs)
    for label, (name, count) in enumerate(labels):
        if count == 65_535:
            yield f"{name} - -\n"
            continue
        more = labels[:label] + [(name, count + 1)] + labels[label + 1 :]
        cost = plan(more, at_or_above)[1] - plan(labels, at_or_above)[1]
        ceiling = len([m for m in range(len(labels)) if label in at_or_above[m]])
        assert 1 <= cost <= ceiling
        yield f"{name} {cost} {ceiling}\n"


def text(file, lines):
    try:
        return "".join(lines(*read(file))).encode()
    except Refused as refused:
        return f"REFUSED {refused}\n".encode()


def main():
    if len(sys.argv) != 3 or sys.argv[1] not in ("policy", "text", "growth"):
        raise SystemExit(__doc__.strip())
    what, case = sys.argv[1:]
    file = CASES[case]() if case in CASES else pathlib.Path(case).read_bytes()
    made = {"policy": file, "text": text(file, plan_lines), "growth": text(file, growth_lines)}
    if GIVEN.get(case, made["text"]) != made["text"]:
        raise SystemExit(f"{case}: {made['text']} is not what document 01 gives")
    sys.stdout.buffer.write(made[what])


if __name__ == "__main__":
    main()
