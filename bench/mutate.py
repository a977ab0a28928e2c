#!/usr/bin/env python3
"""Changes reports at random, lets two programs check them and compares what they find: mutate.py PROGRAM REFERENCE FOLDER COUNT [SEED].

The reports are those that `REFERENCE --report r16 decide` writes of the problem texts of the folder. A report is changed in one to three places: a line
is removed, doubled, or exchanged with another, a number or a polynomial in it is changed, a log is gone through in another order, or another member is
named in a reduction. Each changed report goes to `PROGRAM check` and to `REFERENCE --report r16 check`. Where both accept one, its answers are those of
the unchanged report, or those that the reference gives to the questions that stand in it.
"""
import collections
import os
import random
import re
import subprocess
import sys

SECONDS = 60


def run(words, text):
    """The status and the output of a run; none where it takes too long."""
    try:
        ran = subprocess.run(words, input=text, capture_output=True, check=False, timeout=SECONDS)
    except subprocess.TimeoutExpired:
        return None
    return ran.returncode, ran.stdout


def remove(lines, draw):
    del lines[draw.randrange(len(lines))]


def double(lines, draw):
    at = draw.randrange(len(lines))
    lines.insert(at, lines[at])


def exchange(lines, draw):
    one, other = draw.randrange(len(lines)), draw.randrange(len(lines))
    lines[one], lines[other] = lines[other], lines[one]


def exchange_neighbours(lines, draw):
    at = draw.randrange(len(lines) - 1)
    lines[at], lines[at + 1] = lines[at + 1], lines[at]


def change_number(lines, draw):
    at = draw.randrange(len(lines))
    words = lines[at].split(b" ")
    numbers = [k for k, word in enumerate(words) if word.isdigit()]
    if numbers:
        k = draw.choice(numbers)
        n = int(words[k])
        words[k] = str(draw.choice([n + 1, max(n - 1, 0), 0, 1, n + 7, draw.randrange(20)])).encode()
        lines[at] = b" ".join(words)


def change_polynomial(lines, draw):
    rows = [k for k, line in enumerate(lines) if b" given " in line and re.search(rb"\([^()]+\)", line)]
    if not rows:
        return
    at = draw.choice(rows)
    vectors = list(re.finditer(rb"[(,]([^(),]+)", lines[at]))
    one = draw.choice(vectors)
    old = one.group(1)
    new = draw.choice([b"0", b"1", old + b"+1", b"2*" + old if old[:1] not in b"-" else old, old + b"-" + old.lstrip(b"-") + b"+" + old, old + b"^2" if old.isalpha() else old + b"+" + old])
    lines[at] = lines[at][: one.start(1)] + new + lines[at][one.end(1) :]


def change_answer(lines, draw):
    rows = [k for k, line in enumerate(lines) if line.startswith(b"answer ")]
    if rows:
        at = draw.choice(rows)
        lines[at] = lines[at].replace(b"yes", b"?").replace(b"no", b"yes").replace(b"?", b"no") if draw.random() < 0.7 else b"unanswered budget chain 1"


def log_entries(lines, draw):
    """The places of the entries of one log."""
    begins = [k for k, line in enumerate(lines) if line.startswith(b"log ")]
    if not begins:
        return range(0)
    first = draw.choice(begins) + 1
    last = first
    while last < len(lines) and lines[last] != b"end":
        last += 1
    return range(first, last)


def reorder_log(lines, draw):
    places = log_entries(lines, draw)
    entries = [lines[k] for k in places]
    draw.shuffle(entries)
    for k, entry in zip(places, entries):
        lines[k] = entry


def rename_reducer(lines, draw):
    places = [k for k in log_entries(lines, draw) if b" by " in lines[k]]
    if places:
        at = draw.choice(places)
        words = lines[at].split(b" ")
        by = [k for k in range(words.index(b"by") + 1, len(words)) if words[k].isdigit()]
        if by:
            words[draw.choice(by)] = str(draw.randrange(1, 9)).encode()
            lines[at] = b" ".join(words)


CHANGES = [remove, double, exchange, exchange_neighbours, change_number, change_number, change_polynomial, change_answer, reorder_log, rename_reducer]


def ends(report):
    """The questions of a report with their ends."""
    lines = report.split(b"\n")
    found = []
    for one, other in zip(lines, lines[1:]):
        if one.startswith(b"query "):
            found.append((one, other))
    return found


def problem_of(report):
    """The problem text of a report's head and questions."""
    lines = report.split(b"\n")
    head = [line for line in lines if line.split(b" ")[0] in (b"ring", b"order", b"ideal")]
    asked = [line.split(b" ", 2)[2] for line in lines if line.startswith(b"query ")]
    return b"\n".join(head + asked) + b"\n"


def is_true(report, unchanged, reference):
    """Whether the answers of an accepted report are those of the unchanged one, or those that the reference gives."""
    told = ends(report)
    if all(it in ends(unchanged) for it in told):
        return True
    ran = run([reference, "--report", "r16", "decide"], problem_of(report))
    expected = [end for _, end in ends(ran[1])] if ran else []
    return len(expected) == len(told) and all(
        end == own or not end.startswith(b"answer") for (_, end), own in zip(told, expected)
    )


def main():
    program, reference, folder, count = sys.argv[1:5]
    draw = random.Random(int(sys.argv[5]) if len(sys.argv) > 5 else 1)
    reports = []
    for name in sorted(os.listdir(folder)):
        with open(f"{folder}/{name}", "rb") as file:
            ran = run([reference, "--report", "r16", "decide"], file.read())
        if ran and ran[0] in (0, 3) and len(ran[1]) < 200_000:
            reports.append(ran[1])
    counts = collections.Counter()
    for _ in range(int(count)):
        unchanged = draw.choice(reports)
        lines = unchanged.split(b"\n")[:-1]
        for _ in range(draw.choice([1, 1, 1, 2, 3])):
            draw.choice(CHANGES)(lines, draw)
        text = b"\n".join(lines) + b"\n"
        ours, theirs = run([program, "check"], text), run([reference, "--report", "r16", "check"], text)
        if ours is None or theirs is None:
            counts["passed over"] += 1
        elif ours != theirs:
            counts["different"] += 1
            with open(f"/tmp/different-{counts['different']}.txt", "wb") as file:
                file.write(text)
            print(f"DIFFERENT: {ours} and {theirs}", flush=True)
        else:
            counts["same"] += 1
            counts[ours[1].decode().split()[-1] if ours[0] == 1 else f"status {ours[0]}"] += 1
            if ours[0] == 0:
                true = text == unchanged or is_true(text, unchanged, reference)
                counts["accepted and true" if true else "accepted and OTHER"] += 1
                if not true:
                    with open(f"/tmp/other-{counts['accepted and OTHER']}.txt", "wb") as file:
                        file.write(text)
    print(", ".join(f"{word} {number}" for word, number in sorted(counts.items())))
    sys.exit(counts["different"] > 0 or counts["accepted and OTHER"] > 0)


if __name__ == "__main__":
    main()
