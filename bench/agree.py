#!/usr/bin/env python3
"""Runs two programs on the same problem texts and compares what they write and how they end: agree.py PROGRAM REFERENCE FOLDER [BUDGET ..].

PROGRAM is called as `PROGRAM decide --budget N` and REFERENCE as `REFERENCE --report r16 decide --budget N`, for each text of the folder and each
budget (60, 600 and 20,000 where none is given). Each report is then given to `PROGRAM check`, and to `REFERENCE --report r16 check` where that does not
accept it. A text on which one of them takes more than a minute is told and passed over.
"""
import collections
import os
import subprocess
import sys

BUDGETS = ["60", "600", "20000"]
SECONDS = 60


def outcome(words, text):
    """The status and the bytes of a run; none where it takes too long."""
    try:
        ran = subprocess.run(words, input=text, capture_output=True, check=False, timeout=SECONDS)
    except subprocess.TimeoutExpired:
        return None
    return ran.returncode, ran.stdout


def checked(program, reference, report):
    """How a report is checked: accepted, refused alike by both programs, or told differently."""
    ours = outcome([program, "check"], report)
    if ours is not None and ours[0] == 0:
        return "accepted"
    return "refused alike" if ours == outcome([reference, "--report", "r16", "check"], report) else "CHECKED DIFFERENTLY"


def count_ends(report, ends):
    """Counts how the queries of a report end, by their first words."""
    question = b""
    for line in report.splitlines():
        words = line.split()
        if words[:1] == [b"query"]:
            question = words[2]
        if words and words[0] in (b"answer", b"unanswered", b"refused"):
            ends[(question + b" " + words[0]).decode()] += 1


def main():
    program, reference, folder = sys.argv[1:4]
    budgets = sys.argv[4:] or BUDGETS
    counts = collections.Counter()
    ends = collections.Counter()
    for name in sorted(os.listdir(folder), key=lambda name: (len(name), name)):
        with open(f"{folder}/{name}", "rb") as file:
            text = file.read()
        for budget in budgets:
            ours = outcome([program, "decide", "--budget", budget], text)
            theirs = outcome([reference, "--report", "r16", "decide", "--budget", budget], text)
            if ours is None or theirs is None:
                counts["passed over"] += 1
                print(f"{name} with {budget} units: more than {SECONDS} s", flush=True)
            elif ours == theirs:
                counts["same"] += 1
                counts[f"status {ours[0]}"] += 1
                count_ends(ours[1], ends)
                if ours[0] in (0, 3):
                    counts[checked(program, reference, ours[1])] += 1
            else:
                counts["different"] += 1
                print(f"{name} with {budget} units: DIFFERENT, status {ours[0]} and {theirs[0]}", flush=True)
    print(", ".join(f"{word} {count}" for word, count in sorted(counts.items())))
    print(", ".join(f"{word} {count}" for word, count in sorted(ends.items())))
    sys.exit(counts["different"] + counts["CHECKED DIFFERENTLY"] > 0)


if __name__ == "__main__":
    main()
