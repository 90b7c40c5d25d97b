#!/usr/bin/env python3
"""Runs the proved program on every prefix of the examples and on 10,000 mutated inputs.

It demands a named answer each time: one of the texts of the command, with its exit status.
Where an answer names the place of a syntax fault, it demands more: the place is within the input,
and the same input cut there, or one byte after it, tells of the same place or goes on.
Seeds are fixed. Usage, after ./ff prove: scripts/mutations.py [NUMBER]. Needs Python 3.8.
"""
import random
import re
import subprocess
import sys
from concurrent.futures import ThreadPoolExecutor
from pathlib import Path

TOP = Path(__file__).resolve().parent.parent
PROGRAM = subprocess.run([TOP / "ff", "where"], capture_output=True, text=True).stdout.strip()
if not PROGRAM:
    sys.exit("there is no proved program: call ./ff prove")
ALPHABET = b"0123456789xyXYUVpfg+-*^()/ \t\r\n" + bytes([0, 33, 65, 122, 200, 255])
FAULTS = [
    (1, re.compile(rb"bad input: syntax at [0-9]+\n")),
    (1, re.compile(rb"bad input: p is not in the table\n")),
    (1, re.compile(rb"bad input: equation [12] has no y\n")),
    (1, re.compile(rb"bad input: denominator of [XYUV] is zero\n")),
    (3, re.compile(rb"limit: degree of (equation [12]|[XYUV])\n")),
    (3, re.compile(rb"limit: input longer than 65536 bytes\n")),
]
POLY = rb"[0-9xy^*+]+"
ELEM = rb"(?:%b|\(%b\)/\([0-9x^*+]+\))" % (POLY, POLY)
LINES = rb"(?:X=%b; Y=%b; U=%b; V=%b\n)*" % (ELEM, ELEM, ELEM, ELEM)
REDUCIBLE = rb"is reducible: \(%b\)\*\(%b\)" % (POLY, POLY)
REFUSALS = [
    (2, re.compile(rb"premise: equation [12] (is inseparable in y|%b)\n" % REDUCIBLE)),
    (2, re.compile(rb"premise: the first field has no rational place\n")),
    (2, re.compile(rb"premise: the genus is [01]\n")),
    (3, re.compile(rb"limit: no pole system within 1200\n")),
]
ANSWERS = {
    "iso": [*FAULTS, *REFUSALS, (0, re.compile(rb"isomorphisms: [0-9]+\n" + LINES))],
    "aut": [*FAULTS, *REFUSALS, (0, re.compile(rb"automorphisms: [0-9]+\n" + LINES))],
    "check": [*FAULTS, (0, re.compile(rb"(yes|no)\n"))],
    "order": [
        *FAULTS,
        (0, re.compile(rb"finite: [0-9]+\n(?:%b\n)*infinite: [0-9]+\n(?:%b\n)*" % (ELEM, ELEM))),
        (2, re.compile(rb"premise: equation 1 is inseparable in y\n")),
        (2, re.compile(rb"premise: equation 1 %b\n" % REDUCIBLE)),
    ],
}


def run(form, data):
    done = subprocess.run([PROGRAM, form], input=data, capture_output=True, timeout=60)
    return done.returncode, done.stdout, done.stderr


def place(text):
    found = re.fullmatch(rb"bad input: syntax at ([0-9]+)\n", text)
    return int(found.group(1)) if found else None


def complaint(case):
    """What is wrong with the answer to an input, or None."""
    form, data = case
    try:
        status, text, errors = run(form, data)
    except subprocess.TimeoutExpired:
        # A list of a large genus over a large field takes longer: nothing is said of it.
        return None if form in ("iso", "aut") else "no answer within a minute"
    answers = ANSWERS[form]
    if errors or not any(status == wanted and it.fullmatch(text) for wanted, it in answers):
        return f"status {status}, answer {text!r}, errors {errors!r}"
    at = place(text)
    if at is None:
        return None
    if at > len(data):
        return f"place {at} is past the end"
    # Some text begins with the first `at` bytes, so what is wrong with them is at most their end.
    prefix = place(run(form, data[:at])[1])
    if prefix is not None and prefix != at:
        return f"the first {at} bytes are refused at {prefix}"
    # No text begins with one byte more.
    if at < len(data) and place(run(form, data[: at + 1])[1]) != at:
        return f"the first {at + 1} bytes are not refused at {at}"
    return None


def mutated(source, cases):
    form, text = source.choice(cases)
    texts = [text for _, text in cases]
    data = bytearray(text)
    for _ in range(source.randint(1, 4)):
        at = source.randrange(len(data) + 1)
        kind = source.randrange(4)
        if kind == 0:
            data.insert(at, source.choice(ALPHABET))
        elif kind == 1 and at < len(data):
            del data[at : at + source.randint(1, 3)]
        elif kind == 2 and at < len(data):
            data[at] = source.choice(ALPHABET)
        else:
            other = source.choice(texts)
            start = source.randrange(len(other))
            data[at:at] = other[start : start + source.randint(1, 12)]
    return form, bytes(data)


def main():
    number = int(sys.argv[1]) if len(sys.argv) > 1 else 10000
    paths = sorted((TOP / "examples").glob("*.txt"))
    cases = [(re.split("[-.]", path.name)[0], path.read_bytes()) for path in paths]
    source = random.Random(20261201)
    inputs = [(form, text[:n]) for form, text in cases for n in range(len(text) + 1)]
    prefixes = len(inputs)
    inputs += [mutated(source, cases) for _ in range(number)]
    wrong = 0
    with ThreadPoolExecutor(4) as pool:
        for (form, data), trouble in zip(inputs, pool.map(complaint, inputs)):
            if trouble:
                wrong += 1
                print(f"{form} {data!r}: {trouble}")
    print(f"{prefixes} prefixes and {number} mutated inputs: {wrong} without a named answer")
    sys.exit(1 if wrong else 0)


if __name__ == "__main__":
    main()
