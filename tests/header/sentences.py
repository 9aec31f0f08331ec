"""Holds the DSSS_REFUSED_ constants and dsss_sentence of include/dsss.h to the table of refusals.

  sentences.py PROGRAM [RULES]   PROGRAM is header.c, built; RULES is docs/RULES.md if not given

RULES has a table with a row "| number | given exactly when |" for each refusal. The numbers must be
those of the constants, which rise from 1. Each number must have a sentence of its own, and share
more words with its own row than with any other, so that two exchanged sentences are found. 0 has a
sentence of its own, and all numbers that are no refusal have another in common.
"""
import re
import subprocess
import sys

HEADER = "include/dsss.h"
UNKNOWN = [255, 256 + 9, 2**32, 2**32 + 9, 2**63, 2**64 - 1]


def tables(path):
    """Each table whose rows begin with a number, as number -> the rest of the row."""
    found, rows = [], {}
    with open(path, encoding="utf-8") as file:
        for line in list(file) + [""]:
            match = re.match(r"\|\s*(\d+)\s*\|(.*)\|\s*$", line)
            if match:
                rows[int(match[1])] = match[2]
            elif not line.startswith("|") and rows:
                found.append(rows)
                rows = {}
    return found


def table_of_refusals(path, numbers):
    """The table with just these numbers."""
    for rows in tables(path):
        if sorted(rows) == numbers:
            return rows
    sys.exit(f"sentences: {path} has no table with the rows {numbers[0]} to {numbers[-1]}, "
             f"only with {[sorted(rows) for rows in tables(path)]}")


def constants(path):
    """The number of each refusal, in the header's order."""
    with open(path, encoding="utf-8") as file:
        found = re.findall(r"^#define\s+DSSS_REFUSED_\w+\s+(\d+)\b", file.read(), re.M)
    return [int(number) for number in found]


def words(text):
    """The words of a text that say something."""
    idle = {"the", "a", "an", "is", "of", "or", "in", "that", "this", "not"}
    return set(re.findall(r"[a-z0-9.,/]*[a-z0-9]", text.lower())) - idle


def nearest(sentence, rows):
    """The number whose row shares most with the sentence, for its length; the first of several."""
    def likeness(number):
        common = len(words(sentence) & words(rows[number]))
        return common / len(words(sentence) | words(rows[number]))
    return max(sorted(rows), key=likeness)


def sentences(program, numbers):
    said = subprocess.run([program] + [str(number) for number in numbers], check=True,
                          capture_output=True, text=True).stdout.splitlines()
    if len(said) != len(numbers):
        sys.exit("sentences: not one line a number")
    return dict(zip(numbers, said))


def main(program, rules="docs/RULES.md"):
    numbers = constants(HEADER)
    if not numbers or numbers[0] != 1 or numbers != sorted(set(numbers)):
        sys.exit(f"sentences: the constants are {numbers}, which do not rise from 1")
    rows, faults = table_of_refusals(rules, numbers), []
    past = numbers[-1] + 1
    unknown = [past] + UNKNOWN + sorted(set(range(1, past)) - set(numbers))
    said = sentences(program, [0] + numbers + unknown)
    own = [said[number] for number in [0] + numbers + [past]]
    if len(set(own)) != len(own):
        faults.append("two numbers have one sentence")
    if any(not re.fullmatch(r"[A-Z].*\.", sentence) for sentence in own):
        faults.append("a sentence is empty, or has no capital or full stop")
    if any(said[number] != said[past] for number in unknown):
        faults.append("numbers without a refusal have different sentences")
    for number in numbers:
        if nearest(said[number], rows) != number:
            faults.append(f"sentence {number}, \"{said[number]}\", is nearer to row "
                          f"{nearest(said[number], rows)} of {rules} than to its own")
    for fault in faults:
        print(f"sentences: {fault}", file=sys.stderr)
    if not faults:
        print(f"sentences: {len(numbers)} refusals, each with a constant and its sentence")
    return 1 if faults else 0


if __name__ == "__main__":
    if not 2 <= len(sys.argv) <= 3:
        sys.exit("usage: sentences.py PROGRAM [RULES]")
    try:
        sys.exit(main(*sys.argv[1:]))
    except OSError as fault:
        sys.exit(f"sentences: {fault}")
