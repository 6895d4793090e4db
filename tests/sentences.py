#!/usr/bin/env python3
"""Counts habits that make pages and comments hard to read, by sentences. tests/test_pages.py has them stay below their
limits.

usage: tests/sentences.py N FILE..

It prints the N sentences of these files with the most findings.
"""
import collections
import pathlib
import re
import sys

# The most findings in 1,000 words, and the words that count.
LIMITS = {"where": 3, "what": 3, "who": 0.5, "such": 2, "fronted": 1.5, "long": 2, "codes": 4, "private": 3}
WORDS = {
    "where": r"\bwhere\b",
    "what": r"\bwhat\b",
    "who": r"\b(who|whoever)\b",
    "such": r"\b(such|the same)\b",
    "private": r"\b(stands? (in|on|for|behind|beside|there)|lies? (in|on|below|above)|tells?|told|judged?|keeps?|kept"
    r"|own|one another|owes?|owed|alone)\b",
}
FRONTED = re.compile(r"(Of|In no|What|Who|Whose|Else|Nor|Behind|Beside|By|Under|Tested is|Measured is|Left) ")
MOST_WORDS, MOST_CODES = 28, 2


def prose_of(name, text):
    """The paragraphs of a page, or of the comments of a header, without code, tables and headings."""
    if not name.endswith(".md"):
        lines = [re.match(r"\s*(?:/\*+|\*|//[/!]?|--)\s?(.*?)(?:\*/)?$", line) for line in text.split("\n")]
        text = "\n".join(f" {line[1]}" if line and not line[1].startswith("  ") else "" for line in lines)
    text = re.sub(r"^\s*```.*?^\s*```$", "", text, flags=re.M | re.S)
    text = re.sub(r"^(    |\||#|!\[|<).*$", "", text, flags=re.M)
    text = re.sub(r"^\s*([-*]|\d+\.)\s+", "\n", text, flags=re.M)
    return [" ".join(it.split()) for it in re.split(r"\n\s*\n", text) if it.strip()]


def sentences(name, text):
    ends = r"(?<=\w[.!?]|[)`*\"][.!?])\s+|(?<=[:;])\s+(?=[A-Z`*(])"
    return [it for paragraph in prose_of(name, text) for it in re.split(ends, paragraph)]


def findings(sentence):
    """The number of words of a sentence, and of each habit in it."""
    plain = re.sub(r"`[^`]*`|\]\([^)]*\)", " code ", sentence)
    found = {habit: len(re.findall(words, plain, re.I)) for habit, words in WORDS.items()}
    found["fronted"] = int(bool(FRONTED.match(sentence)))
    found["long"] = int(len(plain.split()) > MOST_WORDS)
    found["codes"] = int(sentence.count("`") > 2 * MOST_CODES)
    return len(plain.split()), found


def above_limits(name, text, skipped=frozenset()):
    """The habits of a text that are above their limits, which allow one finding more."""
    total, all_found = 0, collections.Counter()
    for sentence in sentences(name, text):
        words, found = findings(sentence)
        total, all_found = total + words, all_found + collections.Counter(found)
    return [f"{habit} {count} in {total} words" for habit, count in all_found.items()
            if habit not in skipped and count > LIMITS[habit] * total / 1000 + 1]


def main(most, *names):
    rows = [(sum(findings(it)[1].values()), name, it) for name in names
            for it in sentences(name, pathlib.Path(name).read_text())]
    for score, name, sentence in sorted(rows, reverse=True)[:int(most)]:
        print(f"{name}: {score}: {sentence[:200]}")


if __name__ == "__main__":
    sys.exit(main(*sys.argv[1:]) if sys.argv[2:] else __doc__)
