#!/usr/bin/env python3
"""Writes the stored run of crates/leaves_dump from files of cases.

Each line of a file is a JSON object: an edition, a text, its leaves (kind, start and end in bytes), what is wrong with them
(where the leaf starts, and a message), and the parser's input (kind, contextual kind, joint). The cases were computed by a
slow reader of the rules that shares no code with this project.

usage: leaves_from_cases.py CRATE CASES..
"""
import sys

import stored_run


TRIVIA = ("WHITESPACE", "COMMENT")


def line(leaf, tokens):
    """Returns the line of a leaf, and takes its token from those that are left."""
    kind, _, end = leaf
    words = [kind, str(end)]
    if kind not in TRIVIA:
        of_token, contextual, joint = next(tokens)
        words += ["input", of_token] if of_token != kind else []
        words += [contextual] if contextual != ("IDENT" if of_token == "IDENT" else "EOF") else []
        words += ["joint"] if joint else []
    return " ".join(words) + "\n"


def answer(case):
    numbers = {start: number for number, (_, start, _) in enumerate(case["leaves"])}
    tokens = iter(case["input"])
    leaves = [line(leaf, tokens) for leaf in case["leaves"]]
    errors = [f"{numbers[start]} {message}\n" for start, message in case["messages"]]
    return "".join([*leaves, f"{len(case['input'])} tokens\n", *errors, "\n"])


def main(crate, *paths):
    records, answers = [], []
    for path in paths:
        for case in stored_run.cases(path):
            records.append(case["edition"][-1] + case["text"])
            answers.append(answer(case))
    stored_run.write(crate, records, answers)


if __name__ == "__main__":
    main(*sys.argv[1:])
