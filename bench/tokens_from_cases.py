#!/usr/bin/env python3
"""Writes the stored run of crates/token_dump from a file of cases.

Each line of the file is a JSON object: a text, and its tokens as lists of kind, fields and length in bytes. A literal's own
kind stands under "literal". The cases were computed by a slow reader of the grammar that shares no code with this project.

usage: tokens_from_cases.py CASES CRATE
"""
import sys

import stored_run


def show(value):
    if value is None:
        return "None"
    if isinstance(value, bool):
        return str(value).lower()
    return str(value)


def fields(pairs):
    return " { " + ", ".join(f"{name}: {text}" for name, text in pairs) + " }" if pairs else ""


LITERAL_FIELDS = ("base", "empty_int", "empty_exponent", "terminated", "n_hashes")


def literal(found):
    pairs = []
    for name in LITERAL_FIELDS:
        if name in found:
            value = found[name]
            text = f"Some({value})" if name == "n_hashes" and value is not None else show(value)
            pairs.append((name, text))
    return found["literal"] + fields(pairs)


def kind(name, found):
    if name == "Literal":
        return name + fields([("kind", literal(found)), ("suffix_start", found["suffix_start"])])
    pairs = []
    for field in ("doc_style", "terminated", "starts_with_number"):
        if field in found:
            value = found[field]
            text = f"Some({value})" if field == "doc_style" and value is not None else show(value)
            pairs.append((field, text))
    return name + fields(pairs)


def main(path, crate):
    records, answers = [], []
    for case in stored_run.cases(path):
        records.append(case["text"])
        answers.extend(f"{kind(name, found)} {length}\n" for name, found, length in case["tokens"])
        answers.append("\n")
    stored_run.write(crate, records, answers)


if __name__ == "__main__":
    main(sys.argv[1], sys.argv[2])
