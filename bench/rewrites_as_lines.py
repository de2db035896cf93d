#!/usr/bin/env python3
"""Writes the input of `syntax_suite`: rewrites_as_lines.py FILE > crates/syntax_suite/stdin

FILE is as `rewrites_from_cases.py` says. Here a tree is a list of signs, [kind] where a node begins, [] where it ends,
[kind, text] a leaf; and what changed are the bytes of its elements in place of their paths.
"""
import json
import sys

KINDS = {"X": 1, "Y": 2, "Z": 3, "T": 4, "U": 5}


def signs(term):
    kind, inner = term
    if isinstance(inner, str):
        return [[KINDS[kind], inner]]
    return [[KINDS[kind]]] + [s for child in inner for s in signs(child)] + [[]]


def length(term):
    inner = term[1]
    return len(inner.encode()) if isinstance(inner, str) else sum(length(child) for child in inner)


def bytes_at(term, path):
    start = 0
    for number in path:
        start += sum(length(child) for child in term[1][:number])
        term = term[1][number]
    return [start, start + length(term)]


def main():
    for line in open(sys.argv[1], encoding="utf-8"):
        case = json.loads(line)
        case["trees"] = [signs(tree) for _, tree in case["trees"]]
        if case["verdict"] == "accepted":
            case["changed"] = [bytes_at(case["tree"], path) for path in case["changed"]]
            case["tree"] = signs(case["tree"])
        print(json.dumps(case, ensure_ascii=False, separators=(",", ":")))


main()
