#!/usr/bin/env python3
"""Writes the cases of `syntax_suite`: rewrites_from_cases.py FILE [COUNT] > specs/Cases.antt

FILE has one case a line, as JSON: trees by number from 1 on, the first being the edited one (a leaf is
[kind, text], a node [kind, [children]]), mapping, changes, verdict, and, where it is accepted, tree, changed, origins,
kept and orders. The COUNT first cases are taken that are no longer than 900 bytes; 120 if it is not given.
"""
import json
import sys

KINDS = {"X": 1, "Y": 2, "Z": 3, "T": 4, "U": 5}


def listed(items):
    return "(" + " ∷ ".join(items + ["[]"]) + ")" if items else "[]"


def numbers(path):
    return listed([str(n) for n in path])


def forest(terms):
    out = "o"
    for kind, inner in reversed(terms):
        if isinstance(inner, str):
            out = f"(t {KINDS[kind]} {numbers(inner.encode())} {out})"
        else:
            out = f"(n {KINDS[kind]} {forest(inner)} {out})"
    return out


def tree(term):
    return f"(r {KINDS[term[0]]} {forest(term[1])})"


def reference(at):
    return f"({at[0]}, {numbers(at[1])})"


def change(recorded):
    (kind, c), = recorded.items()
    new = listed([reference(e) for e in c["new"]])
    if kind == "insert":
        return f"into {numbers(c['parent'])} {c['index']} {new}"
    single = "true" if c["single"] else "false"
    if c["parent"] is None:
        return f"over_root {new} {single}"
    return f"over {numbers(c['parent'])} {c['first']} {c['last']} {new} {single}"


def outcome(case):
    if case["verdict"] == "Intersecting":
        return "intersecting"
    if case["verdict"] == "MissingMapping":
        return "missing"
    orders = "None"
    if "orders" in case:
        orders = "(Some " + listed([numbers(o) for o in case["orders"]]) + ")"
    changed = listed([numbers(p) for p in case["changed"]])
    origins = listed([reference(e) for e in case["origins"]])
    return f"accepted {forest([case['tree']])} {changed} {origins} {case['kept']} {orders}"


def main():
    count = int(sys.argv[2]) if len(sys.argv) > 2 else 120
    lines = [line for line in open(sys.argv[1], encoding="utf-8") if len(line) <= 900][:count]
    print("-- Cases of a reference implementation of a rewrite, over random trees. Written by bench/rewrites_from_cases.py.")
    print("use Rattle.std.specs.Prelude.{ℕ, List, [], ◌∷◌, Some, None, true, false}")
    print("use Rattle.rowan_green.specs.Forest.{Forest, empty, node, leaf, Tree}")
    print("use Rattle.syntax_suite.specs.Case.{Case, into, over, over_root, intersecting, missing, accepted}")
    print()
    print("abbrev n : ℕ → Forest → Forest → Forest\nn k f r = node k f r\n")
    print("abbrev t : ℕ → List ℕ → Forest → Forest\nt k s r = leaf (record { kind = k; text = s }) r\n")
    print("abbrev o : Forest\no = empty\n")
    print("abbrev r : ℕ → Forest → Tree\nr k f = record { kind = k; forest = f }\n")
    names = []
    for number, line in enumerate(lines):
        case = json.loads(line)
        name = f"case_{number}"
        names.append(name)
        trees = listed([tree(t) for _, t in case["trees"]])
        mapping = listed([f"({reference(a)}, {reference(b)})" for a, b in case["mapping"]])
        changes = listed([change(c) for c in case["changes"]])
        print(f"abbrev {name} : Case")
        print(f"{name} = record {{ trees = {trees}; mapping = {mapping}; changes = {changes}; outcome = {outcome(case)} }}\n")
    print("abbrev pub cases : List Case")
    print("cases = " + " ∷ ".join(names + ["[]"]))


main()
