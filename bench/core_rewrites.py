#!/usr/bin/env python3
"""Rewrites files of the core language at random, with whitespace between all tokens, through a built document_tool, and counts the
refused. Each has to be accepted.

    bench/core_rewrites.py [--count N] [--seed N] PROGRAM

A file is a row of structs, modules and functions. A rewrite replaces one to all of its paths and literals that are expressions, its
paths that are types, and its names; what is put in has whitespace between its tokens too. For each accepted one the changed ranges
are compared with those that the new texts give.
"""
import argparse
import json
import random
import subprocess

EDITIONS = ("2015", "2018", "2021", "2024", "next")
FILES_A_RUN = 100
NAMES = ("a", "b", "foo", "x1", "é", "名", "_a", "Tee", "r#fn", "r#match", "x" * 30)
LITERALS = ("1", "0x1f", "1_000u64", "1.5", "2e3", "1.", '"a"', '"a b // c"', "'a'", "b'a'", 'b"a"', 'r"a"', 'r#"a"b"#', "true", "false",
            '"' + "é" * 20 + '"', "'\\n'", "1.0f32")
SPACES = (" ", " ", " ", "  ", "\n", "\t", "\r\n", "\u2028", "\u200e", "\n    ")
BINARY = ((4, "||"), (5, "&&"), (6, "=="), (6, "!="), (6, "<"), (6, ">"), (6, "<="), (6, ">="), (7, "|"), (8, "^"), (9, "&"), (10, "<<"),
          (10, ">>"), (11, "+"), (11, "-"), (12, "*"), (12, "/"), (12, "%"))
ASSIGNMENTS = ("=", "+=", "-=", "*=", "/=", "%=", "&=", "|=", "^=", "<<=", ">>=")
PATH, TYPE, LITERAL, NAME = "PATH_EXPR", "PATH_TYPE", "LITERAL", "IDENT"
DEPTH = 4


class Maker:
    """Writes texts of the core language: lists of tokens, and of nodes that can be replaced, each a kind and its first and last token."""

    def __init__(self, source, edition):
        self.source, self.edition, self.tokens, self.nodes = source, edition, [], []

    def maybe(self, chance=0.5):
        return self.source.random() < chance

    def put(self, *tokens):
        self.tokens += tokens

    def node(self, kind, *tokens):
        self.nodes.append((kind, len(self.tokens), len(self.tokens) + len(tokens)))
        self.put(*tokens)

    def path(self, kind):
        words = [self.source.choice(NAMES)]
        while self.maybe(0.2):
            words += ["::", self.source.choice(NAMES)]
        self.node(kind, *words)

    def comma_separated(self, item, most=3):
        count = self.source.randrange(most + 1)
        for at in range(count):
            item()
            if at + 1 < count or self.maybe(0.3):
                self.put(",")

    def type(self, depth=2):
        form = self.source.randrange(4) if depth else 0
        if form == 1:
            self.put("&", *(["mut"] if self.maybe() else []))
            self.type(depth - 1)
        elif form == 2:
            self.put("[")
            self.type(depth - 1)
            self.put("]")
        else:
            self.path(TYPE)

    def atom(self, depth, is_called=False):
        """An expression of level 15."""
        form = self.source.randrange(7) if depth else self.source.randrange(2)
        if form == 0:
            self.path(PATH)
        elif form == 1:
            self.node(LITERAL, self.source.choice(LITERALS))
        elif form in (2, 3):
            self.put("(")
            self.expression(depth - 1, 1)
            self.put(")")
        elif form == 4:
            self.atom(depth - 1, is_called=True)
            self.put("(")
            self.comma_separated(lambda: self.expression(depth - 1, 1))
            self.put(")")
        elif form == 5 or is_called:
            self.atom(depth - 1)
            self.put(".", self.source.choice(NAMES), "(")
            self.comma_separated(lambda: self.expression(depth - 1, 1))
            self.put(")")
        else:
            self.atom(depth - 1)
            self.put(".", self.source.choice(NAMES))

    def expression(self, depth, least):
        """An expression of at least a level."""
        form = self.source.randrange(5) if depth else 0
        fitting = [row for row in BINARY + (((2, "|>"),) if self.edition == "next" else ()) if row[0] >= least]
        if form in (1, 2) and fitting:
            power, mark = self.source.choice(fitting)
            # Comparisons are not chained.
            self.expression(depth - 1, power + 1 if power == 6 else power)
            self.put(mark)
            self.expression(depth - 1, power + 1)
        elif form == 3 and least <= 14:
            self.put(*self.source.choice((("-",), ("!",), ("*",), ("&",), ("&", "mut"))))
            self.expression(depth - 1, 14)
        elif form == 4 and least == 1:
            self.expression(depth - 1, 2)
            self.put(self.source.choice(ASSIGNMENTS))
            self.expression(depth - 1, 1)
        else:
            self.atom(depth)

    def block(self, depth):
        self.put("{")
        for _ in range(self.source.randrange(4)):
            form = self.source.randrange(4)
            if form == 0:
                self.put("let", *(["mut"] if self.maybe(0.3) else []), self.source.choice(NAMES))
                if self.maybe():
                    self.put(":")
                    self.type()
                if self.maybe():
                    self.put("=")
                    self.expression(DEPTH, 1)
                self.put(";")
            elif form == 1 and depth and self.edition == "next":
                self.put("defer")
                self.block(depth - 1)
            else:
                self.expression(DEPTH, 1)
                self.put(";")
        if self.maybe():
            self.expression(DEPTH, 1)
        self.put("}")

    def parameter(self):
        self.put(*(["mut"] if self.maybe(0.2) else []), self.source.choice(NAMES), ":")
        self.type()

    def field(self):
        self.put(*(["pub"] if self.maybe(0.3) else []), self.source.choice(NAMES), ":")
        self.type()

    def item(self, depth):
        self.put(*(["pub"] if self.maybe(0.3) else []))
        form = self.source.randrange(6)
        name = self.source.choice(NAMES)
        if form == 0:
            self.put("struct", name, ";")
        elif form == 1:
            self.put("struct", name, "{")
            self.comma_separated(self.field)
            self.put("}")
        elif form == 2 and depth:
            self.put("mod", name, "{")
            self.items(depth - 1)
            self.put("}")
        else:
            self.put("fn", name, "(")
            self.comma_separated(self.parameter)
            self.put(")")
            if self.maybe():
                self.put("->")
                self.type()
            self.block(1)

    def items(self, depth):
        for _ in range(self.source.randrange(1, 4)):
            self.item(depth)

    def text(self):
        """Returns the text, and where each token begins and ends, in bytes."""
        text, places = "", []
        for token in self.tokens:
            text += self.source.choice(SPACES) if places or self.maybe(0.2) else ""
            start = len(text.encode())
            text += token
            places.append((start, len(text.encode())))
        return text + self.source.choice(("", *SPACES)), places


def replacement(source, edition, kind):
    """Returns the entry and the text that take the place of a node."""
    made = Maker(source, edition)
    if kind == NAME:
        return "token", source.choice(NAMES)
    if kind == TYPE:
        made.type()
        entry = "type"
    else:
        # Level 15 fits wherever a path or a literal does; what is called is no field.
        made.atom(2, is_called=True)
        entry = "expr"
    text, _ = made.text()
    return entry, text.strip("".join(SPACES))


def rewrite(source, edition):
    """Returns a text, the command that rewrites it, the ranges that change and how much longer it gets."""
    made = Maker(source, edition)
    made.items(2)
    text, places = made.text()
    inside = {at for _, first, end in made.nodes for at in range(first, end)}
    names = [(NAME, at, at + 1) for at, token in enumerate(made.tokens) if token in NAMES and at not in inside]
    nodes = sorted(made.nodes + names, key=lambda node: node[1])
    chosen = sorted(source.sample(nodes, source.choice((1, source.randint(1, len(nodes)), len(nodes)))), key=lambda node: node[1])
    changes, ranges, shift = [], [], 0
    for kind, first, end in chosen:
        start, stop = places[first][0], places[end - 1][1]
        entry, new = replacement(source, edition, kind)
        changes.append({"op": "replace", "at": [kind, start, stop], "with": [entry, new]})
        size = len(new.encode())
        ranges.append([start + shift, start + shift + size])
        shift += size - (stop - start)
    source.shuffle(changes)
    return text, {"do": "commit", "changes": changes}, ranges, shift


def run(program, source, edition):
    """Does some rewrites. Returns how many were refused or changed other ranges, with the cases."""
    rows = [rewrite(source, edition) for _ in range(FILES_A_RUN)]
    commands, length = [], 0
    for text, commit, _, shift in rows:
        commands += [{"do": "edit", "start": 0, "end": length, "text": text}, {"do": "errors"}, commit, {"do": "errors"}]
        length = len(text.encode()) + shift
    request = {"edition": edition, "text": "", "commands": commands}
    ran = subprocess.run([program], input=json.dumps(request).encode(), capture_output=True, check=True)
    replies = [json.loads(line) for line in ran.stdout.split(b"\n")[: len(commands)]]
    clean = {"errors": [], "ok": "errors"}
    wrong = []
    for at, row in enumerate(rows):
        before, answer, after = replies[4 * at + 1 : 4 * at + 4]
        if (before, answer, after) != (clean, {"changed": row[2], "ok": "commit"}, clean):
            wrong.append((edition, row, before, answer, after))
    return wrong


def main():
    parser = argparse.ArgumentParser(usage=__doc__, add_help=False, allow_abbrev=False)
    parser.add_argument("--count", type=int, default=20_000)
    parser.add_argument("--seed", type=int, default=1)
    parser.add_argument("program")
    asked = parser.parse_args()
    source, count, wrong = random.Random(asked.seed), 0, []
    while count < asked.count:
        wrong += run(asked.program, source, EDITIONS[count // FILES_A_RUN % len(EDITIONS)])
        count += FILES_A_RUN
    print(f"{count} rewrites: {len(wrong)} refused, with other ranges or with messages")
    for it in wrong[:5]:
        print(*it, sep="\n  ")
    return bool(wrong)


if __name__ == "__main__":
    raise SystemExit(main())
