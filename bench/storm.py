#!/usr/bin/env python3
"""Sends random requests to a built document_tool, and checks each reply for what a document promises.

    bench/storm.py [--count N] [--seed N] [--jobs N] PROGRAM

A request has a text of broken pieces of Rust and one to three commands: edits, some with a range off by one, and commits of one to
three changes, some of targets that do not exist or of elements in one another. After each command the tree and the messages are asked
for. A plain model makes the changes in the tree that the program told. The checks:

- after a refused command the text, the tree and the messages are as before;
- after an accepted one the text is the model's, and the others are those of that text, opened by another run of the program;
- an edit is refused exactly if its range is none of the text;
- a commit of changes that have a place is refused exactly if its text, opened by another run, has another tree than the model's,
  whitespace and comments aside; an accepted one tells the ranges that the model inserted.
"""
import argparse
import collections
import json
import random
import re
import subprocess
from concurrent.futures import ProcessPoolExecutor

EDITIONS = ("2015", "2018", "2021", "2024", "next")
PIECES = ("fn f(a: u8) -> a { a + 1 }", "fn f() { a * 2; }", "fn f() { g(1, 2); }", "fn a( {", "struct a;", "struct a { b: c, }", "a.b.1.c",
    "impl a for b {}", "let a = b", "1.x", "'a", "'a'", "\"a\"", "\"a", "r#\"a\"#", "r#a", "// a\n", "/* a */", "/* a", "/// a\n", "#[a]", "#![a]",
    "|a| b", "a |> b", "a..b", "a = b", "match a { b => c, _ => d }", "use a::{b, c};", "mod a;", "<a as b>::c", "a & &b", "a- -b", "a as b",
    "if a { b } else { c }", "}", "{", ")", "(", "]", ";", ",", "=>", "0x", "1e", "1.0", "\\", "\0", "a", "é", "const a: b = c;", "trait T: {}",
    "defer { a }", "struct", "fn", "async", "dyn a", "where a: b", "x.0.1", "return a", "#\"a\"", "u8", "&mut a", "*a", "a!(b, c)")
FRONTS = ("#!/bin/a b\n", "#!/* a\n*/ [a", "---\na\n---\n", "--- a\nb\n", "--\n", "\ufeff")
SPACES = ("", " ", " ", "\n", "\t", "\u2028", "/**/")
PAYLOADS = (("token", "b"), ("token", "Tee"), ("token", "1"), ("token", "// c"), ("token", " "), ("token", "\n"), ("token", "struct"),
    ("token", "a b"), ("token", "("), ("expr", "1 + 2"), ("expr", "(1 + 2)"), ("expr", "b"), ("expr", "&b"), ("expr", "a = b"), ("expr", "{"),
    ("type", "u8"), ("type", "&b"), ("pattern", "_"), ("pattern", "b"), ("item", "struct U;"), ("item", "fn h() {}"), ("item", "a"),
    ("stmt", "let b = 1;"), ("stmt", "b"), ("stmt", ";"))
# The payloads that fit some kinds.
FITTING = {"IDENT": PAYLOADS[:2], "WHITESPACE": PAYLOADS[4:6], "PATH_EXPR": PAYLOADS[9:13], "LITERAL": PAYLOADS[9:13], "BIN_EXPR": PAYLOADS[9:13],
    "PATH_TYPE": PAYLOADS[15:17], "IDENT_PAT": PAYLOADS[17:19], "STRUCT": PAYLOADS[19:21], "FN": PAYLOADS[19:21], "EXPR_STMT": PAYLOADS[22:25]}
# A file around a payload, the kind of the node there that it is a child of, and its index.
AROUND = {"expr": ("const a:b={};", "CONST", 6), "type": ("const a:{}=1;", "CONST", 4), "pattern": ("fn f(){{let {}=1;}}", "LET_STMT", 2),
    "stmt": ("fn f(){{{}}}", "STMT_LIST", 1), "item": ("{}", "SOURCE_FILE", 0)}
PUTS = ("", " ", "b", "é", "1", ".", "\"", "'", "//", "/*", "*/", "(", ")", "{", "}", "#", "-", "\n", "x.0.1", "struct S;")
LINE = re.compile(r"( *)(\w+)@(\d+)\.\.(\d+)")
TREE, ERRORS = {"do": "tree"}, {"do": "errors"}
# The requests of one seed.
CHUNK = 200


class Element:
    """An element of a tree: its kind and range, its parent and its place there, and its children."""

    def __init__(self, kind, start, end, parent):
        self.kind, self.start, self.end, self.parent, self.children = kind, start, end, parent, []
        self.index = len(parent.children) if parent else 0

    def within(self):
        """Yields the element and all below it, in preorder."""
        yield self
        for child in self.children:
            yield from child.within()

    def around(self):
        """Yields the element and all around it, the innermost first."""
        at = self
        while at:
            yield at
            at = at.parent

    def term(self, data):
        """Returns the element as a term: a kind, and the bytes of a token or the terms of a node's children."""
        is_token = not self.children and self.start < self.end
        return self.kind, data[self.start : self.end] if is_token else [child.term(data) for child in self.children]


def tree_of(lines):
    """Returns the root of the tree that the program told."""
    root, open_elements = None, []
    for line in lines:
        indent, kind, start, end = LINE.fullmatch(line).groups()
        del open_elements[len(indent) // 2 :]
        parent = open_elements[-1] if open_elements else None
        element = Element(kind, int(start), int(end), parent)
        if parent:
            parent.children.append(element)
        root = root or element
        open_elements.append(element)
    return root


def found(root, target):
    """Returns the outermost element of a kind and range, if there is one."""
    return next((it for it in root.within() if [it.kind, it.start, it.end] == target and it.start < it.end), None)


def bytes_of(term):
    """Returns the text of a term."""
    return term[1] if isinstance(term[1], bytes) else b"".join(map(bytes_of, term[1]))


def bare(term):
    """Returns a term without whitespace and comments."""
    kind, inner = term
    is_token = isinstance(inner, bytes)
    return kind, inner if is_token else [bare(child) for child in inner if child[0] not in ("WHITESPACE", "COMMENT")]


class Rewriting:
    """Changes made at once in a tree: the terms that replace its elements, and those in its gaps, a parent and an index."""

    def __init__(self, root, data, changes, payload):
        self.data, self.length, self.ranges, self.gaps, self.replaced = data, 0, [], collections.defaultdict(list), {}
        for change in changes:
            term = payload(*change["with"]) if "with" in change else None
            self.add(change["op"], found(root, change["at"]), term)
        (self.term,) = self.rewritten(root)

    def add(self, op, target, term):
        """Records a change. A replacement takes the place of the one before it; a deletion stays."""
        if op in ("before", "after"):
            self.gaps[target.parent, target.index + (op == "after")].insert(0, term)
        elif op == "delete" or self.replaced.get(target, "") is not None:
            self.replaced[target] = term

    def put(self, term):
        """Returns a term that a change puts in, as a list of one."""
        start, self.length = self.length, self.length + len(bytes_of(term))
        self.ranges.append([start, self.length])
        return [term]

    def rewritten(self, element):
        """Returns the terms that an element becomes: one, or none if it is deleted."""
        if element in self.replaced:
            term = self.replaced[element]
            return self.put(term) if term else []
        if not element.children and element.start < element.end:
            self.length += element.end - element.start
            return [(element.kind, self.data[element.start : element.end])]
        terms = []
        for index in range(len(element.children) + 1):
            for term in self.gaps.get((element, index), ()):
                terms += self.put(term)
            if index < len(element.children):
                terms += self.rewritten(element.children[index])
        return [(element.kind, terms)]


def random_text(source):
    """Returns a text of up to eight pieces."""
    parts = [source.choice(FRONTS)] if source.random() < 0.1 else []
    for _ in range(source.randrange(1, 8)):
        parts += [source.choice(PIECES), source.choice(SPACES)]
    return "".join(parts)


def off_by_one(source, number):
    """Returns a number, or at times one beside it."""
    return max(0, number + source.choice((1, -1, *[0] * 20)))


def random_edit(source, data):
    """Returns an edit of a text, or of a range that is none of it."""
    start = source.randrange(len(data) + 1)
    end = min(len(data), start + source.choice((0, 0, 1, 1, 2, 5)))
    start, end = off_by_one(source, start), off_by_one(source, end)
    return {"do": "edit", "start": start, "end": end, "text": source.choice(PUTS)}


def random_target(source, element):
    """Returns the kind and range of an element, or of none."""
    kind = element.kind if source.random() < 0.97 else source.choice(("IDENT", "STRUCT", "SOURCE_FILE", "EXPR_STMT"))
    return [kind, off_by_one(source, element.start), off_by_one(source, element.end)]


def random_change(source, element):
    op = source.choice(("replace", "replace", "replace", "before", "after", "delete"))
    change = {"op": op, "at": random_target(source, element)}
    payloads = FITTING.get(element.kind, PAYLOADS) if source.random() < 0.7 else PAYLOADS
    return change if op == "delete" else {**change, "with": list(source.choice(payloads))}


def random_commit(source, elements):
    """Returns a commit of one to three changes, at times of elements in one another."""
    element, changes = source.choice(elements), []
    for _ in range(source.choice((1, 1, 1, 2, 2, 3))):
        changes.append(random_change(source, element))
        near = [*element.around()] + [*element.within()]
        element = source.choice(near if source.random() < 0.4 else elements)
    return {"do": "commit", "changes": changes}


def answers(program, edition, text, commands):
    """Returns the replies of a run, and the text at its end."""
    request = json.dumps({"edition": edition, "text": text, "commands": commands})
    ran = subprocess.run([program], input=request.encode(), capture_output=True, check=True)
    *lines, end = ran.stdout.split(b"\n", len(commands))
    return [json.loads(line) for line in lines], end


def state(program, edition, text):
    """Returns the tree and the messages of a text, opened by a run of its own."""
    (tree, errors), _ = answers(program, edition, text, [TREE, ERRORS])
    return tree["tree"], errors["errors"]


def is_range(data, start, end):
    """Returns `True` if an edit of these bytes is one of the text."""
    is_boundary = lambda at: at <= len(data) and (at == len(data) or data[at] & 0xC0 != 0x80)
    return start <= end and is_boundary(start) and is_boundary(end)


class Storm:
    """The requests of one seed: a request's later commands are made for the tree that its earlier ones left."""

    def __init__(self, program, seed):
        self.program, self.source, self.counts, self.wrong, self.payloads = program, random.Random(seed), collections.Counter(), [], {}

    def payload(self, edition, entry, text):
        """Returns the term of a payload: the only token of a file, or a child of a node of one."""
        key = edition, entry, text
        if key not in self.payloads:
            front, kind, index = AROUND.get(entry, ("{}", "", 0))
            around = front.format(text)
            elements = [*tree_of(state(self.program, edition, around)[0]).within()]
            node = next((it for it in elements if it.kind == kind), None)
            self.payloads[key] = (node.children[index] if node else elements[-1]).term(around.encode())
        return self.payloads[key]

    def request(self):
        """Sends the commands of a request one after another, each behind those before it, and checks the last reply."""
        source, edition = self.source, self.source.choice(EDITIONS)
        text, commands = random_text(source), []
        data, told = text.encode(), state(self.program, edition, text)
        for _ in range(source.choice((1, 1, 2, 3))):
            elements = [*tree_of(told[0]).within()]
            command = random_edit(source, data) if source.random() < 0.4 else random_commit(source, elements)
            commands += [command]
            replies, end = answers(self.program, edition, text, [*commands, TREE, ERRORS])
            reply, now = replies[-3], (replies[-2]["tree"], replies[-1]["errors"])
            error, data = self.checked(edition, data, command, (told, reply, now), end)
            if error:
                self.wrong.append((error, edition, text, commands, reply))
                return
            told = now

    def checked(self, edition, data, command, told, end):
        """Returns what is wrong with a reply, if something is, and the text after it."""
        before, reply, now = told
        self.counts[command["do"], reply.get("err", "ok")] += 1
        if "err" in reply and (now != before or end != data):
            return "a refused command changed something", data
        if command["do"] == "edit":
            return self.checked_edit(edition, data, command, (reply, now), end)
        if reply.get("err", "Unfaithful") != "Unfaithful":
            return "", data
        made = Rewriting(tree_of(before[0]), data, command["changes"], lambda *it: self.payload(edition, *it))
        new = bytes_of(made.term)
        reopened = state(self.program, edition, new.decode())
        is_faithful = bare(tree_of(reopened[0]).term(new)) == bare(made.term)
        if "err" in reply:
            return "a faithful rewrite was refused" if is_faithful else "", data
        if not is_faithful:
            return "an unfaithful rewrite was accepted", data
        return ("" if (reply["changed"], end, now) == (made.ranges, new, reopened) else f"the model has {new.decode()!r}, {made.ranges}"), new

    def checked_edit(self, edition, data, command, told, end):
        """Returns what is wrong with the reply to an edit, if something is, and the text after it."""
        start, stop, (reply, now) = command["start"], command["end"], told
        if ("err" in reply) == is_range(data, start, stop):
            return "an edit of a range was refused, or one of none accepted", data
        if "err" in reply:
            return "", data
        new = data[:start] + command["text"].encode() + data[stop:]
        return ("" if (end, now) == (new, state(self.program, edition, new.decode())) else f"the model has {new.decode()!r}"), new


def stormed(asked):
    """Sends some requests. Returns the counts of replies, and the wrong ones."""
    program, seed, count = asked
    storm = Storm(program, seed)
    for _ in range(count):
        storm.request()
    return storm.counts, storm.wrong


def main():
    parser = argparse.ArgumentParser(usage=__doc__, add_help=False, allow_abbrev=False)
    parser.add_argument("--count", type=int, default=100_000)
    parser.add_argument("--seed", type=int, default=1)
    parser.add_argument("--jobs", type=int, default=4)
    parser.add_argument("program")
    asked = parser.parse_args()
    parts = [(asked.program, f"{asked.seed} {at}", min(CHUNK, asked.count - at)) for at in range(0, asked.count, CHUNK)]
    counts, wrong = collections.Counter(), []
    with ProcessPoolExecutor(asked.jobs) as pool:
        for more, bad in pool.map(stormed, parts):
            counts, wrong = counts + more, wrong + bad
            for it in bad[:5]:
                print(*it, sep="\n  ", flush=True)
    for (what, answer), count in sorted(counts.items()):
        print(f"{count:8} {what} {answer}")
    print(f"{asked.count} requests, {sum(counts.values())} commands: {len(wrong)} wrong")
    return bool(wrong)


if __name__ == "__main__":
    raise SystemExit(main())
