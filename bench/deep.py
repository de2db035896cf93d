#!/usr/bin/env python3
"""Runs a built document_tool, or the command, on deeply nested texts with a stack of 8 MiB.

    bench/deep.py [--measure] [--command] PROGRAM

Each text is opened, edited before its first level, and the innermost element is replaced in a commit, which compares the rewritten
tree with its reading; the old trees are dropped. Without a flag the texts have 100,000 levels, or what DEPTHS asks for, and the last
line says how many kinds are answered; ./test runs this at its end. With --measure the greatest depth below LIMIT is found for each
kind by halving, with the bytes of stack a level. With --command PROGRAM is `tevondimby`, started as it is, without ./run: each request
is a line of `serve`, which reads the whole language.
"""
import json
import subprocess
import sys

import nesting

# The text before, that which opens a level, the text inside, that which closes a level, the text after; and what is replaced: the kind
# of the inside, an entry and a text, or nothing.
LITERAL = ("LITERAL", "expr", "2")
IDENT = ("IDENT", "token", "z")
KINDS = {
    "((": ("fn f(){", "(", "1", ")", ";}", LITERAL),
    "{{": ("fn f(){", "{", "1", "}", "}", LITERAL),
    "--": ("fn f(){", "-", "1", "", ";}", LITERAL),
    "type &&": ("type T=", "& ", "u", "", ";", IDENT),
    "type ((": ("type T=", "(", "u", ")", ";", IDENT),
    "pattern ((": ("fn f(){let ", "(", "a", ")", "=b;}", IDENT),
    "m!{((": ("m!{", "(", "a", ")", "}", IDENT),
    "use {{": ("use a::", "{", "b", "}", ";", IDENT),
    "mod a{": ("", "mod a{", "", "}", "", None),
    "a+a+": ("fn f(){", "a+", "1", "", ";}", LITERAL),
    "a.b()": ("fn f(){", "", "a", ".b()", ";}", IDENT),
    "else if": ("fn f(){if a{}", "else if a{}", "", "", "}", None),
    "/*/*": ("", "/*", "a", "*/", "", None),
    "f(f(": ("fn f(){", "f(", "1", ")", ";}", LITERAL),
    "a[a[": ("fn f(){", "a[", "1", "]", ";}", LITERAL),
    "S{a:": ("fn f(){", "S{a:", "1", "}", ";}", LITERAL),
    "|x||x|": ("fn f(){", "|x|", "1", "", ";}", LITERAL),
    "a=a=": ("fn f(){", "a=", "1", "", ";}", LITERAL),
    "match": ("fn f(){", "match a{_=>", "1", "}", "}", LITERAL),
    "pattern [[": ("fn f(){let ", "[", "a", "]", "=b;}", IDENT),
    "type A<A<": ("type T=", "A<", "u", ">", ";", IDENT),
    "dyn A<": ("type T=", "dyn A<", "u", ">", ";", IDENT),
    "move|x|{": ("fn f(){", "move|x|{", "1", "}", ";}", LITERAL),
}
# Kinds whose reading takes more of the stack have fewer levels.
DEPTHS = {
    "f(f(": 50_000,
    "a[a[": 50_000,
    "S{a:": 50_000,
    "|x||x|": 50_000,
    "a=a=": 50_000,
    "match": 50_000,
    "pattern [[": 50_000,
    "type A<A<": 50_000,
    "dyn A<": 30_000,
    "move|x|{": 30_000,
}


def request(kind, depth):
    """Returns the request on a text of this kind and depth, and the text that it ends with."""
    before, opening, inside, closing, after, replaced = KINDS[kind]
    front, back = before + opening * depth, closing * depth + after
    commands = [{"do": "edit", "start": len(before), "end": len(before), "text": " "}]
    new = inside
    if replaced:
        name, entry, new = replaced
        start = len(front) + 1
        change = {"op": "replace", "at": [name, start, start + len(inside)], "with": [entry, new]}
        commands.append({"do": "commit", "changes": [change]})
    asked = {"edition": "2021", "text": front + inside + back, "commands": commands}
    return json.dumps(asked), before + " " + opening * depth + new + back


def reply_of(words, asked, count):
    """Returns the replies of a program to a request of so many commands, and the text that it ends with; nothing if it fails."""
    given = f"{asked}\n".encode() if words[1:] else asked.encode()
    ran = subprocess.run(words, input=given, stdout=subprocess.PIPE, stderr=subprocess.DEVNULL, preexec_fn=nesting.limit_stack)
    if ran.returncode != 0:
        return None
    if words[1:]:
        reply = json.loads(ran.stdout)
        return reply["replies"], reply.get("text")
    # (a line for each command, and the text)
    *replies, text = ran.stdout.decode().split("\n", count)
    return [json.loads(reply) for reply in replies], text


def is_answered(words, kind, depth):
    """Returns whether the program answers the request, with the text that it has to end with and nothing refused."""
    asked, wanted = request(kind, depth)
    answer = reply_of(words, asked, 2 if KINDS[kind][-1] else 1)
    return bool(answer) and all("ok" in reply for reply in answer[0]) and answer[1] == wanted


def measure(words):
    """Prints the greatest depth of each kind, or up to 100 levels less."""
    for kind in KINDS:
        nesting.print_depth(kind, nesting.deepest(lambda depth: is_answered(words, kind, depth), 100))


def unanswered(words):
    """Returns the kinds that are not answered at the depth that is asked for."""
    return [kind for kind in KINDS if not is_answered(words, kind, DEPTHS.get(kind, 100_000))]


if __name__ == "__main__":
    *flags, tool = sys.argv[1:]
    called = [tool, "serve"] if "--command" in flags else [tool]
    if "--measure" in flags:
        measure(called)
        sys.exit(0)
    left = unanswered(called)
    for name in left:
        print(f"{name}: {DEPTHS.get(name, 100_000)} levels are not answered")
    print(f"{len(KINDS) - len(left)} of {len(KINDS)} kinds answered")
    sys.exit(1 if left else 0)
