#!/usr/bin/env python3
"""Renames at random in broken texts, through a built document_tool, and counts the refused. Each has to be accepted.

    bench/renames.py [--count N] [--seed N] PROGRAM

A text is a row of pieces of Rust, most of them broken, with shebangs and frontmatter among them, in any edition. A renaming replaces
one to all plain identifiers of a text, each by a plain name of its own. A name before a quote or a '#' is left out, since it may be
the prefix of a literal. For each accepted one the changed ranges are compared with those that the names give.
"""
import argparse
import json
import random
import re
import subprocess

EDITIONS = ("2015", "2018", "2021", "2024", "next")
TEXTS_A_RUN = 100
# Keywords of any edition, contextual keywords, and `_`.
NOT_PLAIN = frozenset("""_ as async await auto box break const continue crate default defer do dyn else enum extern false final fn for gen if
    impl in let loop macro match mod move mut override priv pub ref return self Self static struct super trait true try type typeof unsafe
    unsized union use virtual where while yield abstract become macro_rules raw safe builtin asm att_syntax clobber_abi format_args
    global_asm inlateout inout label late lateout naked_asm nomem noreturn nostack offset_of options out preserves_flags pure readonly sym
    may_unwind include_bytes concat_bytes""".split())
NAMES = ("a", "b", "foo", "x1", "r", "br", "c", "e5", "é", "名", "Self_", "k", "zz9", "_a", "u8", "x" * 40)
PIECES = ("fn f(a: u8) -> a { a + 1 }", "fn a( {", "struct a;", "struct a { b: c, }", "impl a for b {}", "let a = b", "a.b.1.c", "1.x", "1.e5x",
    "a::<b>::c", "a!(b, c)", "'a", "'a: loop {}", "\"a\"", "\"a", "r#\"a\"#", "r#a", "b'a'", "// a\n", "/* a */", "/* a", "/// a\n", "#[a]",
    "#![a]", "|a| b", "a |> b", "a..b", "a = b", "match a { b => c, _ => d }", "use a::{b, c};", "mod a;", "<a as b>::c", "&mut a", "*a",
    "a as b", "if a { b } else { c }", "}", "{", ")", "(", "]", ";", ",", "=>", "0x", "1e", "\\", "\0", "a", "b", "foo", "é", "const a: b = c;",
    "defer { a }", "struct", "fn", "impl", "union a {}", "async", "dyn a", "where a: b", "trait a { fn b(); }", "static a: b", "return a")
FRONTS = ("#!/bin/a b\n", "#!/* a\n*/ [a", "---\na\n---\n", "--- a\nb\n", "#![a]\n", "\ufeff")
SPACES = ("", "", " ", " ", "\n", "\t", "\u2028", "/**/")
LEAF = re.compile(r" *IDENT@(\d+)\.\.(\d+)")


def random_text(source):
    """Returns a text of up to 16 pieces."""
    parts = [source.choice(FRONTS)] if source.random() < 0.1 else []
    for _ in range(source.randrange(1, 16)):
        parts += [source.choice(PIECES), source.choice(SPACES)]
    return "".join(parts)


def answers(program, edition, commands):
    """Returns the replies of a run over the empty text."""
    request = {"edition": edition, "text": "", "commands": commands}
    ran = subprocess.run([program], input=json.dumps(request).encode(), capture_output=True, check=True)
    return [json.loads(line) for line in ran.stdout.split(b"\n")[: len(commands)]]


def edits(texts):
    """Returns for each text the command that puts it in the place of the one before."""
    lengths = [0, *(len(text.encode()) for text in texts)]
    return [{"do": "edit", "start": 0, "end": length, "text": text} for length, text in zip(lengths, texts)]


def plain_leaves(text, lines):
    """Returns the ranges of the identifiers of a tree that are plain."""
    data = text.encode()
    found = [tuple(map(int, leaf.groups())) for leaf in map(LEAF.fullmatch, lines) if leaf]
    is_name = lambda start, end: data[start:end].decode().isidentifier() and data[start:end].decode() not in NOT_PLAIN
    return [(start, end) for start, end in found if is_name(start, end) and data[end : end + 1] not in (b'"', b"'", b"#")]


def renaming(source, leaves):
    """Returns the command that renames some of these leaves, and the ranges that change."""
    chosen = sorted(source.sample(leaves, source.choice((1, source.randint(1, len(leaves)), len(leaves)))))
    changes, ranges, shift = [], [], 0
    for start, end in chosen:
        name = source.choice(NAMES)
        changes.append({"op": "replace", "at": ["IDENT", start, end], "with": ["token", name]})
        ranges.append([start + shift, start + shift + len(name.encode())])
        shift += len(name.encode()) - (end - start)
    source.shuffle(changes)
    return {"do": "commit", "changes": changes}, ranges


def renamed(program, source, edition):
    """Renames in some texts. Returns how many renamings there were, with several names, and the refused or wrong ones."""
    texts = [random_text(source) for _ in range(TEXTS_A_RUN)]
    trees = answers(program, edition, [command for edit in edits(texts) for command in (edit, {"do": "tree"})])[1::2]
    pairs = [(text, plain_leaves(text, reply["tree"])) for text, reply in zip(texts, trees)]
    wanted = [(text, *renaming(source, leaves)) for text, leaves in pairs if leaves]
    # Each text again after its renaming, so that the next edit knows the length.
    commands = [it for edit, (_, commit, _) in zip(edits([text for text, _, _ in wanted]), wanted) for it in (edit, commit)]
    growth = 0
    for command in commands:
        if command["do"] == "edit":
            command["end"] += growth
            continue
        changes = command["changes"]
        growth = sum(len(it["with"][1].encode()) - (it["at"][2] - it["at"][1]) for it in changes)
    replies = answers(program, edition, commands)[1::2]
    wrong = [(edition, *it, reply) for it, reply in zip(wanted, replies) if reply != {"changed": it[2], "ok": "commit"}]
    return len(wanted), sum(len(it[2]) > 1 for it in wanted), wrong


def main():
    parser = argparse.ArgumentParser(usage=__doc__, add_help=False, allow_abbrev=False)
    parser.add_argument("--count", type=int, default=100_000)
    parser.add_argument("--seed", type=int, default=1)
    parser.add_argument("program")
    asked = parser.parse_args()
    source, count, several, wrong = random.Random(asked.seed), 0, 0, []
    while count < asked.count:
        more = renamed(asked.program, source, EDITIONS[count % len(EDITIONS)])
        count, several, wrong = count + more[0], several + more[1], wrong + more[2]
    print(f"{count} renamings, {several} of several names: {len(wrong)} refused or with other ranges")
    for it in wrong[:20]:
        print(*it, sep="\n  ")
    return bool(wrong)


if __name__ == "__main__":
    raise SystemExit(main())
