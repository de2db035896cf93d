#!/usr/bin/env python3
"""Finds the deepest nesting that a built program reads on a stack of 8 MiB, by kind, and the bytes of stack a level.

    bench/levels.py PROGRAM

PROGRAM reads a file of edition 2021 from standard input and then writes, as tree_dump does; that a tree that deep takes long to
write does not count. Depths are found by halving, up to LIMIT.
"""
import subprocess
import sys
import tempfile

import nesting

# The text before, that which opens a level, the text inside, that which closes a level, the text after.
KINDS = {
    "((": ("fn f(){", "(", "1", ")", ";}"),
    "{{": ("fn f(){", "{", "1", "}", "}"),
    "f(f(": ("fn f(){", "f(", "1", ")", ";}"),
    "x.a(x.a(": ("fn f(){", "x.a(", "1", ")", ";}"),
    "a[a[": ("fn f(){", "a[", "1", "]", ";}"),
    "S{a:S{a:": ("fn f(){", "S{a:", "1", "}", ";}"),
    "--": ("fn f(){", "-", "1", "", ";}"),
    "a=a=": ("fn f(){", "a=", "1", "", ";}"),
    "return return": ("fn f(){", "return ", "1", "", ";}"),
    "|x||x|": ("fn f(){", "|x|", "1", "", ";}"),
    "move|x|{": ("fn f(){", "move|x|{", "1", "}", ";}"),
    "if a{if a{": ("fn f(){", "if a{", "", "}", "}"),
    "let a={let a={": ("fn f(){", "let a={", "1", "};", "}"),
    "fn f(){fn f(){": ("", "fn f(){", "", "}", ""),
    "impl A{fn f(){": ("", "impl A{fn f(){", "", "}}", ""),
    "mod a{mod a{": ("", "mod a{", "", "}", ""),
    "use a::{{": ("use a::", "{", "b", "}", ";"),
    "#[a={#[a={": ("fn f(){", "#[a={", "1", "}]b;", "}"),
    "type A<A<": ("type T=", "A<", "u8", ">", ";"),
    "type dyn A<dyn A<": ("type T=", "dyn A<", "u8", ">", ";"),
    "pattern ((": ("fn f(){let ", "(", "a", ")", "=b;}"),
    "pattern [[": ("fn f(){let ", "[", "a", "]", "=b;}"),
}


def is_read(program, kind, depth):
    """Returns whether the program reads a text of this kind and depth: whether it writes anything before it ends."""
    before, opening, inside, closing, after = kind
    text = before + opening * depth + inside + closing * depth + after
    with tempfile.TemporaryFile() as file:
        file.write(text.encode())
        file.seek(0)
        with subprocess.Popen([program], stdin=file, stdout=subprocess.PIPE, stderr=subprocess.DEVNULL, preexec_fn=nesting.limit_stack) as run:
            has_written = bool(run.stdout.read(1))
            run.kill()
    return has_written


def main():
    program = sys.argv[1]
    for name, kind in KINDS.items():
        nesting.print_depth(name, nesting.deepest(lambda depth: is_read(program, kind, depth), 1))


main()
