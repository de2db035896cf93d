"""Crates that combine others, so that these are compiled once: EVERY_TEST has the tests of many crates, EVERY_RUN their programs.

A combined crate has a module for each crate. In a module the paths below `crate` get the module's name. EVERY_RUN runs the program
whose name its own path ends in, so that it can be started by a link for each program."""
import os
import re

import ledger
import repository

EVERY_TEST, EVERY_RUN = "every_test", "every_run"
ROOT = re.compile(r"\bcrate::")
# What the root of a crate has and a module cannot have.
INNER = re.compile(r"(?m)^#!\[.*\]\n")
MAIN = re.compile(r"(?m)^fn main\(")
TESTS_ROOT = "//! The tests of other crates.\n#![tactic(auto)]\n\n{modules}"
PROGRAM_ROOT = """//! Runs the program whose name this one's path ends in.
#![tactic(auto)]

{modules}
use std::alloc::Global;
use std::env::Args;
use std::{{env, io}};

/// Returns the words that this program was started by. A refused request for memory is said as memory_table says it of a call.
fn words(rt: &HostRuntime) -> io::Result<Args<Global>> {{
    match env::args(rt) {{
        Ok(words) => Ok(words),
        Err(_) => {{
            println!(rt; "1 out of memory: the words of the command")?;
            env::args(rt)
        }}
    }}
}}

fn main(rt: HostRuntime) -> anyhow::Result<()> {{
    let mut words = words(&rt)?;
    let path = words.next().unwrap_or(String::new(rt.alloc()));
    let path = path.as_str();
{arms}
    Ok(())
}}
"""
ARM = """    if path.ends_with("/{name}") {{
        return Ok(of_{name}::main(rt)?);
    }}
"""


def as_module(name, text):
    """Returns the text of a crate's source file as a part of its module in a combined crate."""
    text = MAIN.sub("pub(crate) fn main(", INNER.sub("", text))
    return ROOT.sub(f"crate::of_{name}::", text)


def write(path, text):
    """Writes a file, and the folders above it."""
    os.makedirs(os.path.dirname(path), exist_ok=True)
    with open(path, "w", encoding="utf-8") as file:
        file.write(text)


def write_modules(root, combined, names):
    """Writes the sources of some crates as modules of a combined crate."""
    for name in names:
        for path in repository.source_files(root, name):
            file = os.path.relpath(path, f"{root}/crates/{name}/src")
            place = f"of_{name}.rt" if file in ("lib.rt", "main.rt") else f"of_{name}/{file}"
            write(f"{root}/crates/{combined}/src/{place}", as_module(name, ledger.read(path).decode()))


def add_line(root, combined, names):
    """Adds a combined crate to crates.txt: it stands on all libraries that its parts stand on."""
    lines = ledger.crate_lines(root)
    below = {"anyhow"}.union(*(ledger.libraries(lines[name]) for name in names))
    with open(f"{root}/crates.txt", "a", encoding="utf-8") as file:
        file.write(f"{combined}: {' '.join(sorted(below))}\n")


def write_tests(root, names):
    """Writes EVERY_TEST, with the tests of some crates, to a copy of the tree."""
    write_modules(root, EVERY_TEST, names)
    add_line(root, EVERY_TEST, names)
    modules = "".join(f"#[cfg(test)]\nmod of_{name};\n" for name in names)
    write(f"{root}/crates/{EVERY_TEST}/src/lib.rt", TESTS_ROOT.format(modules=modules))


def write_programs(root, names):
    """Writes EVERY_RUN, with the programs of some crates, to a copy of the tree."""
    write_modules(root, EVERY_RUN, names)
    add_line(root, EVERY_RUN, names)
    modules = "".join(f"mod of_{name};\n" for name in names)
    arms = "".join(ARM.format(name=name) for name in names)
    write(f"{root}/crates/{EVERY_RUN}/src/main.rt", PROGRAM_ROOT.format(modules=modules, arms=arms))
