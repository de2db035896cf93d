"""The working tree, its copies, and calls of 'rt' in them."""
import os
import re
import shutil
import subprocess
import sys

import ledger

TOP = os.path.dirname(os.path.dirname(os.path.realpath(__file__)))
# A check takes one to four gigabytes. With fewer bytes a core than this, 'rt ci' by its own estimate leaves cores idle.
BYTES_A_CORE = 5_000_000_000
# What later checks, and ./run, reuse in a crate's out/. (fast_build.py names its unfinished builds fast-..)
REUSED = re.compile(r"incremental|rlib|fast(-.*)?")
REFUSED = re.compile(r"rt: must-fail ([^/\s]+)/(\S+): refused, as it must be")
# What 'rt' adds if nothing but a missing name refused an edit. It says nothing of the contract, so such an edit counts as not refused.
BY_NAME = "(only because a proof file names"
# The comment in crates.txt below which the crates are run and not proved: tests and measuring.
UNPROVED = re.compile(r"# Run and not proved\b")
# Those of them that have no proofs yet: ./test --all leaves them out.
WITHOUT_PROOFS = ("session_suite", "pattern_suite", "replace_suite", "checked_exports")
TEST = re.compile(r"#\s*\[[^]]*\btest\b")


def fail(why):
    """Prints an error and ends the process with status 2."""
    print(f"test: {why}\n0 passed, 1 failed")
    sys.exit(2)


def cores():
    """Returns the number of cores that this process may use."""
    return len(os.sched_getaffinity(0))


def memory():
    """Returns the bytes of memory of this machine."""
    return os.sysconf("SC_PAGE_SIZE") * os.sysconf("SC_PHYS_PAGES")


def environment():
    """Returns the environment of 'rt ci': on a machine with little memory, one job a core."""
    is_short = memory() < BYTES_A_CORE * cores()
    return {"RT_JOBS": str(cores()), **os.environ} if is_short else dict(os.environ)


def copy_tree(to, parts=()):
    """Copies the working tree without what was built, so that one state is tested, whatever is edited meanwhile.

    Of a crate's out/ it copies `parts`; 'rt' builds a library again if its sources differ from the stamp there."""

    def ignored(at, names):
        if os.path.basename(at) == "out" and os.path.dirname(os.path.dirname(at)) == f"{TOP}/crates":
            return [name for name in names if name not in parts]
        is_crate = os.path.dirname(at) == f"{TOP}/crates"
        return [name for name in names if name == ".git" and at == TOP or name == "out" and not (is_crate and parts)]

    shutil.copytree(TOP, to, symlinks=True, ignore=ignored)
    # 'rt ci' runs only at the top of a repository.
    os.mkdir(f"{to}/.git")


def copy_in(room, parts=()):
    """Copies the working tree into a new folder of `room` and returns its path; fails without 'rt'."""
    if not shutil.which("rt"):
        fail("the Rattle kit's command 'rt' is not on the PATH")
    copied = f"{room}/repository"
    copy_tree(copied, parts)
    return copied


def restore_builds(copied):
    """Moves what was built, such as the program that ./run starts, from the copy to the working tree."""
    for name in os.listdir(f"{copied}/crates"):
        source, target = f"{copied}/crates/{name}/out", f"{TOP}/crates/{name}/out"
        for old in os.listdir(target) if os.path.isdir(target) else []:
            if not REUSED.fullmatch(old):
                subprocess.run(["rm", "-rf", "--", f"{target}/{old}"], check=True)
        for new in os.listdir(source) if os.path.isdir(source) else []:
            if not REUSED.fullmatch(new):
                os.makedirs(target, exist_ok=True)
                shutil.move(f"{source}/{new}", target)


def start_rt(at, *words, jobs=0, yields=False):
    """Starts 'rt' in a folder, with a number of jobs if it is not to choose that; its standard output can be read by lines. One that
    yields takes what other processes leave of the cores."""
    chosen = {"RT_JOBS": str(jobs)} if jobs else {}
    how = {"cwd": at, "env": {**environment(), **chosen}, "stdout": subprocess.PIPE, "stdin": subprocess.DEVNULL, "errors": "replace"}
    return subprocess.Popen([*(["nice"] if yields else []), "rt", *words], **how)


def output_of(words):
    """Returns what a command writes, or nothing if it fails."""
    ran = subprocess.run(words, stdin=subprocess.DEVNULL, stdout=subprocess.PIPE, stderr=subprocess.DEVNULL, text=True, errors="replace")
    return ran.stdout if ran.returncode == 0 else ""


def refused_in(lines, tried):
    """Returns the edits of `tried` that these lines of 'rt' name as refused."""
    names = {found.groups() for line in lines if BY_NAME not in line and (found := REFUSED.match(line))}
    return {edit for edit in tried if (ledger.crate_of(edit), os.path.basename(edit)) in names}


def unproved(root):
    """Returns the names of the crates that are run and not proved."""
    lines = ledger.read(f"{root}/crates.txt").decode().splitlines()
    at = next((number for number, line in enumerate(lines) if UNPROVED.match(line)), len(lines))
    return [line.partition(":")[0].split()[0] for line in lines[at:] if line.partition("#")[0].strip()]


def remove_unproved(copied, proves_all=False):
    """Removes the crates that are run and not proved from a copy of the tree, and their lines from its crates.txt. If all are proved,
    removes only those without proofs."""
    names = [name for name in unproved(copied) if name in WITHOUT_PROOFS or not proves_all]
    lines = ledger.read(f"{copied}/crates.txt").decode().splitlines(keepends=True)
    for name in names:
        shutil.rmtree(f"{copied}/crates/{name}")
    with open(f"{copied}/crates.txt", "w", encoding="utf-8") as file:
        file.writelines(line for line in lines if not {*line.partition(":")[0].split()[:1]} & {*names})


def source_files(root, name):
    """Returns the Rust files of a crate."""
    return [file for file in ledger.files_below(f"{root}/crates/{name}/src") if file.endswith(".rt")]


def is_program(root, name):
    """Returns `True` if the crate is a program."""
    return os.path.isfile(f"{root}/crates/{name}/src/main.rt")


def has_tests(root, name):
    """Returns `True` if 'rt ci' proves the crate a second time, with its tests."""
    return any(TEST.search(ledger.read(file).decode(errors="replace")) for file in source_files(root, name))
