"""Tries must-fail edits over the libraries that a run has built here: those of different functions of a crate by one check of these
functions (together.py), what is left one by one, and what changes no body, or several, by 'rt must-fail', which proves the crate first.
"""
import os
import shutil
import tempfile
import threading
import time
from concurrent.futures import ThreadPoolExecutor, as_completed

import lanes
import ledger
import repository
import together
import whole
from progress import BEAT, minutes
from selection import CYCLES

# The bytes that a check of a crate takes, most often. Those of CYCLES take more: they come last, each by itself.
BYTES_OF_A_CHECK = 6_000_000_000
SHOWN = 160


class Heartbeat:
    """Writes a line each BEAT seconds, in a `with`, with the crates whose edits are being tried: a check prints nothing while it runs."""

    def __init__(self, write):
        self.write, self.begin, self.running = write, time.monotonic(), {}
        self.ended, self.alone = threading.Event(), threading.Lock()
        self.thread = threading.Thread(target=self.work, daemon=True)

    def work(self):
        while not self.ended.wait(BEAT):
            with self.alone:
                names = ", ".join(f"{name} ({count})" for name, count in self.running.items())
            self.write(f"test: edits: {minutes(time.monotonic() - self.begin)}, being tried: {names or 'none'}")

    def __enter__(self):
        self.thread.start()
        return self

    def __exit__(self, *_):
        self.ended.set()
        self.thread.join()


def link_libraries(source, target):
    """Copies a file, or gives one that was built another name: nothing writes into it."""
    (os.link if f"{os.sep}out{os.sep}" in source else shutil.copy2)(source, target)


def copy_of(root, room):
    """Copies a tree with what was built in it into a new folder. Returns the path."""
    copied = f"{room}/repository"
    shutil.copytree(root, copied, symlinks=True, copy_function=link_libraries)
    return copied


def try_together(at, name, tried, tries_alone, write):
    """Tries edits of a crate over its built libraries. Returns those that are refused."""
    refused = set()
    for edit, line in together.refused(f"{at}/crates/{name}", [f"{at}/{edit}" for edit in sorted(tried)], tries_alone):
        write(f"test: edits: {name}/{os.path.basename(edit)}: refused together with others: {line[:SHOWN]}")
        refused.add(os.path.relpath(edit, at))
    return refused


def mark_built(at):
    """Marks the libraries that were built in a copy of the tree as those of its sources, where the kit does not: 'rt must-fail' would prove
    all of them again."""
    if whole.is_wanted():
        rt = lanes.kit()
        for crate in rt.rtlib.crates_below(at):
            if os.path.isdir(crate.rlib):
                with open(f"{crate.folder}/out/rlib/stamp", "w", encoding="utf-8") as file:
                    file.write(crate.stamp())


def try_alone(at, name, tried, write):
    """Tries edits of a crate one by one by 'rt must-fail'. Returns those that are refused."""
    mark_built(at)
    folder = f"{at}/crates/{name}/must-fail"
    for edit in os.listdir(folder):
        if f"crates/{name}/must-fail/{edit}" not in tried:
            os.remove(f"{folder}/{edit}")
    with repository.start_rt(at, "must-fail", name) as ran:
        lines = []
        for line in ran.stdout:
            write(line.rstrip("\n"))
            lines.append(line)
    return repository.refused_in(lines, tried)


def try_crate(root, name, tried, write, alone=True):
    """Tries edits of a crate in a copy of the tree at `root`. Returns those that are refused, each with how that was seen. Those that no
    check of several refuses are tried one by one if `alone`."""
    with tempfile.TemporaryDirectory(prefix="edits-") as room:
        at = copy_of(root, room)
        both = try_together(at, name, tried, alone, write)
        left = {*tried} - both
        single = try_alone(at, name, left, write) if left and alone else set()
    return {edit: ledger.TOGETHER if edit in both else ledger.ALONE for edit in both | single}


def workers():
    """Returns the number of checks that run beside each other."""
    return max(1, min(repository.cores(), repository.memory() // BYTES_OF_A_CHECK))


def try_all(root, groups, write, alone=lambda name: True):
    """Tries the edits of each crate. Yields each crate with those of its edits that are refused, each with how that was seen."""
    with Heartbeat(write) as heart, ThreadPoolExecutor(workers()) as pool:

        def run(name):
            with heart.alone:
                heart.running[name] = len(groups[name])
            begin = time.monotonic()
            try:
                refused = try_crate(root, name, groups[name], write, alone(name))
            finally:
                with heart.alone:
                    del heart.running[name]
            write(f"test: edits: {name}: {len(refused)} of {len(groups[name])} refused in {time.monotonic() - begin:.0f} s")
            return name, refused

        names = sorted(groups, key=lambda name: -len(groups[name]))
        for ended in as_completed([pool.submit(run, name) for name in names if name not in CYCLES]):
            yield ended.result()
        for name in names:
            if name in CYCLES:
                yield run(name)
