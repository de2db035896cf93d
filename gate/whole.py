#!/usr/bin/env python3
"""Runs the kit's 'rt ci' in the current folder, in another order, and keeps what it proved on this machine.

A kit whose 'rt' proves a crate by name keeps proofs itself, and lanes.py calls it. Others know 'rt ci' alone: it proves all crates from
nothing, and gives a proof up to four jobs, which compute much of it several times. So this loads 'rt' as a module and replaces two of its
parts: the order of the tasks, and the proof of a crate, which a later run takes from ~/.cache/tevondimby if the crate, the libraries below
it and the kit are the same, byte for byte. All else is the kit's.
"""
import contextlib
import hashlib
import os
import shutil
import subprocess
import sys
import tempfile
import time
from concurrent.futures import FIRST_COMPLETED, ThreadPoolExecutor, wait

import lanes
import ledger
import progress
import repository
from selection import CYCLES

FOLDER = os.path.join(os.environ.get("XDG_CACHE_HOME") or os.path.expanduser("~/.cache"), "tevondimby")
# Proofs that no run has taken for so long are dropped.
SECONDS_KEPT = 14 * 24 * 3600
# What of the free memory proofs may take, and what they take of the bytes that 'rt' reckons: of most under half, measured; of the crates in
# CYCLES, which have two jobs, a sixth more.
PART_OF_MEMORY, PART_OF_NEED, PART_IN_A_CYCLE = 0.9, 0.5, 1.17


class Store:
    """The proofs that this machine keeps: of a library what 'rt' built of it, of a program what both compilers made."""

    def __init__(self, root, kit, folder=FOLDER):
        self.root, self.folder, self.lines, self.keys = root, folder, ledger.crate_lines(root), {}
        self.kit = b"".join(ledger.read(f"{kit}/{name}") for name in ("KIT-ID", "WHAT"))

    def key(self, name):
        """Returns the sum of a crate: of its files, its line, the kit, and the sums of the libraries that it names."""
        if name not in self.keys:
            made = hashlib.sha256(self.kit + repr(self.lines[name]).encode() + ledger.read(f"{self.root}/HANDLES"))
            for part in ledger.PARTS:
                for file in ledger.files_below(f"{self.root}/crates/{name}/{part}"):
                    made.update(repr((os.path.relpath(file, self.root), ledger.read(file))).encode())
            for library in ledger.libraries(self.lines[name]):
                made.update((self.key(library) if library in self.lines else library).encode())
            self.keys[name] = made.hexdigest()
        return self.keys[name]

    def files(self, name):
        """Returns what a proof of a crate builds, below its out/."""
        is_program = os.path.isfile(f"{self.root}/crates/{name}/src/main.rt")
        return [name, f"{name}.by-rattle"] if is_program else ["rlib"]

    def give(self, name):
        """Copies what is kept of a crate to its out/. Returns `False` if nothing is."""
        kept = f"{self.folder}/{self.key(name)}"
        if not os.path.isdir(kept):
            return False
        out = f"{self.root}/crates/{name}/out"
        shutil.rmtree(out, ignore_errors=True)
        shutil.copytree(kept, out, symlinks=True)
        os.utime(kept)
        return True

    def keep(self, name):
        """Keeps what was built of a crate."""
        os.makedirs(self.folder, exist_ok=True)
        out, kept = f"{self.root}/crates/{name}/out", f"{self.folder}/{self.key(name)}"
        with tempfile.TemporaryDirectory(dir=self.folder, prefix="new-") as room:
            # (of a static library nothing is built; that it is proved is kept)
            os.mkdir(f"{room}/kept")
            for file in self.files(name):
                if os.path.isdir(f"{out}/{file}"):
                    shutil.copytree(f"{out}/{file}", f"{room}/kept/{file}", symlinks=True)
                elif os.path.isfile(f"{out}/{file}"):
                    shutil.copy2(f"{out}/{file}", f"{room}/kept/{file}")
            if not os.path.isdir(kept):
                os.utime(f"{room}/kept")
                os.rename(f"{room}/kept", kept)
        self.drop_old()

    def drop_old(self):
        """Removes proofs that no run has taken for SECONDS_KEPT."""
        with os.scandir(self.folder) as entries:
            for kept in entries:
                # (another run may have removed it)
                with contextlib.suppress(OSError):
                    if time.time() - kept.stat().st_mtime > SECONDS_KEPT:
                        shutil.rmtree(kept.path, ignore_errors=True)


class Order:
    """The order of the tasks of 'rt ci': those with the longest chain behind them first, one job each, as many as there are cores and
    memory for. While one waits for memory, another begins only if it leaves the room that the first needs."""

    def __init__(self, plan, memory, cores):
        self.plan, self.memory, self.cores = plan, memory, cores

    def weight(self, key):
        """Returns the seconds of the chain that waits for a task."""
        return self.plan.chain(key[0]) if key[1] == "proof" else 0

    def jobs(self, key):
        """Returns how many jobs a task gets."""
        return 2 if key[1] == "proof" and key[0] in lanes.TWO_JOBS and self.cores > 2 else 1

    def need(self, tasks, key):
        """Returns the bytes that a task takes: none if it only runs what is built."""
        return tasks[key][2] * (PART_IN_A_CYCLE if key[0] in CYCLES else PART_OF_NEED) if tasks[key][1] else 0

    def next(self, tasks, left, running, given):
        """Returns the task that begins next, or nothing."""
        used = [self.need(tasks, key) for key in running]
        # What tasks may take that begin before one that waits for memory.
        most = self.memory
        for key in left:
            need = self.need(tasks, key)
            if any(below not in given for below in tasks[key][0]):
                continue
            if not running or need <= min(self.memory - sum(used), most - sum(it for it in used if it <= most)):
                return key
            most = min(most, max(0, self.memory - need))
        return None

    def run(self, tasks):
        """Runs tasks, each once those that it waits for have ended. Returns what each gave."""
        left, running, given = sorted(tasks, key=self.weight, reverse=True), {}, {}
        with ThreadPoolExecutor(self.cores) as pool:
            while left or running:
                while sum(map(self.jobs, running)) < self.cores and (key := self.next(tasks, left, running, given)):
                    left.remove(key)
                    running[key] = pool.submit(tasks[key][3], given, self.jobs(key))
                wait(running.values(), return_when=FIRST_COMPLETED)
                for key in [key for key, task in running.items() if task.done()]:
                    given[key] = running.pop(key).result()
        return given


def keeping(store, proved, say):
    """Returns a proof of a crate that takes what `store` has, and keeps there what `proved` built."""

    def ci(crate, flags, tests):
        if not tests and store.give(crate.name):
            say(f"{crate.name}: the proof is one that this machine kept", crate.out)
            return 0
        status = proved(crate, flags, tests)
        if not status and not tests:
            store.keep(crate.name)
        return status

    return ci


def is_wanted():
    """Returns `True` if this machine's 'rt' has the parts that are replaced here, and keeps no proofs."""
    text = ledger.read(os.path.realpath(shutil.which("rt")))
    return b"\ndef in_lanes(tasks):" in text and b"Kept" not in text


def start(at):
    """Starts this program in a folder; its standard output can be read by lines."""
    how = {"cwd": at, "stdout": subprocess.PIPE, "stdin": subprocess.DEVNULL, "errors": "replace"}
    return subprocess.Popen([sys.executable, "-B", os.path.realpath(__file__)], **how)


def main():
    root, rt = os.getcwd(), lanes.kit()
    store = Store(root, rt.KIT)
    order = Order(progress.Plan(root), PART_OF_MEMORY * rt.free(), repository.cores())
    rt.in_lanes = order.run
    rt.Crate.ci = keeping(store, rt.Crate.ci, rt.say)
    return rt.main(["ci"])


if __name__ == "__main__":
    sys.exit(main())
