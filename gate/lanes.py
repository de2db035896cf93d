"""Proves the crates of a tree beside each other, each by 'rt ci NAME'.

Each by one job, but for those of TWO_JOBS: a second job is a process of its own that computes again what the first has computed, and can
take four times the processor seconds (DECISIONS). As many crates are proved at a time as there are cores, those with the longest chain of
crates above them first, and the others take what that one leaves. What passes is kept on this machine, and the 'rt ci' that follows takes
it from there.
"""
import importlib.machinery
import importlib.util
import os
import re
import shutil
import sys
import threading

import ledger
import repository
from selection import CYCLES

# The crates whose proofs take little more than half of the time by two jobs: they have many long functions and no large tables.
TWO_JOBS = {"rust_productions", "grammar_reader"}
# The bytes that a proof takes at most, but for those of CYCLES. Beside one of these only crates of fewer lines than this are proved.
BYTES, LINES_BESIDE_A_CYCLE = 5_000_000_000, 12_000
# What 'rt' says if it cannot keep proofs: then each crate would have all below it proved again.
NOT_KEPT = re.compile(r"rt: note: .*(nothing is kept|not kept)")
NOT_PROVED = re.compile(r"rt: .* NOT PROVED")
BLOCK = re.compile(r"== \w+")


def kit():
    """Returns the kit's command 'rt' as a module."""
    folder = os.path.dirname(os.path.realpath(shutil.which("rt")))
    sys.path.insert(0, folder)
    loader = importlib.machinery.SourceFileLoader("rt_module", f"{folder}/rt")
    module = importlib.util.module_from_spec(importlib.util.spec_from_loader("rt_module", loader))
    sys.modules["rt_module"] = module
    loader.exec_module(module)
    return module


def kept(root):
    """Prints the crates of a tree whose proofs this machine keeps, and gives the tree what those built."""
    rt = kit()
    os.chdir(root)
    rt.Crate.allowed, rt.Crate.cuts_libraries = rt.handles_of(root), True
    crates = rt.crates_of(root)
    store, found = rt.Kept(crates), set()
    for crate in crates:
        # (the key of a crate is of the libraries that are built below it)
        if all(it.name in found for it in crate.below()) and store.give(crate, False, store.key(crate)):
            store.is_built(crate)
            found.add(crate.name)
            print(crate.name)


def kept_crates(root):
    """Returns the crates of a tree whose proofs this machine keeps; none if that cannot be told: it saves some seconds a crate."""
    lines = repository.output_of([sys.executable, "-B", os.path.realpath(__file__), root]).split()
    return {name for name in lines if name in ledger.crate_lines(root)}


class Lanes:
    """The proofs of a tree's crates. `read` gets the lines that 'rt' writes of a crate, once its proof has ended."""

    def __init__(self, root, plan, kept_already, read):
        self.root, self.plan, self.read = root, plan, read
        self.proved, self.running = {*kept_already}, {}
        # The crates that are not proved; whether no further proof begins.
        self.failed, self.is_stopped = [], False
        self.left = sorted((name for name in plan.crates if name not in self.proved), key=plan.chain, reverse=True)
        self.turn = threading.Condition()
        # The number of crates that are proved beside each other: one a core, as far as memory goes.
        self.most = max(1, min(repository.cores(), repository.memory() // BYTES))

    def lines_of(self, name):
        """Returns the number of lines of a crate's files."""
        files = [file for part in ledger.PARTS for file in ledger.files_below(f"{self.root}/crates/{name}/{part}")]
        return sum(ledger.read(file).count(b"\n") for file in files)

    def is_small(self, name):
        """Returns `True` if a crate can be proved beside one of CYCLES."""
        return self.lines_of(name) < LINES_BESIDE_A_CYCLE

    def has_room(self, name):
        """Returns `True` if a crate can be proved beside those that are being proved."""
        if name in CYCLES:
            return all(map(self.is_small, self.running))
        return not CYCLES & {*self.running} or self.is_small(name)

    def ready(self):
        """Returns the crates whose libraries are proved, those with the longest chain above first."""
        libraries = {name: {*ledger.libraries(self.plan.lines[name])} & {*self.plan.crates} for name in self.left}
        return [name for name in self.left if libraries[name] <= self.proved]

    def next(self):
        """Returns the crate whose proof begins next, or nothing. While one of CYCLES waits, only small ones begin."""
        ready = self.ready()
        waits = CYCLES & {*ready}
        return next((name for name in ready if self.has_room(name) and (not waits or name in waits or self.is_small(name))), None)

    def start(self):
        """Begins proofs while there is room."""
        while not self.is_stopped and len(self.running) < self.most and (name := self.next()):
            yields = any(self.plan.chain(other) >= self.plan.chain(name) for other in self.running)
            self.left.remove(name)
            self.running[name] = threading.Thread(target=self.prove, args=(name, yields))
            self.running[name].start()

    def prove(self, name, yields):
        """Proves a crate. It yields if one that is being proved has a longer chain above it."""
        with repository.start_rt(self.root, "ci", name, jobs=0 if name in TWO_JOBS else 1, yields=yields) as ran:
            lines = [*ran.stdout]
        with self.turn:
            # (of the crates below it says that they are kept)
            begin = next((at for at, line in enumerate(lines) if BLOCK.match(line)), len(lines))
            self.read([line for line in lines[begin:-1] if not line.startswith(f"rt: {name} and the crates below")])
            self.is_stopped = self.is_stopped or ran.returncode != 0 or any(map(NOT_KEPT.match, lines))
            if ran.returncode == 0:
                self.proved.add(name)
            elif any(map(NOT_PROVED.match, lines)):
                self.failed.append(name)
            del self.running[name]
            self.turn.notify()

    def run(self):
        """Proves the crates, until all are proved or one is not."""
        with self.turn:
            self.start()
            while self.running:
                self.turn.wait()
                self.start()


if __name__ == "__main__":
    kept(os.path.realpath(sys.argv[1]))
