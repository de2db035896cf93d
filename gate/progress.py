"""The progress of 'rt ci': a line for each task that ends, with the tasks that are done, the time and the time left."""
import os
import re
import statistics
import threading
import time

import ledger
import repository
from processes import PROOF, TESTS, Checks

WEIGHTS = f"{os.path.dirname(os.path.realpath(__file__))}/weights.txt"
RUN, TEST_RUN = "program", "test run"
# The mark of a row of weights.txt that was not measured.
ESTIMATED = "*"
# A line comes at least this often, in seconds.
BEAT = 30
# Processor seconds of what weights.txt does not list: a run of a program or of tests.
RUN_SECONDS = 3
# Of a task that takes longer than its weight, the part of the weight that counts as left.
LEAST_LEFT = 0.05
# The processor seconds from which on the stretch of the proofs is measured.
LEAST_MEASURED = 10
DEAREST = 10

IS_KEPT = re.compile(r"rt: (\w+) is kept: ")
PROVED = re.compile(r"rt: (\w+)(: its tests are)? (proved|NOT PROVED)")
RAN = re.compile(r"rt: (\w+) ran(?: \(built by Rattle's own compiler\))?, and wrote")
TESTED = re.compile(r"rt: (\w+): its tests (passed|FAILED)")
BLOCK = re.compile(r"== \w+(: its tests)?$")
DETAIL = re.compile(r"(struct|enum|impl|trait|fn) \S+: proved")


def minutes(seconds):
    """Returns a duration in words."""
    return f"{seconds:.0f} s" if seconds < 100 else f"{seconds / 60:.0f} min"


def weights():
    """Returns the processor seconds that weights.txt lists: of each crate's proof and of the proof with its tests."""
    rows = [line.split() for line in ledger.read(WEIGHTS).decode().splitlines() if not line.startswith("#")]
    return {(row[0], kind): float(word) for row in rows for kind, word in zip((PROOF, TESTS), row[1:]) if word != ESTIMATED}


class Plan:
    """The tasks of a run and their weights in processor seconds.

    Tasks are keyed by crate and kind. A crate's proof waits for those of the crates below it."""

    def __init__(self, root):
        self.lines = ledger.crate_lines(root)
        self.crates = [*self.lines]
        self.above = {name: [] for name in self.crates}
        for name, line in self.lines.items():
            for library in ledger.libraries(line):
                self.above.get(library, []).append(name)
        listed = weights()
        self.median = statistics.median(listed.values()) if listed else 1.0
        self.tasks = {}
        for name in self.crates:
            self.tasks[name, PROOF] = listed.get((name, PROOF), self.median)
            if repository.has_tests(root, name):
                self.tasks[name, TESTS] = listed.get((name, TESTS), self.median)
                self.tasks[name, TEST_RUN] = RUN_SECONDS
            if repository.is_program(root, name):
                self.tasks[name, RUN] = 2 * RUN_SECONDS

    def chain(self, name):
        """Returns the seconds of the longest chain of tasks that begins with the proof of a crate."""
        return self.chains(self.tasks)[name]

    def chains(self, seconds):
        """Returns for each crate the most seconds of tasks that wait for one another, from its proof on."""
        known = {}

        def chain(name):
            if name not in known:
                known[name] = seconds.get((name, PROOF), 0) + max([seconds.get((name, TESTS), 0), *map(chain, self.above[name])])
            return known[name]

        return {name: chain(name) for name in self.crates}

    def longest_chain(self, left):
        """Returns the most seconds in `left` of tasks that wait for one another."""
        return max(self.chains(left).values(), default=0)


class Progress:
    """What has ended, and when. `checks` may be left out: then no processor seconds are known."""

    def __init__(self, plan, cores, checks=None, clock=time.monotonic, write=print):
        self.plan, self.cores, self.checks, self.clock, self.write = plan, cores, checks, clock, write
        self.begin = self.written = clock()
        self.starts, self.done, self.block = {}, {}, []
        # The tasks that an earlier run did, and the crates that are not proved.
        self.kept, self.failed = set(), set()
        self.alone = threading.RLock()

    def sample(self):
        """Reads the running checks, and writes a line if none came for BEAT seconds."""
        with self.alone:
            if self.checks:
                self.checks.sample()
                for key in self.checks.running:
                    self.starts.setdefault(key, self.clock())
            if self.clock() - self.written >= BEAT:
                running = [f"{name} ({kind})" for name, kind in sorted(self.checks.running)] if self.checks else []
                self.say(f"at work: {', '.join(running) or 'rt'}")

    def seconds(self, key):
        """Returns the processor seconds that a task has taken."""
        return self.checks.total(*key) if self.checks else 0.0

    def left(self):
        """Returns an estimate of the seconds left.

        The work left takes at least its processor seconds on all cores, and at least those of its longest chain on one."""
        left = {}
        for key, weight in self.plan.tasks.items():
            if key not in self.done:
                left[key] = max(weight - self.seconds(key), LEAST_LEFT * weight)
        return self.stretch() * max(sum(left.values()) / self.cores, self.plan.longest_chain(left))

    def stretch(self):
        """Returns how many seconds a processor second of the proofs has taken so far, at least 1: more on a busy machine."""
        keys = [key for key in self.starts if key[1] in (PROOF, TESTS)]
        wall = sum(self.done.get(key, self.clock()) - self.starts[key] for key in keys)
        processor = sum(map(self.seconds, keys))
        return max(1.0, wall / processor) if processor >= LEAST_MEASURED else 1.0

    def say(self, text):
        """Writes a line: the number of tasks done, the time, the time left and `text`."""
        self.written = self.clock()
        at = self.written - self.begin
        self.write(f"test: {len(self.done)} of {len(self.plan.tasks)} done, {minutes(at)}, about {minutes(self.left())} left: {text}")

    def end(self, key, text):
        """Marks a task as done and writes its line."""
        if key not in self.plan.tasks or key in self.done:
            return
        self.done[key] = self.clock()
        processor, timed = self.seconds(key), ""
        if key in self.starts:
            wall = self.done[key] - self.starts[key]
            timed = f" in {wall:.0f} s ({processor:.0f} processor seconds)"
        self.say(f"{key[0]}: {text}{timed}")

    def end_kept_tests(self):
        """Marks the proofs of tests that no line named as kept: 'rt' prints none for them, and runs tests once all proofs have ended."""
        kept = [key for key in self.plan.tasks if key[1] == TESTS and key not in self.done and key[0] not in self.failed]
        for key in kept:
            self.done[key] = self.clock()
            self.kept.add(key)
        if kept:
            self.say(f"proofs of tests kept from earlier runs: {', '.join(name for name, _ in kept)}")

    def line(self, line):
        """Reads a line of 'rt ci'. Writes the line of a task that has ended, and what 'rt' says of failures."""
        with self.alone:
            text = line.rstrip("\n")
            proved = PROVED.match(text)
            if BLOCK.match(text):
                self.block = [text]
            elif proved:
                self.end_proof(text, proved)
            elif self.block:
                self.block.append(text)
            elif not self.end_by(text):
                self.write(text)

    def end_proof(self, text, proved):
        """Ends a proof: of one that failed, and where 'rt' has a note, with what 'rt' says of it."""
        is_failed = proved[3] != "proved"
        shown = [it for it in self.block if not DETAIL.match(it)] if is_failed else [it for it in self.block if it.startswith("rt: ")]
        self.block = []
        for it in shown:
            self.write(it)
        if is_failed:
            self.failed.add(proved[1])
            self.write(text)
        kind = TESTS if proved[2] else PROOF
        self.end((proved[1], kind), f"{'its tests are ' if proved[2] else ''}{'NOT PROVED' if is_failed else 'proved'}")

    def end_by(self, text):
        """Ends the task that a line tells the end of. Returns `False` if the line has to be shown."""
        kept, ran, tested = (form.match(text) for form in (IS_KEPT, RAN, TESTED))
        if kept:
            self.kept.add((kept[1], PROOF))
            self.end((kept[1], PROOF), "proof kept from an earlier run")
        elif ran or tested:
            self.end_kept_tests()
            self.end(((ran or tested)[1], RUN if ran else TEST_RUN), f"tests {tested[2]}" if tested else "wrote what its file stdout has")
            return ran or tested[2] == "passed"
        return kept

    def summary(self, total):
        """Returns the last lines: the crates that were kept, and the processor seconds of each crate, the dearest first."""
        proofs = [name for name in self.plan.crates if (name, PROOF) in self.kept]
        seconds = sorted(self.checks.crates().items(), key=lambda row: -row[1]) if self.checks else []
        rows = [f"{name} {spent:.0f}" for name, spent in seconds]
        lines = [f"test: proofs kept from earlier runs, {len(proofs)} of {len(self.plan.crates)}: {' '.join(proofs)}"] if proofs else []
        if rows:
            lines.append(f"test: processor seconds of the {min(DEAREST, len(rows))} dearest crates: {', '.join(rows[:DEAREST])}")
        if rows[DEAREST:]:
            lines.append(f"test: of the others: {', '.join(rows[DEAREST:])}")
        return [*lines, f"test: {total:.0f} processor seconds in all, {minutes(self.clock() - self.begin)}"]


    def measured(self):
        """Returns the rows of weights.txt, as far as this run proved the crates."""
        rows = []
        for name in self.plan.crates:
            keys = [key for key in ((name, PROOF), (name, TESTS)) if key in self.plan.tasks]
            if all(key in self.done and key not in self.kept and self.seconds(key) for key in keys):
                rows.append(" ".join([name, *(f"{self.seconds(key):.0f}" for key in keys)]))
        return rows


class Watch:
    """Samples a progress about each second while a process runs, in a `with`."""

    def __init__(self, progress):
        self.progress, self.ended = progress, threading.Event()
        self.thread = threading.Thread(target=self.work, daemon=True)

    def work(self):
        while not self.ended.wait(1):
            self.progress.sample()

    def __enter__(self):
        self.thread.start()
        return self.progress

    def __exit__(self, *_):
        self.ended.set()
        self.thread.join()


def checks_below(pid):
    """Returns the checks below a process, or nothing on a machine without /proc."""
    return Checks(pid) if os.path.isdir("/proc/self") else None
