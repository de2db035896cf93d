"""The must-fail edits that a run tries."""
import hashlib
import subprocess

from ledger import by_crate, read
from repository import TOP

# Edits in a sample, all of one crate: the first of a crate costs a proof of the crate, each further one some seconds.
SAMPLE = 8
# The maximum number of edits of a run, and of one crate in it: a run has to end in time, and each crate has its turn.
MOST = 100
MOST_OF_A_CRATE = 50
# The crates whose functions call one another: an edit of one function has all of them proved again, in a third of the time of the
# crate's proof. So a run tries one edit of each.
CYCLES = {"grammar_reader"}


def commit():
    """Returns the hash of the commit, or nothing outside a repository."""
    asked = subprocess.run(["git", "-C", TOP, "rev-parse", "HEAD"], capture_output=True)
    return asked.stdout if asked.returncode == 0 else b""


def shuffled(names):
    """Returns names in an order that depends on the commit."""
    seed = commit()
    return sorted(names, key=lambda name: hashlib.sha256(seed + name.encode()).hexdigest())


def without_cycles(edits):
    """Returns `edits` with at most one of each crate in CYCLES."""
    groups = by_crate(edits)
    excess = {edit for name in CYCLES for edit in shuffled(groups.get(name, []))[1:]}
    return {*edits} - excess


def within_time(edits):
    """Returns all edits if there are at most MOST, else MOST of them, of one crate at most MOST_OF_A_CRATE."""
    if len(edits) <= MOST:
        return {*edits}
    groups, taken = by_crate(edits), set()
    for name in shuffled(groups):
        count = min(MOST_OF_A_CRATE, MOST - len(taken))
        taken.update(shuffled(groups[name])[:count])
    return taken


def sample(known):
    """Returns the sample of `known`, the sums of recorded edits by path: some edits of one crate, which the commit picks."""
    seed = commit() or "".join(sorted(known.values())).encode()
    slices = [edits[at : at + SAMPLE] for edits in by_crate(known).values() for at in range(0, len(edits), SAMPLE)]
    return slices[int(hashlib.sha256(seed).hexdigest(), 16) % len(slices)] if slices else []


def changes_code(root, edit):
    """Returns `True` if an edit changes a file of src/, and not definitions or proofs only."""
    lines = read(f"{root}/{edit}").decode(errors="replace").splitlines()
    return any(line.startswith("file: src/") for line in lines)


class Selection:
    """The edits of a run of the gate, and the counts behind them."""

    def __init__(self, root, sums, rows, tries_all=False):
        self.sums = sums
        self.known = {edit: key for edit, key in sums.items() if rows.get(edit, ("",))[0] == key}
        self.sample = {*sample(self.known)}
        wanted = {*sums} if tries_all else {*sums} - {*self.known} | self.sample
        self.tried = wanted if tries_all else within_time(without_cycles(wanted))
        self.late = len(wanted) - len(self.tried)
        self.definitions = sum(not changes_code(root, edit) for edit in sums)

    def lines(self):
        """Returns the counts, as two lines."""
        late = f", {self.late} of them for time" if self.late else ""
        return [
            f"test: {len(self.sums)} must-fail edits, {len(self.known)} of them recorded; {self.definitions} change specs/ or proofs/ alone, and no body",
            f"test: {len(self.tried)} tried, {len(self.sample & self.tried)} of them as a sample; {len(self.sums) - len(self.tried)} left out{late}",
        ]
