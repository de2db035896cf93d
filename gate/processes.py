"""The checks below a running 'rt', as /proc shows them: each is a process of the prover with its crate's name as an argument."""
import os

PROOF, TESTS = "proof", "tests"
TICKS = os.sysconf("SC_CLK_TCK")
# The place of the word `check` or `build` among a check's arguments.
VERB = 1


def stat(pid):
    """Returns the parent of a process, its start and its processor seconds, those of its children that have ended included."""
    with open(f"/proc/{pid}/stat", encoding="utf-8", errors="replace") as file:
        fields = file.read().rpartition(")")[2].split()
    return int(fields[1]), fields[19], sum(map(int, fields[11:15])) / TICKS


def check_of(pid):
    """Returns the crate that a process checks, and what of it, or nothing if the process is no check."""
    with open(f"/proc/{pid}/cmdline", encoding="utf-8", errors="replace") as file:
        words = file.read().split("\0")
    if "--crate-name" not in words or words[VERB : VERB + 1] not in (["check"], ["build"]):
        return None
    return words[words.index("--crate-name") + 1], TESTS if "--test" in words else PROOF


def all_stats():
    """Returns `stat` of each process, by its number."""
    found = {}
    for name in os.listdir("/proc") if os.path.isdir("/proc") else []:
        if name.isdigit():
            try:
                found[int(name)] = stat(name)
            except (OSError, ValueError, IndexError):
                # The process has ended.
                pass
    return found


class Checks:
    """The checks below one process. Seconds are lower bounds: what a check does after its last sample is not seen."""

    def __init__(self, root):
        self.root = root
        # The crate and kind of each process that was seen, and the most seconds of each check, by process and start.
        self.kinds, self.seconds = {}, {}
        self.running = set()

    def sample(self):
        """Reads /proc once."""
        stats = all_stats()
        children = {}
        for pid, (parent, _, _) in stats.items():
            children.setdefault(parent, []).append(pid)
        self.running = set()
        for pid in children.get(self.root, []):
            self.visit(pid, stats, children)

    def visit(self, pid, stats, children):
        """Adds the seconds of the checks at and below a process."""
        key = pid, stats[pid][1]
        if not self.kinds.get(key):
            # Read again for each process that is no check: after a fork it has its parent's arguments for a moment.
            try:
                self.kinds[key] = check_of(pid)
            except (OSError, IndexError):
                return
        if self.kinds[key]:
            self.running.add(self.kinds[key])
            self.seconds[key] = max(self.seconds.get(key, 0), seconds_below(pid, stats, children))
            return
        for child in children.get(pid, []):
            self.visit(child, stats, children)

    def total(self, crate, kind):
        """Returns the processor seconds of a crate's checks of one kind."""
        return sum(seconds for key, seconds in self.seconds.items() if self.kinds[key] == (crate, kind))

    def crates(self):
        """Returns the processor seconds of each crate whose checks were seen."""
        totals = {}
        for key, seconds in self.seconds.items():
            crate = self.kinds[key][0]
            totals[crate] = totals.get(crate, 0) + seconds
        return totals


def seconds_below(pid, stats, children):
    """Returns the processor seconds of a process and of those below it."""
    return stats[pid][2] + sum(seconds_below(child, stats, children) for child in children.get(pid, []))
