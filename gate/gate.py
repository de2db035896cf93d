"""The gate, ./test. Its last line is 'N passed, M failed'.

    ./test            proves each crate of the product with 'rt ci', over a copy of the tree, and runs each program on its stored input.
                      Then it tries must-fail edits over what that built (trying.py). It leaves out the edits that a crate's ledger has as
                      refused over the same sources and the same definitions and contracts below, but for a sample of one crate. Of the
                      others it tries at most 100, of one crate at most 50; the commit picks them.
                      Beside that it runs the tests and the programs of the crates that crates.txt lists as run and not proved
                      (unproved.py), some of the programs with each request for memory refused in turn (refusals.py), document_tool and
                      the command on deeply nested texts (deep_texts.py), and the command as a person calls it (command_calls.py)
    ./test --all      proves the crates of tests and measuring, too
    ./test --edits    tries all must-fail edits
    ./test --quick    proves nothing: runs the tests and each program on its stored input
    ./test --list     prints the edits that ./test would try, and runs nothing

gate/edits.py tries the edits that no ledger has, and records them.
"""
import os
import re
import resource
import sys
import tempfile
from concurrent.futures import ThreadPoolExecutor

import command_calls
import deep_texts
import lanes
import ledger
import progress
import quick
import refusals
import repository
import trying
import unproved
import whole
from repository import fail
from selection import Selection

OUT = f"{os.path.dirname(os.path.realpath(__file__))}/out"
COUNTS = re.compile(r"(\d+) passed, (\d+) failed$")
# What 'rt ci' prints of a crate, a test or a program that failed.
FAILED = re.compile(r"rt: .*(NOT PROVED|FAILED|ended with|differs)")
# The lines before a failure that are printed with it at the end.
SHOWN = 10
LOG, MEASURED = f"{OUT}/ci.log", f"{OUT}/weights.txt"
MODES = ("--all", "--edits", "--list")


def run_ci(at, plan):
    """Proves the crates in a folder (lanes.py, whole.py), runs 'rt ci' there and writes the progress; LOG has all lines, MEASURED the weights.
    Returns the status of 'rt ci' and its lines; if a crate is not proved before, those of its proof."""
    lines = []
    os.makedirs(OUT, exist_ok=True)
    with open(LOG, "w", encoding="utf-8") as log:
        state = progress.Progress(plan, repository.cores(), progress.checks_below(os.getpid()), write=write)

        def read(some):
            log.writelines(some)
            lines.extend(some)
            for line in some:
                state.line(line)

        with progress.Watch(state):
            proved, failed = ([], []) if whole.is_wanted() else prove_apart(at, plan, read)
            status = run_all(at, state, lines, log) if not failed else 1
    used = resource.getrusage(resource.RUSAGE_CHILDREN)
    for line in state.summary(used.ru_utime + used.ru_stime):
        write(line)
    with open(MEASURED, "w", encoding="utf-8") as file:
        file.writelines(f"{row}\n" for row in state.measured())
    if failed:
        lines.append(f"{len(proved)} passed, {len(failed)} failed\n")
    return status, lines or [""]


def prove_apart(at, plan, read):
    """Proves the crates in a folder, each by itself. Returns those that are proved, and those that are not."""
    proofs = lanes.Lanes(at, plan, lanes.kept_crates(at), read)
    proofs.run()
    return proofs.proved, proofs.failed


def run_all(at, state, lines, log):
    """Runs 'rt ci' in a folder and adds its lines. Returns its status."""
    with whole.start(at) if whole.is_wanted() else repository.start_rt(at, "ci") as ran:
        for line in ran.stdout:
            log.write(line)
            # The last line is printed after the summary: one with counts waits for the next line.
            if lines and COUNTS.match(lines[-1]):
                state.line(lines[-1])
            if not COUNTS.match(line):
                state.line(line)
            lines.append(line)
    return ran.returncode


def write(line):
    """Prints a line at once."""
    print(line, flush=True)


def select(copied, mode):
    """Returns the edits to try in a copy of the tree; fails if their sums or the ledgers cannot be read."""
    try:
        return Selection(copied, ledger.Sums(copied).edits(), ledger.recorded_edits(copied), tries_all=mode == "--edits")
    except (OSError, ValueError, LookupError) as error:
        fail(f"the sums of the edits cannot be computed: {error!r}")


def counts_of_failure(line):
    """Returns the last line of a run that did not pass."""
    counts = COUNTS.match(line)
    return f"{counts[1]} passed, {int(counts[2]) or 1} failed" if counts else "0 passed, 1 failed"


def failures_in(lines):
    """Returns the lines of 'rt ci' that say what failed, each with the SHOWN lines before it that are not of what passed."""
    told = [line.rstrip("\n") for line in lines if not progress.DETAIL.match(line)]
    found = [at for at, line in enumerate(told) if FAILED.match(line)]
    return [told[number] for number in sorted({number for at in found for number in range(max(0, at - SHOWN), at + 1)})]


def write_failure(lines):
    """Writes what failed of a run of 'rt ci', and the counts as the last line."""
    for line in failures_in(lines):
        write(line)
    write(f"test: not all passed; {os.path.relpath(LOG, repository.TOP)} has what 'rt ci' printed")
    write(counts_of_failure(lines[-1]))


def set_edits_aside(copied, room):
    """Moves the must-fail edits out of a copy of the tree: 'rt ci' would prove a crate twice for each that has some."""
    for name in os.listdir(f"{copied}/crates"):
        folder = f"{copied}/crates/{name}/must-fail"
        if os.path.isdir(folder):
            os.makedirs(f"{room}/edits", exist_ok=True)
            os.rename(folder, f"{room}/edits/{name}")


def put_edits_back(copied, room):
    """Moves the edits back."""
    for name in os.listdir(f"{room}/edits") if os.path.isdir(f"{room}/edits") else []:
        os.rename(f"{room}/edits/{name}", f"{copied}/crates/{name}/must-fail")


def try_edits(copied, tried):
    """Tries edits over what a run built in a copy of the tree. Returns how many were refused, and the failures."""
    passed, failed = 0, []
    groups = ledger.by_crate(tried)
    for name, refused in trying.try_all(copied, groups, write):
        passed += len(refused)
        failed += [f"no open goal refuses {edit}" for edit in groups[name] if edit not in refused]
    return passed, failed


def run_unproved(room, proves_all):
    """Runs the tests, and the programs that are not proved, in a folder; then programs with requests for memory refused and on deep texts.
    Returns how many tests and programs passed, and the failures. If all was proved, the tests and the programs were run, too."""
    passed, failed = (0, []) if proves_all else unproved.run_all(room, write)

    def path_of(name):
        path = f"{room}/programs/{name}"
        return path if os.path.exists(path) else f"{repository.TOP}/crates/{name}/out/{name}"

    if not failed:
        failed = refusals.failures(repository.TOP, path_of, write) + deep_texts.failures(repository.TOP, write)
        failed += command_calls.failures(path_of, write)
    return passed, failed


def test(room, copied, tried, proves_all):
    """Runs the gate over a copy of the tree. Returns its status."""
    set_edits_aside(copied, room)
    plan = progress.Plan(copied)
    status, lines = run_ci(copied, plan)
    repository.restore_builds(copied)
    # 'rt' alone does not decide: each crate has to pass.
    if status or lines[-1] != f"{len(plan.crates)} passed, 0 failed\n":
        write_failure(lines)
        return status or 1
    put_edits_back(copied, room)
    with ThreadPoolExecutor(2) as pool:
        parts = [pool.submit(try_edits, copied, tried), pool.submit(run_unproved, f"{room}/unproved", proves_all)]
        results = [part.result() for part in parts]
    failed = [why for _, failures in results for why in failures]
    for why in failed:
        write(f"test: FAILED: {why}")
    write(f"{len(plan.crates) + sum(passed for passed, _ in results)} passed, {len(failed)} failed")
    return int(bool(failed))


def main(words):
    if words == ["--quick"]:
        return quick.main()
    if words == ["--help"]:
        print(__doc__, end="")
        return 0
    mode = words[0] if len(words) == 1 else ""
    if words and mode not in MODES:
        fail(f"./test takes --quick, --all, --edits or --list, and not {' '.join(words)}")
    with tempfile.TemporaryDirectory(prefix="gate-") as room:
        copied = repository.copy_in(room)
        repository.remove_unproved(copied, proves_all=mode == "--all")
        selection = select(copied, mode)
        for line in selection.lines():
            write(line)
        if mode == "--list":
            print("".join(f"{edit}\n" for edit in sorted(selection.tried)), end="")
            return 0
        for edit in {*selection.sums} - selection.tried:
            os.remove(f"{copied}/{edit}")
        return test(room, copied, selection.tried, mode == "--all")


if __name__ == "__main__":
    sys.exit(main(sys.argv[1:]))
