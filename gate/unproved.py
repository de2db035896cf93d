"""The tests, and the programs that crates.txt lists as run and not proved, at the end of ./test.

They are compiled twice in all, as two crates that combine theirs (combined.py), by the checked build: it proves nothing, and has each
check of an index, a range, a sum and a cast (checked_build.py).
"""
import os
import re
import shutil
import subprocess
import tempfile
from concurrent.futures import ThreadPoolExecutor

import combined
import ledger
import repository
from checked_build import kit
from fast_build import stored
from rt_try import Try

# Runs the tests of a program, each in a process of its own, for at most ten minutes.
RUNNER = (f"{kit()}/bin/rattle-test", "--seconds", "600")
# What it prints of each.
TESTED = re.compile(r"test (\S+) \.\.\. (.*)")
UNIT_TEST = re.compile(rb"#\s*\[\s*test\s*\]")
# The seconds of a program, and of the program of all tests.
LIMIT = 1800
SHOWN = 12


class NotBuilt(Exception):
    """A combined crate does not compile."""


def build(root, room, name, *words):
    """Compiles a combined crate of a copy of the tree. Returns the path of its program."""
    os.mkdir(f"{room}/{name}")
    tried = Try(f"{root}/crates/{name}", f"{room}/{name}", "--steps", "1", *words)
    try:
        tried.wait(tried.is_compiling)
    finally:
        tried.stop()
    if not tried.has_checked():
        raise NotBuilt("\n".join([f"{name}: {tried.why_unchecked()}", *tried.lines()]))
    os.chmod(tried.checked, 0o755)
    return tried.checked


def tests_in(root, names):
    """Returns the number of tests in the sources of some crates."""
    return sum(len(UNIT_TEST.findall(ledger.read(file))) for name in names for file in repository.source_files(root, name))


def run_tests(program, count):
    """Runs a program of tests. Returns how many passed, and the failures; it fails as a whole unless it runs `count` tests."""
    ran = subprocess.run([*RUNNER, program], stdin=subprocess.DEVNULL, capture_output=True, text=True, errors="replace", timeout=LIMIT)
    results = [found.groups() for found in map(TESTED.match, ran.stdout.splitlines()) if found]
    passed = sum(result == "ok" for _, result in results)
    failed = [f"test {name.removeprefix('of_')}: {result or 'it did not end'}" for name, result in results if result != "ok"]
    if not failed and (ran.returncode or passed != count):
        last = "\n".join((ran.stdout + ran.stderr).splitlines()[-SHOWN:])
        failed = [f"tests: {passed} of {count} passed, status {ran.returncode}:\n{last}"]
    return passed, failed


def link_program(program, room, name):
    """Gives the program of all programs the path by which it runs that of a crate. Returns the path."""
    path = f"{room}/programs/{name}"
    os.makedirs(os.path.dirname(path), exist_ok=True)
    if not os.path.lexists(path):
        os.link(program, path)
    return path


def difference(output, wanted):
    """Returns where an output first differs from the one that is wanted, or nothing."""
    if output == wanted:
        return None
    at = next((at for at, (one, other) in enumerate(zip(output, wanted)) if one != other), min(len(output), len(wanted)))
    return f"its output differs from its file stdout first at byte {at + 1}, line {wanted[:at].count(10) + 1}"


def run_stored(root, path, name):
    """Runs a crate's program on its stored input. Returns its name and what is wrong, or nothing."""
    folder = f"{root}/crates/{name}"
    words = stored(folder, "args").decode(errors="surrogateescape").splitlines()
    with tempfile.TemporaryDirectory(prefix="run-") as room:
        if os.path.isdir(f"{folder}/data"):
            shutil.copytree(f"{folder}/data", room, dirs_exist_ok=True)
        ran = subprocess.run([path, *words], cwd=room, input=stored(folder, "stdin"), capture_output=True, timeout=LIMIT)
    wanted = int(stored(folder, "status") or b"0")
    if ran.returncode != wanted:
        last = "\n".join(ran.stderr.decode(errors="replace").splitlines()[-SHOWN:])
        return f"{name}: it ended with status {ran.returncode}, and not {wanted}:\n{last}"
    why = difference(ran.stdout, stored(folder, "stdout"))
    return why and f"{name}: {why}"


def programs_of(root, names):
    """Returns those of some crates that are programs."""
    return [name for name in names if repository.is_program(root, name)]


def run_programs(root, room, program, names, write):
    """Runs the programs of some crates on their stored inputs. Returns how many passed, and the failures."""
    paths = {name: link_program(program, room, name) for name in names}
    with ThreadPoolExecutor(repository.cores()) as pool:
        results = [*pool.map(lambda name: run_stored(root, paths[name], name), names)]
    for name, why in zip(names, results):
        write(f"test: {name}: {'FAILED' if why else 'wrote what its file stdout has'}")
    return results.count(None), [why for why in results if why]


def run_all(room, write):
    """Runs the tests and the programs of the crates that are not proved, in a new folder. Returns how many passed, and the failures."""
    if not repository.unproved(repository.TOP):
        return 0, []
    os.mkdir(room)
    root = repository.copy_in(room)
    names = repository.unproved(root)
    with_tests, programs = [name for name in names if repository.has_tests(root, name)], programs_of(root, names)
    combined.write_tests(root, with_tests)
    combined.write_programs(root, programs)
    try:
        with ThreadPoolExecutor(2) as pool:
            tests = pool.submit(build, root, room, combined.EVERY_TEST, "--test")
            runs = pool.submit(build, root, room, combined.EVERY_RUN)
            write(f"test: compiling the tests of {len(with_tests)} crates, and {len(programs)} programs that are not proved")
            of_tests = pool.submit(run_tests, tests.result(), tests_in(root, with_tests))
            of_programs = run_programs(root, room, runs.result(), programs, write)
            passed, failed = of_tests.result()
    except NotBuilt as error:
        return 0, [str(error)]
    write(f"test: {passed} tests passed, {len(failed)} failed")
    return passed + of_programs[0], [*failed, *of_programs[1]]
