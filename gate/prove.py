#!/usr/bin/env python3
"""Proves crates of the working tree, and keeps the proofs as the gate does where the kit keeps none (whole.py).

    gate/prove.py            copies the libraries that this machine keeps of this very tree to crates/NAME/out/rlib, for checks over them,
                             and prints which crates have one and which lack one
    gate/prove.py NAME ..    proves these crates from nothing, each by one job, over the kept libraries of those below, and keeps them
"""
import os
import shutil
import sys
import tempfile

import lanes
import ledger
import repository
import whole


def give(root, store):
    """Copies the kept libraries to a tree, and removes others that an earlier call copied. Returns the crates that have one, and those
    that lack one."""
    have, lack = [], []
    for name in store.lines:
        if repository.is_program(root, name):
            continue
        kept, out = f"{store.folder}/{store.key(name)}/rlib", f"{root}/crates/{name}/out"
        mark = f"{out}/kept"
        if os.path.isdir(kept):
            if not os.path.isfile(mark) or ledger.read(mark).decode() != store.key(name):
                shutil.rmtree(f"{out}/rlib", ignore_errors=True)
                shutil.copytree(kept, f"{out}/rlib", symlinks=True)
                with open(mark, "w", encoding="utf-8") as file:
                    file.write(store.key(name))
        elif os.path.isfile(mark):
            shutil.rmtree(f"{out}/rlib", ignore_errors=True)
            os.remove(mark)
        (have if os.path.isdir(kept) else lack).append(name)
    return have, lack


def prove(copied, rt, name):
    """Proves a crate of a copy of the tree. Returns `True` if it is proved, and then it is kept."""
    store = whole.Store(copied, rt.KIT)
    crate = {it.name: it for it in rt.rtlib.crates_below(copied)}[name]
    lacking = [it.name for it in crate.below() if not store.give(it.name)]
    if lacking:
        print(f"{name}: not kept yet below it: {' '.join(lacking)}")
        return False
    rt.rtlib.stop_on_text(crate, "verdict")
    rt.stop_on_words(crate)
    os.makedirs(f"{crate.folder}/out", exist_ok=True)
    crate.out = sys.stdout
    return not rt.rtlib.fmt(crate.folder, "--check", crate.out) and not whole.keeping(store, rt.Crate.ci, rt.say)(crate, ["--jobs", "1"], False)


def main(names):
    rt = lanes.kit()
    if not names:
        have, lack = give(repository.TOP, whole.Store(repository.TOP, rt.KIT))
        print("have", *have)
        print("lack", *lack)
        return 0
    with tempfile.TemporaryDirectory(prefix="prove-") as room:
        copied = repository.copy_in(room)
        os.chdir(copied)
        rt.Crate.allowed, rt.Crate.cuts_libraries = rt.handles_of(copied), True
        rt.rtlib.Crate = rt.Crate
        made = rt.Crate.__init__

        def make(crate, *given, **named):
            made(crate, *given, **named)
            rt.read_files(crate)

        rt.Crate.__init__ = make
        rt.rtlib.guarded()
        proved = [name for name in names if prove(copied, rt, name)]
    print(f"{len(proved)} passed, {len(names) - len(proved)} failed")
    return int(len(proved) < len(names))


if __name__ == "__main__":
    sys.exit(main(sys.argv[1:]))
