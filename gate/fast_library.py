"""Makes the library for C, Rust and Python: lib/libtevondimby.a, lib/libtevondimby.so, and lib/BUILD, which names the build.

    python3 gate/fast_library.py [--checked | --proved]

The proved library is made of what 'rt lib' builds of the static library PROVED: --proved runs that, which proves all crates below. The
checked one is made of the bitcode that 'rt try' writes of the program crate EXPORTING (rt_try.py), compiled as the checked build of a
program is (checked_build.py): each check stays, and one that fails writes what failed and ends the process. With neither word it is the
proved one if 'rt lib' has built it and no source is newer. The functions of both are the exports that bindings/exports.txt lists.
"""
import os
import re
import shutil
import subprocess
import sys
import tempfile
import time

from checked_build import LIBRARY, kit, objects, run
from fast_build import CHECKED, COMPILING, READING, Speaker, is_current_since
from repository import TOP
from rt_try import Try

EXPORTING, PROVED = "checked_exports", "tevondimby_c"
ARCHIVE = f"{TOP}/crates/{PROVED}/out/lib{PROVED}.a"
NAME = "libtevondimby"
MAIN = re.compile(r"(?m)^define (?:dso_local )?i32 @main\(")
# An export is linked by its name; all else is local to the library.
SCRIPT = "{{ global: {}; local: *; }};\n"


def exports():
    """Returns the names of the exports."""
    with open(f"{TOP}/bindings/exports.txt", encoding="utf-8") as file:
        return [line.split()[0] for line in file if line.strip() and not line.startswith("#")]


def with_exports(module, names):
    """Returns the text of a module whose functions `names` of the program are C functions, and that has no `main`.

    A `ValueError` names an export that the program does not reach."""
    module = MAIN.sub('define internal i32 @"no main"(', module)
    for name in names:
        found = re.search(rf'(?m)^define internal ([^\n@]*)@"(\w+(?:::\w+)*::{name})"\(', module)
        if not found:
            raise ValueError(f"the program has no function {name}")
        module = module.replace(f'define internal {found[1]}@"{found[2]}"(', f"define {found[1]}@{name}(")
        module = module.replace(f'@"{found[2]}"', f"@{name}")
    return module


def link(parts, folder, room):
    """Links objects, or archives that count whole, to both forms of the library, in a new folder."""
    names, whole, new = exports(), f"{room}/tevondimby.o", f"{room}/new"
    os.mkdir(new)
    with open(f"{room}/names", "w", encoding="utf-8") as file:
        file.write(SCRIPT.format("; ".join(names)))
    with open(f"{room}/kept", "w", encoding="utf-8") as file:
        file.writelines(f"{name}\n" for name in names)
    run(f"{kit()}/toolchain/bin/ld.lld", "-r", "-o", whole, "--whole-archive", *parts, f"{kit()}/c/liblibc_c.a")
    run("objcopy", f"--keep-global-symbols={room}/kept", whole)
    run("ar", "rcs", f"{new}/{NAME}.a", whole)
    run("cc", "-shared", f"-Wl,--version-script={room}/names,-soname,{NAME}.so", whole, "-o", f"{new}/{NAME}.so")
    os.replace(new, folder)


def compile_library(bitcode, folder, root):
    """Compiles bitcode to both forms of the library, in a new folder. A `ValueError` or an `OSError` says why it cannot."""
    with tempfile.TemporaryDirectory(prefix="library-", dir=os.path.dirname(folder)) as room:
        made = objects(f"{kit()}/toolchain", bitcode, root, room, lambda module: with_exports(module, exports()), LIBRARY)
        link(made, folder, room)


class LibraryTry(Try):
    """A run of 'rt try' whose bitcode becomes a library. The bitcode stays for seconds, while it is compiled."""

    compiler_file, pause = os.path.realpath(__file__), 0.1


def copy(folder, lib, kind, begin):
    """Copies both forms of a build to `lib`, which says what kind it is. It is as new as the sources that it was made of."""
    os.makedirs(lib, exist_ok=True)
    for name in (f"{NAME}.a", f"{NAME}.so"):
        shutil.copyfile(f"{folder}/{name}", f"{lib}/.{name}")
        os.replace(f"{lib}/.{name}", f"{lib}/{name}")
    with open(f"{lib}/BUILD", "w", encoding="utf-8") as file:
        file.write(f"{kind}\n")
    os.utime(f"{lib}/BUILD", (begin, begin))


def keep(lib):
    """Makes the checked library and keeps it in a folder. Returns `True` if it did."""
    folder, speaker, begin = f"{TOP}/crates/{EXPORTING}", Speaker("bindings"), time.time()
    os.makedirs(f"{folder}/out", exist_ok=True)
    with tempfile.TemporaryDirectory(prefix="library-", dir=f"{folder}/out") as room:
        with LibraryTry(folder, room, "--steps", "1") as tried:
            tried.wait(tried.is_compiling, lambda: speaker.beat(COMPILING if tried.compiler else READING))
        if not tried.has_checked():
            for line in [f"the library was not made: {tried.why_unchecked()}", *tried.lines()]:
                speaker.say(line)
            return False
        copy(tried.checked, lib, CHECKED, begin)
    return True


def is_proved():
    """Returns `True` if 'rt lib' has built the proved library, and no source is newer."""
    return is_current_since(ARCHIVE, TOP)


def keep_proved(lib):
    """Makes the library of what 'rt lib' built, and keeps it in a folder."""
    with tempfile.TemporaryDirectory(prefix="library-", dir=os.path.dirname(ARCHIVE)) as room:
        link([ARCHIVE], f"{room}/library", room)
        copy(f"{room}/library", lib, "proved", os.path.getmtime(ARCHIVE))


def main(words):
    if len(words) == 3:
        try:
            compile_library(*map(os.path.abspath, words))
        except (OSError, ValueError) as error:
            sys.exit(str(error))
        return 0
    begin, lib = time.monotonic(), f"{TOP}/lib"
    if words == ["--proved"] and subprocess.run(["rt", "lib"], cwd=f"{TOP}/crates/{PROVED}").returncode:
        return 1
    if words == ["--checked"] or not is_proved():
        if not keep(lib):
            return 1
    else:
        keep_proved(lib)
    with open(f"{lib}/BUILD", encoding="utf-8") as file:
        kind = file.read().strip()
    print(f"bindings: lib/{NAME}.a and lib/{NAME}.so, the {kind} build, made in {time.monotonic() - begin:.0f} s")
    return 0


if __name__ == "__main__":
    sys.exit(main(sys.argv[1:]))
