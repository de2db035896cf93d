"""Tries must-fail edits of one crate together: many wrong bodies, each of another function, by one check of the crate.

A function's proof reads its own body and the contracts of what it calls. So the errors of a check in one function do not depend on
the bodies of others. An edit counts as refused here if it changes one function's body alone, the check says that this function is
not proved, and its own proof has an error at a goal. All other edits have to be tried alone.
"""
import re
import subprocess

# The first line of a function: its indent, `const ` if it is constant, and its name.
FUNCTION = re.compile(r"( *)(?:pub(?:\([a-z]+\))? )?(?:extern \"C\" )?(const )?fn (\w+)")
# The head of an impl: its parameters, its trait, if any, and its type. The head of a trait: its name.
IMPL = re.compile(r"impl(?:<(.*?)>)? (?:([^{]*?) for )?([^{]*?)(?: where .*)? ?\{?$")
TRAIT = re.compile(r"(?:pub(?:\([a-z]+\))? )?trait (\w+)")
# What a check says of a function.
SAID = re.compile(r"fn (\S+): (.*)")
# The file of an error and the goal that it names.
ERROR = re.compile(r"(?:\./)?(\S+?):\d+:\d+: error: (?:`([^`]*)`)?")
# A function without proof files with a goal that `search` did not prove; a function of which not all goals were tried.
UNPROVED = re.compile(r"no proof: .*`search` did not prove `")
UNTRIED = re.compile(r"note: `search` has not tried the goals of `([^`]*)`")
# An error that says little of a contract: a proof names what an edit removed, or cites another proof that has an error.
OF_NAMES = re.compile(r"has no field|is not in scope|has no `|was not admitted")
# An error of a check that reached no proof: the file and the line.
BROKEN = re.compile(r"(?:\./)?(src/\S+?):(\d+):\d+: error\b")
# What a check says of a function that it does not find by the name that it was asked for.
UNKNOWN = re.compile(r".*error: `[^`]*` has no function `([^`]*)`")
# The folder of a cycle of calls, below that of its module.
CYCLE = re.compile(r"proofs/(.*?)/?\+\w+/")
IN_CYCLE = re.compile(r"\bproofs/(?:[^\s/]+/)*\+\w+(?=/)")


def read(path):
    with open(path, encoding="utf-8") as file:
        return file.read()


def write(path, text):
    with open(path, "w", encoding="utf-8") as file:
        file.write(text)


class Body:
    """A function's body: its range in a file, and the function's name in a check, a path in the crate, or for a method its end."""

    def __init__(self, first, end, name, is_method):
        self.first, self.end, self.name, self.is_method = first, end, name, is_method


def opens_body(line, indent, is_first):
    """Returns `True` if a line of a function's head is its last."""
    return line == indent + "{" or (is_first or line.startswith(indent + ")")) and line.endswith("{")


def body_lines(lines, at, indent):
    """Returns the first line of the body of the function that begins at a line, and the line that closes it, or nothing."""
    for opening in range(at, len(lines)):
        if opening > at and FUNCTION.match(lines[opening]):
            return None
        if opens_body(lines[opening], indent, opening == at):
            closing = next((n for n in range(opening, len(lines)) if lines[n] == indent + "}"), None)
            return closing and (opening + 1, closing)
    return None


def words_of(type_or_trait, parameters):
    """Returns the names in a type or a trait, without those of modules and of parameters, each with a capital."""
    names = re.findall(r"(?<!')\b[A-Za-z]\w*\b(?!::)", type_or_trait)
    return [f"{name[0].upper()}{name[1:]}" for name in names if name not in parameters]


def name_of(file, lines, at, indent, function):
    """Returns the name in a check of the function that begins at a line: by its module, by the type and the trait of its impl, or by
    its trait. Returns nothing for a function inside another item."""
    if not indent:
        module = [part for part in file.removesuffix(".rt").split("/")[1:] if part not in ("lib", "main", "mod")]
        return "::".join([*module, function])
    head = next(line for line in reversed(lines[:at]) if re.match(r"\S", line))
    around, trait = IMPL.match(head), TRAIT.match(head)
    if not around:
        return trait and f"{trait[1]}::{function}"
    parameters = re.findall(r"(?:^|, )(\w+)", around[1] or "")
    of_type = words_of(around[3], parameters)
    return f"{''.join([*of_type, *words_of(around[2], parameters)]) if around[2] else '+'.join(of_type)}::{function}"


def bodies(file, text):
    """Returns the bodies of the functions in a file without constant ones: contracts of others can name their values."""
    lines, begins, found = text.split("\n"), [0], []
    for line in lines:
        begins.append(begins[-1] + len(line) + 1)
    for at, line in enumerate(lines):
        head = FUNCTION.match(line)
        inside = head and not head[2] and body_lines(lines, at, head[1])
        name = inside and name_of(file, lines, at, head[1], head[3])
        if name:
            found.append(Body(begins[inside[0]], begins[inside[1]], name, bool(head[1])))
    return found


def changes(folder, edit):
    """Returns the changes of an edit: of each the file, the range that it replaces, and the new text. Returns nothing if the file does
    not have an old text exactly once."""
    found, file, at = [], None, None
    for line in read(edit).split("\n"):
        if line.startswith("file: "):
            file = line.removeprefix("file: ").strip()
        elif line.startswith("old: "):
            old, text = line.removeprefix("old: "), read(f"{folder}/{file}")
            if text.count(old) != 1:
                return []
            at = text.index(old), text.index(old) + len(old)
        elif line.startswith("new:"):
            found.append((file, *at, line.removeprefix("new:").removeprefix(" ")))
    return found


def body_around(folder, made):
    """Returns the body that contains all changes of an edit, or nothing."""
    files = {file for file, *_ in made}
    if len(files) != 1 or not made[0][0].startswith("src/"):
        return None
    text = read(f"{folder}/{made[0][0]}")
    around = [it for it in bodies(made[0][0], text) if all(it.first <= first and end < it.end for _, first, end, _ in made)]
    return around[0] if len(around) == 1 else None


def of_different_functions(folder, edits):
    """Returns a round: of the edits that change one body alone the first of each function, with its body and its changes."""
    firsts = {}
    for edit in sorted(edits):
        made = changes(folder, edit)
        body = body_around(folder, made)
        if body:
            firsts.setdefault((made[0][0], body.first), (edit, body, made))
    return [*firsts.values()]


def edited(folder, tried):
    """Returns the texts of a crate's files after all edits of a round."""
    made = sorted((change for _, _, changes in tried for change in changes), reverse=True)
    texts = {file: read(f"{folder}/{file}") for file, *_ in made}
    for file, first, end, new in made:
        texts[file] = texts[file][:first] + new + texts[file][end:]
    return texts


def check(folder, texts, names):
    """Checks these functions of a crate with these texts and restores its own. Returns the lines of the check."""
    own = {file: read(f"{folder}/{file}") for file in texts}
    only = [word for name in sorted(names) for word in ("--only", name)]
    try:
        for file, text in texts.items():
            write(f"{folder}/{file}", text)
        how = {"cwd": folder, "stdout": subprocess.PIPE, "stderr": subprocess.STDOUT, "stdin": subprocess.DEVNULL, "errors": "replace"}
        return subprocess.run(["rt", "check", "--jobs", "1", *only], **how).stdout.splitlines()
    finally:
        for file, text in own.items():
            write(f"{folder}/{file}", text)


def errors(lines):
    """Returns the errors of a check without those of names: of each its line, after its file. For a file of a cycle of calls, the
    path of the function whose goal it names replaces the file."""
    found = []
    for line in lines:
        at = None if OF_NAMES.search(line) else ERROR.match(line)
        cycle = at and CYCLE.match(at[1])
        if cycle:
            found.append(("::".join([*cycle[1].split("/"), (at[2] or "").partition("-")[0]]).removeprefix("::"), line))
        elif at:
            found.append((at[1], line))
    return found


def said_in(lines):
    """Returns the verdict of a check on each function, by its path."""
    return {found[1].partition("::")[2]: found[2] for found in map(SAID.match, lines) if found}


def wrong_in(lines):
    """Returns the functions that have an unproved goal of their own, by path, each with a line of the check."""
    untried = {found[1].partition("::")[2] for found in map(UNTRIED.match, lines) if found}
    places, wrong = errors(lines), {}
    for name, said in said_in(lines).items():
        proof = f"proofs/{name.replace('::', '/')}/"
        its = [line for place, line in places if place == name or place.startswith(proof)]
        if said.startswith("not proved") and its:
            wrong[name] = its[0]
        elif UNPROVED.match(said) and name not in untried:
            wrong[name] = said
    return wrong


def is_named(body, name):
    """Returns `True` if a check can mean the function of `body` by `name`."""
    return name == body.name or body.is_method and name.endswith(f"::{body.name}")


def cycle_of(line):
    """Returns the folder of the cycle of calls in whose proof an error lies, or nothing."""
    found = IN_CYCLE.search(line)
    return found and found[0]


def meant_in(wrong, tried):
    """Returns those of the wrong functions for which a check counts: all, if edits change all of them. A wrong function that no edit
    changes voids the check, but where another of its cycle of calls is changed and wrong, it voids that cycle alone."""
    changed = {name for name in wrong if any(is_named(body, name) for _, body, _ in tried)}
    unclear = {cycle_of(line) for name, line in wrong.items() if name not in changed}
    if None in unclear or not unclear <= {cycle_of(wrong[name]) for name in changed}:
        return {}
    return {name: line for name, line in wrong.items() if cycle_of(line) not in unclear}


def refused_in(lines, tried):
    """Returns the edits of a round that a check refused, each with a line of the check.

    If methods of several types have one name, as many of them have to be wrong as were changed."""
    wrong, groups, found = meant_in(wrong_in(lines), tried), {}, {}
    for edit, body, _ in tried:
        groups.setdefault((body.name, body.is_method), []).append((edit, body))
    for group in groups.values():
        its = [line for name, line in wrong.items() if is_named(group[0][1], name)]
        if len(its) == len(group):
            found.update(zip((edit for edit, _ in group), its))
    return found


def waiting_in(lines, tried):
    """Returns the edits of a round whose functions call one that is not proved: some of their goals may not have been tried."""
    calls = [name for name, said in said_in(lines).items() if "it calls" in said]
    return {edit for edit, body, _ in tried if any(is_named(body, name) for name in calls)}


def broken_in(folder, lines, tried):
    """Returns the edits of a round for which a check reached no proof: an error lies in the body that they change, or the check does not
    find the function."""
    if said_in(lines):
        return set()
    places = {(found[1], int(found[2])) for found in map(BROKEN.match, lines) if found}
    unknown = {found[1] for found in map(UNKNOWN.match, lines) if found}
    broken = {edit for edit, body, _ in tried if body.name in unknown}
    for edit, body, made in tried:
        file = made[0][0]
        text = read(f"{folder}/{file}")
        # (an edit is made of whole lines, so the numbers of lines stay)
        first, last = (text.count("\n", 0, at) + 1 for at in (body.first, body.end))
        if any(it == file and first <= line <= last for it, line in places):
            broken.add(edit)
    return broken


def try_round(folder, tried):
    """Tries the edits of a round by one check. Returns its lines."""
    return check(folder, edited(folder, tried), {body.name for _, body, _ in tried})


def refused(folder, edits, tries_alone=True):
    """Tries edits of a crate in rounds. Yields those that are refused, each with a line of the check, after each round.

    An edit that does not compile is left out of the next round. When a round refuses none, those that are left are tried one by one
    if `tries_alone`."""
    left, aside = {*edits}, set()
    while tried := of_different_functions(folder, left - aside):
        lines = try_round(folder, tried)
        now, broken = refused_in(lines, tried), broken_in(folder, lines, tried)
        yield from now.items()
        left -= {*now}
        if not now and not broken:
            break
        aside |= broken or {edit for edit, _, _ in tried} - waiting_in(lines, tried)
    if tries_alone:
        yield from alone(folder, left)


def alone(folder, edits):
    """Tries edits of a crate one by one, those that change one body. Yields those that are refused, each with a line of the check."""
    for edit in sorted(edits):
        tried = of_different_functions(folder, [edit])
        if tried:
            yield from refused_in(try_round(folder, tried), tried).items()
