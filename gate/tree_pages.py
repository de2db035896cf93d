"""The page docs/TREES.md: which children each node has, by the table of the grammar in crates/rust_grammar/specs.

    python3 gate/tree_pages.py            says if the page is not that of the table
    python3 gate/tree_pages.py --write    writes it
"""
import re
import sys

import ledger
from repository import TOP

PAGE = "docs/TREES.md"
SPECS = "crates/rust_grammar/specs"
SHARED = ["tuple_tail", "in_parentheses"]
FILES = ["Items", "Paths", "Types", "Patterns", "Statements", "Expressions", "Shared"]
HEAD = """# Trees

The children of each node, by the table of the grammar (`crates/rust_grammar/specs`); `gate/tree_pages.py` makes this page, and `./test` checks it. Trivia may be between any two elements.

| writing | meaning |
|---|---|
| `'let'` | a token; `IDENT`, `INT_NUMBER` and the like are tokens by their kind |
| `NODE( a b )` | a node with these children |
| `NODE( … a b )` | a node around all that the production has read so far, and these |
| `lead( a )` | what `a` reads, one node, in which all that the production has read so far stands first |
| `a \\| b` | the first of these that can begin there |
| `a?`, `a*`, `a+` | at most once, any number of times, at least once |
| `Name` | what the production `name` reads; its line begins with `Name` |
| `part` | what the line of that name says; `part(x)` with `x` in it |
| `list( a )` | elements with commas between them, the last comma optional |

Where a part is missing that has to be there, a message tells it, and the node goes without. What begins no element of a list is in an `ERROR`.
"""
# Spellings whose names are no text.
TEXTS = {"semi": ";", "comma": ",", "dot": ".", "dots": "..", "dots_eq": "..=", "l_paren": "(", "r_paren": ")", "l_curly": "{", "r_curly": "}", "at": "@", "contextual_dyn": "dyn"}
CLASSES = {"ident": "IDENT", "int": "INT_NUMBER", "float": "FLOAT_NUMBER", "char": "CHAR", "byte": "BYTE", "string": "STRING", "byte_string": "BYTE_STRING", "c_string": "C_STRING", "lifetime": "LIFETIME_IDENT", "shebang": "SHEBANG", "frontmatter": "FRONTMATTER"}
TOKEN = re.compile(r"\s*(<⟨|[⟨⟩⁅⁆▸▹()*⁺!∷]|\[\]|'[^'\s]+'|[^\s⟨⟩⁅⁆▸▹()∷!⁺*]+)")
INFIX = {"before", "before_any", "not_before", "∷"}
# Heads whose first argument is a look, and heads that change no child.
LOOKS, SAME = {"When", "Unless"}, {"off", "on", "more", "op", "Call", "One", "Want"}
# The names by which rules call the productions.
CALLS = {}


class Reader:
    """Reads a rule into nested tuples."""

    def __init__(self, text):
        self.tokens, self.at = TOKEN.findall(text), 0

    def next(self):
        return self.tokens[self.at] if self.at < len(self.tokens) else ""

    def take(self):
        self.at += 1
        return self.tokens[self.at - 1]

    def alternatives(self):
        parts = [self.sequence()]
        while self.next() == "or":
            self.take()
            parts.append(self.sequence())
        return parts[0] if len(parts) == 1 else ("or", parts)

    def sequence(self):
        parts = [self.postfixed()]
        while self.next() in ("▸", "▹"):
            self.take()
            parts.append(self.postfixed())
        return parts[0] if len(parts) == 1 else ("then", parts)

    def postfixed(self):
        part = self.applied()
        while True:
            if self.next() in ("*", "⁺"):
                part = ("some", part, "*" if self.take() == "*" else "+")
            elif self.next() == "!":
                self.take()
            elif self.next() in INFIX:
                self.take()
                part = ("look", part, self.applied())
            else:
                return part

    def applied(self):
        head = self.atom()
        arguments = []
        while self.next() and self.next() not in ("▸", "▹", "or", "*", "⁺", "!", "⟨", "<⟨", ")", "⟩", "⁆") and self.next() not in INFIX:
            arguments.append(self.atom())
        part = ("apply", head, arguments) if arguments else head
        while self.next() in ("⟨", "<⟨"):
            around = self.take() == "<⟨"
            part = ("node", part, around, self.alternatives())
            self.take()
        return part

    def atom(self):
        token = self.take()
        if token == "(":
            part = self.alternatives()
            self.take()
            return part
        if token == "⁅":
            part = ("some", self.alternatives(), "?")
            self.take()
            return part
        return ("word", token)


def spelling(name):
    """Returns what a spelling is shown as."""
    return CLASSES.get(name) or f"'{TEXTS.get(name, name)}'"


def outside(text):
    """Returns a text without what is in parentheses or quoted."""
    text = re.sub(r"'[^' ]+'", "'", text)
    while "(" in text:
        inner = re.sub(r"\([^()]*\)", "", text)
        if inner == text:
            break
        text = inner
    return text


def grouped(part):
    """Returns a part as one that can have a mark behind it."""
    text = shown(part)
    return f"({text})" if " " in outside(text) else text


def in_row(part):
    """Returns a part as one that can be among others."""
    text = shown(part)
    return f"({text})" if "|" in outside(text) else text


def call_shown(name, arguments):
    """Returns a part that is applied to others, as it is shown."""
    if name in LOOKS:
        return shown(arguments[1])
    if name in SAME:
        return shown(arguments[0])
    if name == "lead":
        return f"lead( {shown(arguments[0])} )"
    if name in ("Skip", "Say"):
        return "ERROR" if name == "Skip" else ""
    if name == "separator":
        return "','?"
    if name == "listed":
        return f"{shown(arguments[1])} list( {shown(arguments[2])} ) {shown(arguments[3])}"
    if name == "rest_listed":
        return f"list( {shown(arguments[1])} ) {shown(arguments[2])}"
    return f"{name}({', '.join(shown(a) or 'nothing' for a in arguments)})"


def shown(part):
    """Returns a part as the page shows it."""
    if part[0] == "word":
        quoted = re.fullmatch(r"'(.+)'", part[1])
        return spelling(quoted[1]) if quoted else {"Nothing": "", "Any": "any token", **CALLS}.get(part[1], part[1])
    if part[0] == "apply":
        return call_shown(part[1][1], part[2])
    if part[0] == "node":
        inner = " ".join(filter(None, ["…" if part[2] else "", shown(part[3])]))
        return f"{shown(part[1])}( {inner} )" if inner else f"{shown(part[1])}()"
    if part[0] == "some":
        return grouped(part[1]) + part[2]
    if part[0] == "then":
        return " ".join(filter(None, (in_row(p) for p in part[1])))
    if part[0] == "or":
        return " | ".join(shown(p) or "nothing" for p in part[1])
    return ""


def production_name(name):
    """Returns the name by which rules call a production."""
    return "".join(word.capitalize() for word in name.split("_"))


def definitions(text):
    """Returns the names and rules of a file: its parts, and the rows of its table."""
    text = "\n".join(line for line in text.splitlines() if not line.startswith("--"))
    rules = re.compile(r"^abbrev pub (\S+) : (?:[^\n]*→ )?Rule\n\1((?: \S+)*) =((?:.|\n)*?)(?=^\S|\Z)", re.M)
    found = [(name + (f"({', '.join(given.split())})" if given else ""), rule) for name, given, rule in rules.findall(text)]
    rows = re.compile(r"^(\w+) others (\w+) =((?:.|\n)*?)(?=^\S|\Z)", re.M)
    found += [(CALLS[name], rule) for _, name, rule in rows.findall(text) if name != "x"]
    return found


def page(root):
    """Returns the text of the page."""
    read = lambda name: ledger.read(f"{root}/{SPECS}/{name}.antt").decode()
    CALLS.update((name, production_name(name)) for name in re.findall(r"^  (\w+) : Production$", read("Rule"), re.M))
    CALLS.update((production, name) for name, production in re.findall(r"^(\w+) = Call (\w+)$", read("Calls"), re.M))
    out, makers = [HEAD], {}
    for name in FILES:
        out.append(f"## {name}\n\n```text")
        rows = definitions(read(name))
        if name == "Shared":
            rows += [row for row in definitions(read("Notation")) if row[0].split("(")[0] in SHARED]
        for left, rule in rows:
            part = Reader(rule).alternatives()
            right = shown(part) or "nothing"
            lines = [shown(p) or "nothing" for p in part[1]] if part[0] == "or" and len(right) > 100 else [right]
            out.append(f"{left} = " + "\n    | ".join(lines))
            kinds = re.findall(r"\b([A-Z][A-Z_]+)\(", right) + re.findall(r"\b([A-Z][A-Z_]+), ", right)
            for kind in kinds:
                makers.setdefault(kind, []).append(left)
        out.append("```\n")
    out.append("## Where each node is\n\n| node | in the line of |\n|---|---|")
    out += [f"| `{kind}` | {', '.join(f'`{m}`' for m in dict.fromkeys(makers[kind]))} |" for kind in sorted(makers)]
    return "\n".join(out) + "\n"


def main(words):
    made = page(TOP)
    if words == ["--write"]:
        with open(f"{TOP}/{PAGE}", "w", encoding="utf-8") as file:
            file.write(made)
        return 0
    try:
        kept = ledger.read(f"{TOP}/{PAGE}").decode()
    except OSError:
        kept = ""
    if kept != made:
        print(f"{PAGE} is not that of the table: python3 gate/tree_pages.py --write")
    return int(kept != made)


if __name__ == "__main__":
    sys.exit(main(sys.argv[1:]))
