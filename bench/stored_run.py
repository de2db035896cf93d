"""The stored run of a program crate, made from a file of cases: a JSON object a line, each with a text."""
import json

END_OF_TEXT = "\x1e"


def cases(path):
    with open(path, encoding="utf-8") as lines:
        for line in lines:
            case = json.loads(line)
            assert END_OF_TEXT not in case["text"]
            yield case


def write(crate, records, answers):
    """Writes what the program reads, records that each end in a mark, and what it must print."""
    for name, parts in (("stdin", [record + END_OF_TEXT for record in records]), ("stdout", answers)):
        with open(f"{crate}/{name}", "w", encoding="utf-8", newline="") as out:
            out.write("".join(parts))
