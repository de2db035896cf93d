"""Tests of the runs on deeply nested texts."""
import json
import os
import sys
import tempfile
import unittest

import deep_texts
from repository import TOP

sys.path.insert(0, f"{TOP}/bench")
import deep

# A program that answers requests with the text that it is given by, and ends otherwise on texts of a kind.
ANSWERS = """#!/usr/bin/env python3
import json, sys
asked = json.load(sys.stdin)
text = asked["text"]
if text.startswith("mod"):
    sys.exit(1)
for command in asked["commands"]:
    changes = command.get("changes")
    start, end, put = (*changes[0]["at"][1:], changes[0]["with"][1]) if changes else (command["start"], command["end"], command["text"])
    text = text[:start] + put + text[end:]
print("\\n".join([json.dumps({"ok": "edit"})] * len(asked["commands"]) + [text]), end="")
"""


class DeepTexts(unittest.TestCase):
    def test_request_replaces_the_innermost_element(self):
        asked, wanted = deep.request("((", 2)
        self.assertEqual(json.loads(asked)["text"], "fn f(){((1));}")
        self.assertEqual(json.loads(asked)["commands"][1]["changes"][0]["at"], ["LITERAL", 10, 11])
        self.assertEqual(wanted, "fn f(){ ((2));}")

    def test_kind_that_is_not_answered_fails(self):
        with tempfile.TemporaryDirectory() as root:
            out = f"{root}/crates/document_tool/out"
            os.makedirs(out)
            with open(f"{out}/document_tool", "w", encoding="utf-8") as file:
                file.write(ANSWERS)
            os.chmod(f"{out}/document_tool", 0o755)
            lines = []
            self.assertEqual(deep_texts.failures(root, lines.append), ["document_tool, mod a{"])
            self.assertEqual(lines, [f"test: document_tool, deep texts on a stack of 8 MiB: {len(deep.KINDS) - 1} of {len(deep.KINDS)} kinds answered"])

    def test_repository_without_the_program_has_none(self):
        with tempfile.TemporaryDirectory() as root:
            self.assertEqual(deep_texts.failures(root, print), [])


if __name__ == "__main__":
    unittest.main()
