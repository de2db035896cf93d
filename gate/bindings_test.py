"""Tests that the header, native.rs and _native.py declare the exports of bindings/exports.txt."""
import os
import re
import sys
import unittest

sys.dont_write_bytecode = True
TOP = os.path.dirname(os.path.dirname(os.path.realpath(__file__)))
sys.path.insert(0, f"{TOP}/gate")
import fast_library

# The form of each C type in the other languages. A buffer and what it gets have one type for ctypes.
RUST = {
    "const uint8_t *": ["*const u8"],
    "uint8_t *": ["*mut u8", "&mut u8"],
    "size_t": ["usize"],
    "size_t *": ["&mut usize"],
    "uint32_t": ["u32"],
    "tevondimby_handle *": ["*mut Handle"],
    "tevondimby_token *": ["*mut Token"],
    "tevondimby_element *": ["*mut Element"],
    "tevondimby_message *": ["*mut RawMessage"],
    "tevondimby_range *": ["*mut RawRange"],
}
BUFFERS = ("token", "element", "message", "range")
PYTHON = {
    "const uint8_t *": ["BYTES"],
    "uint8_t *": ["OUT", "OUT_U8"],
    "size_t": ["SIZE"],
    "size_t *": ["OUT_SIZE"],
    "uint32_t": ["U32"],
    "tevondimby_handle *": ["HANDLE"],
    **{f"tevondimby_{name} *": ["OUT"] for name in BUFFERS},
}
# An export of a crate: its name, its parameters and its body.
EXPORT = re.compile(r'(?s)extern "C" fn (\w+)\((.*?)\) -> u32(?: \{|\n.*?\n\{)\n(.*?)\n\}')


def text_of(path):
    """Returns the text of a file of the bindings."""
    with open(f"{TOP}/bindings/{path}", encoding="utf-8") as file:
        return file.read()


def listed():
    """Returns the C types of the arguments of each export, by name."""
    lines = [line.partition(" ") for line in text_of("exports.txt").splitlines() if line and not line.startswith("#")]
    return {name: types.split(", ") for name, _, types in lines}


def without_name(argument):
    """Returns the type of an argument of the header."""
    return re.sub(r"\w+$", "", argument).strip()


class Exports(unittest.TestCase):
    def assertTypes(self, declared, forms):
        self.assertEqual([*listed()], [name for name, _ in declared])
        for name, types in declared:
            wanted = listed()[name]
            self.assertEqual(len(wanted), len(types), name)
            for one, other in zip(wanted, types):
                self.assertIn(other, forms[one], name)

    def test_header(self):
        found = re.findall(r"(?m)^uint32_t (\w+)\((.*)\);$", text_of("c/tevondimby.h"))
        self.assertTypes([(name, [*map(without_name, arguments.split(", "))]) for name, arguments in found], {it: [it] for it in RUST})

    def test_rust(self):
        found = re.findall(r"pub fn (\w+)\((.*)\) -> u32;", text_of("rust/tevondimby/src/native.rs"))
        self.assertTypes([(name, re.findall(r"\w+: ([^,]+)", arguments)) for name, arguments in found], RUST)

    def test_python(self):
        found = re.findall(r'(?m)^    "(\w+)": \[(.*)\],$', text_of("python/tevondimby/_native.py"))
        self.assertTypes([(f"tevondimby_{name}", types.split(", ")) for name, types in found], PYTHON)

    def test_both_crates_have_all(self):
        for path in (f"{fast_library.EXPORTING}/src/main.rt", f"{fast_library.PROVED}/src/lib.rt"):
            with open(f"{TOP}/crates/{path}", encoding="utf-8") as file:
                defined = re.findall(r'extern "C" fn (\w+)\(', file.read())
            self.assertEqual(sorted(defined), sorted(fast_library.exports()), path)

    def test_both_crates_do_the_same(self):
        """The exports of the program are those of the static library without their contracts."""
        found = []
        for path in (f"{fast_library.EXPORTING}/src/main.rt", f"{fast_library.PROVED}/src/lib.rt"):
            with open(f"{TOP}/crates/{path}", encoding="utf-8") as file:
                # (the layout of a line depends on its length)
                found.append([["".join(part.split()).rstrip(",") for part in export] for export in EXPORT.findall(file.read())])
        self.assertEqual(len(found[0]), len(listed()))
        self.assertEqual(found[0], found[1])


class Modules(unittest.TestCase):
    MODULE = 'define internal i32 @"a::tevondimby_f"(i32 %x) #1 {\n}\n\ndefine i32 @main() #1 {\n  call i32 @"a::tevondimby_f"(i32 1)\n}\n'

    def test_exports_are_named(self):
        module = fast_library.with_exports(self.MODULE, ["tevondimby_f"])
        self.assertIn("define i32 @tevondimby_f(i32 %x)", module)
        self.assertIn("call i32 @tevondimby_f(i32 1)", module)
        self.assertIn('define internal i32 @"no main"()', module)

    def test_export_out_of_reach(self):
        with self.assertRaises(ValueError):
            fast_library.with_exports(self.MODULE, ["tevondimby_g"])


if __name__ == "__main__":
    unittest.main()
