"""The public calls that can run out of memory, and whether a table of `memory_suite`, of `document_memory_suite`, of
`file_memory_suite` or of `command_suite` has each.

    python3 gate/allocating_calls.py    prints the calls that the tables lack, and the names in them that no call has

A call can run out of memory if it returns a `Result` whose error can be that: `AllocError`, or a type with a variant for it. An
iterator is tried by the call that makes it, and a conversion of errors makes no request.
"""
import glob
import os
import re
import sys

import ledger
from repository import TOP

# The crates with the tables.
TABLES = ("*memory_suite", "command_suite")
# Crates whose calls are not the product's own come after this line of crates.txt: tests and measurements, and the library whose exports
# are not proved yet.
END_OF_PRODUCT = "# Run and not proved"
# The parts of the program `tevondimby`, which runs their calls.
PARTS_OF_PROGRAM = {"command_inputs", "command_options", "command_patterns", "command_reasons", "command_renames", "lsp_command"}
# Crates whose calls are in no table yet.
WITHOUT_ROWS = {"document_rows", "document_views", "language_session", "match_rows", "message_frames", "pattern_parser", "session_server", "session_words", "text_changes", "tree_patterns", "tree_replace", "tree_search"}
# Calls that are steps of others, and those of the table that make them: the changes of a plan, for one, are known to `tree_rewrite`
# alone. A call of `rust_source` is the document's, with the allocator and the numbers that the source holds.
MADE_BY = {
    "file_target::Target::read": "file_target::Memory::read",
    "file_target::Target::write": "file_target::Memory::write",
    "line_reader::Client::answer": "document_requests::Dialogue::answer",
    "parser_events::StrSink::step": "rust_document::Document::open",
    "parser_events::shortcuts::intersperse_trivia": "rust_document::Document::open",
    "parser_input::LexedStr::from_tokens": "rust_document::Document::edit",
    "rowan_green::NodeOrToken::to_owned": "rowan_green::GreenNode::clone",
    "rust_document::Document::try_rewrite": "rust_source::Source::preview",
    "rust_source::Source::commit": "rust_document::Document::commit",
    "rust_source::Source::commit_without_messages": "rust_document::Document::commit_without_messages",
    "rust_source::Source::difference": "rust_document::Document::difference",
    "rust_source::Source::edit": "rust_document::Document::edit",
    "rust_source::Source::editor": "rust_document::Document::editor",
    "rust_source::Source::find": "rust_document::Document::find",
    "rust_source::Source::is_plain_rename": "rust_document::Document::is_plain_rename",
    "rust_source::Source::make_token": "syntax_editor::SyntaxFactory::token",
    "rust_source::Source::open": "rust_document::Document::open",
    "rust_source::Source::open_by": "rust_document::Document::open_by",
    "rust_source::Source::payload": "rust_document::payload",
    "rust_source::Source::try_commit": "rust_document::Document::try_commit",
    "source_rewrites::commands_of_files": "source_rewrites::rewrite_files",
    "source_rewrites::rewrite_bytes": "source_rewrites::plan_rewrites",
    "source_tools::encode": "source_tools::rename_bytes",
    "source_tools::view_bytes": "source_tools::show",
    "source_tools::view_file": "source_tools::show",
    "source_tools::write_changes": "source_tools::rename_files",
    "syntax_tree::Element::syntax_element": "syntax_tree::SyntaxNode::syntax_element",
    "syntax_tree::elements::node": "syntax_tree::SyntaxToken::detached",
    "tree_rewrite::Change::into_tree_change": "syntax_editor::SyntaxEditor::rewritten",
    "tree_rewrite::MappedNodes::images": "annotated_elements::following::followed",
    "tree_rewrite::MappedNodes::new": "tree_rewrite::Plan::build",
    "tree_rewrite::TreeChange::copied": "syntax_editor::SyntaxEditor::rewritten",
    "tree_rewrite::TreeChange::moved_to": "syntax_editor::SyntaxEditor::rewritten",
    "tree_rewrite::origins::origins_of": "syntax_editor::SyntaxEditor::finish",
    "tree_rewrite::piece::push_pieces": "syntax_editor::SyntaxEditor::rewritten",
    "tree_rewrite::way_map::put": "syntax_editor::SyntaxEditor::rewritten",
}
# The calls of typed nodes, by the call of `SyntaxNode` that each is.
PARTS = {
    "child": "AttrParts::meta EnumParts::variant_list FnParts::body FnParts::param_list FnParts::ret_type HasArgList::arg_list"
    " HasGenericParams::generic_param_list HasGenericParams::where_clause HasName::name HasVisibility::visibility"
    " ImplParts::assoc_item_list LetParts::let_else MethodCallParts::generic_arg_list MethodCallParts::name_ref"
    " StructParts::record_field_list StructParts::tuple_field_list UseParts::use_tree",
    "children": "HasElements::elements",
    "children_of": "HasAttributes::attributes",
    "children_with_tokens": "LetParts::initializer after::node_after",
    "clone": "Attr::clone Call::clone Enum::clone Impl::clone Let::clone MethodCall::clone",
    "first_child": "CallParts::callee LetParts::pattern MethodCallParts::receiver",
}
MADE_BY.update((f"typed_nodes::{name}", f"syntax_tree::SyntaxNode::{call}") for call, names in PARTS.items() for name in names.split())
COMMENT = re.compile(r"//.*")
MODULE = re.compile(r"^(pub )?mod (\w+);", re.M)
PUBLIC_USE = re.compile(r"^pub use (\w+)::(?:\{([^}]*)\}|(\w+));", re.M)
USE = re.compile(r"^use (?:crate|super)(?:::(\w+))?::(?:\{([^}]*)\}|(\w+));", re.M)
TYPE = re.compile(r"^pub (?:struct|enum|trait|type) (\w+)", re.M)
# The variant, or the field's type, by which an error tells that memory was refused.
ERROR = re.compile(r"^pub (?:enum|struct) (\w+)[^{;]*\{([^}]*)\}", re.M)
SAYS_MEMORY = re.compile(r"\b(?:NoMemory|Memory|error: \w+Error|fault: \w+Fault)\b|\(\w+(?:Error|Failure)\)")
ITEM = re.compile(r"^(?:(impl\b|pub trait )([^{]*)|( *)(pub )?fn (\w+)([^{;]*))", re.M)
RESULT = re.compile(r"-> Result<.*?, ((?:\w+::)?\w+)(?:<[^<>]*>)?>\s*(?:requires|ensures|where|$)", re.S)
ROW = re.compile(r'^ +\(?\s*"((?:\w+::)[^"]*)",', re.M)


def names_in(group):
    """Returns the names that a `use` lists."""
    return [name.strip() for name in group.split(",") if name.strip()]


class Crate:
    """The sources of a crate, without comments and tests."""

    def __init__(self, root, name):
        self.name, self.files = name, {}
        folder = f"{root}/crates/{name}/src"
        for path in glob.glob(f"{folder}/**/*.rt", recursive=True):
            module = os.path.relpath(path, folder).removesuffix(".rt").replace(os.sep, "::")
            if module.split("::")[0] != "tests":
                self.files[module] = COMMENT.sub("", ledger.read(path).decode())
        head = self.files.get("lib", "")
        self.public_modules = {module for is_public, module in MODULE.findall(head) if is_public}
        self.exported = {}
        for module, group, single in PUBLIC_USE.findall(head):
            self.exported.update((name, module) for name in names_in(group) or [single])

    def is_public(self, name, module):
        """Returns `True` if a crate above can name the item of a module."""
        return module in self.public_modules or self.exported.get(name) == module.split("::")[0]

    def path(self, name, module):
        """Returns the path by which a crate above names a function of a module, or nothing."""
        front, _, last = module.rpartition("::")
        if module == "lib" or self.exported.get(name) == module:
            return f"{self.name}::{name}"
        if module in self.public_modules or front and self.exported.get(last) == front:
            return f"{self.name}::{last}::{name}"
        return ""

    def module_of(self, name, module):
        """Returns the module that has the type that a file means by a name, or nothing."""
        if name in TYPE.findall(self.files[module]):
            return module
        for at, group, single in USE.findall(self.files[module]):
            if name in (names_in(group) or [single]):
                return at or self.exported.get(name)
        return None

    def errors(self):
        """Returns the crate's public types that can say that memory was refused."""
        return {name for text in self.files.values() for name, body in ERROR.findall(text) if SAYS_MEMORY.search(body)}


def subject(head):
    """Returns the trait and the type of an `impl`, without generic arguments; no trait for a type's own functions."""
    plain = re.sub(r"<[^<>]*>", "", re.sub(r"<[^<>]*>", "", re.sub(r"<[^<>]*>", "", head)))
    plain = plain.partition(" where ")[0]
    trait, is_for, name = plain.rpartition(" for ")
    return trait.strip() if is_for else "", name.strip()


class Calls:
    """The public calls of a crate that can run out of memory, by name. The names of a trait's calls are kept apart."""

    def __init__(self, crate, errors):
        self.crate, self.errors, self.found = crate, errors, set()
        for module, text in crate.files.items():
            self.read(module, text)

    def read(self, module, text):
        """Adds the calls of a file."""
        owner, is_trait, is_shown = "", False, False
        for word, head, indent, public, name, signature in ITEM.findall(text):
            if word:
                owner, is_trait, is_shown = self.owner(module, word, head)
            elif self.can_refuse(signature):
                if indent and is_shown and (public or is_trait):
                    self.found.add(f"{self.crate.name}::{owner}::{name}")
                elif not indent and public and self.crate.path(name, module):
                    self.found.add(self.crate.path(name, module))

    def owner(self, module, word, head):
        """Returns the name before a block's calls, whether it is a trait's, and whether crates above can call them."""
        if word != "impl":
            name = re.match(r"\w+", head)[0]
            return name, True, self.crate.is_public(name, module)
        trait, name = subject(head)
        bare = name.lstrip("&")
        at = self.crate.module_of(bare, module)
        is_shown = bool(at) and self.crate.is_public(bare, at)
        return name, bool(trait), is_shown and trait not in ("Iterator", "DoubleEndedIterator")

    def can_refuse(self, signature):
        """Returns `True` if a call with this signature can answer out of memory."""
        error = RESULT.search(" ".join(signature.split()))
        return bool(error) and (error[1] in self.errors or error[1].endswith("::Error"))


def product(root):
    """Returns the names of the product's crates, but for those without rows and the parts of a program."""
    before = ledger.read(f"{root}/crates.txt").decode().partition(END_OF_PRODUCT)[0]
    names = [line.partition(":")[0] for line in before.splitlines() if line and not line.startswith("#")]
    return [name for name in names if name not in WITHOUT_ROWS | PARTS_OF_PROGRAM]


def calls(root):
    """Returns the names of the public calls of the product's crates that can run out of memory."""
    crates = [Crate(root, name) for name in product(root)]
    errors = {"AllocError", "AllocFailed"}.union(*(crate.errors() for crate in crates))
    return set().union(*(Calls(crate, errors).found for crate in crates))


def named_in(row):
    """Returns the calls that a row names: `a::b, c::d over files` or `a::B::{c, d}`."""
    front, brace, group = row.partition("{")
    if brace:
        return [f"{front}{call}" for call in names_in(group.rstrip("}"))]
    return [call.split()[0] for call in row.split(", ")]


def table(root):
    """Returns the names that the rows of the tables have."""
    paths = [path for crate in TABLES for path in glob.glob(f"{root}/crates/{crate}/src/*.rt")]
    return {call for path in paths for row in ROW.findall(ledger.read(path).decode()) for call in named_in(row)}


def differences(root):
    """Returns a line for each call that the table lacks, and for each name there, or in MADE_BY, that no call has."""
    found, named = calls(root), table(root)
    lacking = found - named - {*MADE_BY}
    unknown = (named | {*MADE_BY}) - found
    unmade = {call for call in MADE_BY.values() if call not in named}
    return (
        [f"{call}: can run out of memory, and no table tries it" for call in sorted(lacking)]
        + [f"{call}: no public call that can run out of memory" for call in sorted(unknown)]
        + [f"{call}: makes other calls, and no table tries it" for call in sorted(unmade)]
    )


def main():
    lines = differences(TOP)
    for line in lines:
        print(line)
    print(f"{len(calls(TOP))} public calls can run out of memory, {len(lines)} are not tried or not found")
    return int(bool(lines))


if __name__ == "__main__":
    sys.exit(main())
