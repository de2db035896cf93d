"""Writes antt lemmas that compare the definitions of the core language with cases of a reference implementation.

    cases.py CASES.jsonl > Cases.antt        all cases
    cases.py CASES.jsonl 3,14,15 > Cases.antt   those of these lines

A line of CASES has the parser's `input` (kind, contextual kind, touches the next), a `tree` (a leaf is [kind, text], a node
[kind, [children]]), and whether these are `core`. Of a core case the derivation is written down, and the check computes that
its tokens and tree are those of the case; of another, that the grammar reads its tokens as another tree. Of both it computes
that the tree's leaves, spaced, are the input, since the texts are spaced.
"""
import json
import re
import sys

PUNCTUATION = {
    "COLON2": 2, "EQ2": 2, "NEQ": 2, "LTEQ": 2, "GTEQ": 2, "AMP2": 2, "PIPE2": 2, "SHL": 2, "SHR": 2, "THIN_ARROW": 2,
    "PLUSEQ": 2, "MINUSEQ": 2, "STAREQ": 2, "SLASHEQ": 2, "PERCENTEQ": 2, "AMPEQ": 2, "PIPEEQ": 2, "CARETEQ": 2,
    "SHLEQ": 3, "SHREQ": 3, "DOT2": 2, "DOT2EQ": 3, "FAT_ARROW": 2, "PIPE_GT": 2,
}
OPERATORS = {
    "PIPE_GT": "Pipe", "PIPE2": "LogicalOr", "AMP2": "LogicalAnd", "EQ2": "Equal", "NEQ": "NotEqual", "L_ANGLE": "Less", "R_ANGLE": "Greater",
    "LTEQ": "LessOrEqual", "GTEQ": "GreaterOrEqual", "PIPE": "BitOr", "CARET": "BitXor", "AMP": "BitAnd", "SHL": "ShiftLeft",
    "SHR": "ShiftRight", "PLUS": "Plus", "MINUS": "Minus", "STAR": "Times", "SLASH": "Divide", "PERCENT": "Remainder",
}
ASSIGNERS = {
    "EQ": "Assign", "PLUSEQ": "AssignPlus", "MINUSEQ": "AssignMinus", "STAREQ": "AssignTimes", "SLASHEQ": "AssignDivide",
    "PERCENTEQ": "AssignRemainder", "AMPEQ": "AssignBitAnd", "PIPEEQ": "AssignBitOr", "CARETEQ": "AssignBitXor",
    "SHLEQ": "AssignShiftLeft", "SHREQ": "AssignShiftRight",
}
LITERALS = {
    "INT_NUMBER": "Integer", "FLOAT_NUMBER": "FloatNumber", "CHAR": "Character", "BYTE": "Byte", "STRING": "Text",
    "BYTE_STRING": "ByteText", "C_STRING": "CText", "TRUE_KW": "TrueWord", "FALSE_KW": "FalseWord",
}
PREFIXES = {"MINUS": "Negate", "BANG": "Invert", "STAR": "Dereference"}


def is_leaf(tree):
    """whether a tree is a leaf"""
    return isinstance(tree[1], str)


def bit(value):
    """the writing of a bit"""
    return "true" if value else "false"


def forest(trees):
    """the writing of trees"""
    if not trees:
        return "End"
    kind, rest = trees[0][0], forest(trees[1:])
    if is_leaf(trees[0]):
        return f"(Leaf {kind} {PUNCTUATION.get(kind, 1)} {rest})"
    return f"(Node {kind} {forest(trees[0][1])} {rest})"


def tokens(row):
    """the writing of tokens"""
    return " ∷ ".join([*(f"token {kind} {contextual} {bit(joint)}" for kind, contextual, joint in row), "[]"])


class Derivation:
    """The derivation of a core tree, with the bits of its tokens, and the proof that it is well formed."""

    def __init__(self, row):
        self.row, self.at = row, 0

    def take(self, kind):
        """the bit of the last token of the next leaf"""
        self.at += PUNCTUATION.get(kind, 1)
        return bit(self.row[self.at - 1][2])

    def leaf(self, tree, kind):
        assert is_leaf(tree) and tree[0] == kind, (tree, kind)
        return self.take(kind)

    def name(self, tree, kind):
        assert tree[0] == kind and len(tree[1]) == 1, tree
        return self.leaf(tree[1][0], "IDENT")

    def mut(self, row):
        return f"(Mutable {self.take('MUT_KW')})" if row and row[0][0] == "MUT_KW" else "Immutable"

    def segment(self, tree):
        return self.name(tree[1][0], "NAME_REF")

    def path(self, tree):
        children = tree[1]
        if len(children) == 1:
            return f"(Name {self.segment(children[0])})"
        path = self.path(children[0])
        colons = self.leaf(children[1], "COLON2")
        return f"(Below {path} {colons} {self.segment(children[2])})"

    def type(self, tree):
        kind, children = tree
        if kind == "PATH_TYPE":
            return f"(PathType {self.path(children[0])})"
        if kind == "REF_TYPE":
            ampersand = self.leaf(children[0], "AMP")
            mut = self.mut(children[1:])
            return f"(ReferenceType {ampersand} {mut} {self.type(children[-1])})"
        assert kind == "SLICE_TYPE"
        opening = self.leaf(children[0], "L_BRACK")
        inner = self.type(children[1])
        return f"(SliceType {opening} {inner} {self.leaf(children[2], 'R_BRACK')})"

    def arguments(self, row):
        if not row:
            return "NoArgument", "tt"
        first, proof = self.expression(row[0])
        if len(row) == 1:
            return f"(LastArgument {first})", proof
        comma = self.leaf(row[1], "COMMA")
        rest, others = self.arguments(row[2:])
        return f"(ArgumentComma {first} {comma} {rest})", f"({proof}, {others})"

    def brackets(self, tree):
        children = tree[1]
        opening = self.leaf(children[0], "L_PAREN")
        inner, proof = self.arguments(children[1:-1])
        return opening, inner, self.leaf(children[-1], "R_PAREN"), proof

    def expression(self, tree):
        kind, children = tree
        if kind == "LITERAL":
            return f"(Literal {LITERALS[children[0][0]]} {self.take(children[0][0])})", "tt"
        if kind == "PATH_EXPR":
            return f"(Named {self.path(children[0])})", "tt"
        if kind == "PAREN_EXPR":
            opening = self.leaf(children[0], "L_PAREN")
            inner, proof = self.expression(children[1])
            return f"(Parenthesized {opening} {inner} {self.leaf(children[2], 'R_PAREN')})", proof
        if kind in ("CALL_EXPR", "METHOD_CALL_EXPR", "FIELD_EXPR"):
            return self.postfix(kind, children)
        return self.operation(children) if kind == "BIN_EXPR" else self.prefixed(kind, children)

    def postfix(self, kind, children):
        receiver, proof = self.expression(children[0])
        if kind == "CALL_EXPR":
            opening, inner, closing, others = self.brackets(children[1])
            return f"(FunctionCall {receiver} {opening} {inner} {closing})", f"({proof}, omega arith, refl, {others})"
        dot, name = self.leaf(children[1], "DOT"), self.name(children[2], "NAME_REF")
        if kind == "FIELD_EXPR":
            return f"(FieldAccess {receiver} {dot} {name})", f"({proof}, omega arith)"
        opening, inner, closing, others = self.brackets(children[3])
        return f"(MethodCall {receiver} {dot} {name} {opening} {inner} {closing})", f"({proof}, omega arith, {others})"

    def prefixed(self, kind, children):
        operator = self.take(children[0][0])
        form = f"Borrow {operator} {self.mut(children[1:])}" if kind == "REF_EXPR" else f"Prefixed {PREFIXES[children[0][0]]} {operator}"
        operand, proof = self.expression(children[-1])
        return f"({form} {operand})", f"({proof}, omega arith)"

    def operation(self, children):
        left, before = self.expression(children[0])
        operator = children[1][0]
        last = self.take(operator)
        right, behind = self.expression(children[2])
        if operator in ASSIGNERS:
            return f"(Assignment {left} {ASSIGNERS[operator]} {last} {right})", f"({before}, {behind}, omega arith)"
        return f"(Binary {left} {OPERATORS[operator]} {last} {right})", f"({before}, {behind}, omega arith, omega arith, refl)"

    def pattern(self, tree):
        assert tree[0] == "IDENT_PAT"
        mut = self.mut(tree[1])
        return f"(NamePattern {mut} {self.name(tree[1][-1], 'NAME')})"

    def statement(self, tree):
        row = list(tree[1])
        if tree[0] == "EXPR_STMT":
            inner, proof = self.expression(row[0])
            return f"(Run {inner} {self.leaf(row[1], 'SEMICOLON')})", proof
        if tree[0] == "DEFER_STMT":
            word = self.leaf(row[0], "DEFER_KW")
            block, proof = self.block(row[1])
            return f"(Defer {word} {block})", proof
        let_word = self.leaf(row.pop(0), "LET_KW")
        pattern, annotation, initializer, proof = self.pattern(row.pop(0)), "NoAnnotation", "NoInitializer", "tt"
        if row[0][0] == "COLON":
            colon = self.leaf(row.pop(0), "COLON")
            annotation = f"(AnnotatedBy {colon} {self.type(row.pop(0))})"
        if row[0][0] == "EQ":
            equals = self.leaf(row.pop(0), "EQ")
            inner, proof = self.expression(row.pop(0))
            initializer = f"(InitializedBy {equals} {inner})"
        return f"(Let {let_word} {pattern} {annotation} {initializer} {self.leaf(row[0], 'SEMICOLON')})", proof

    def statements(self, row):
        if not row:
            return "NoStatement", "tt"
        if row[0][0] in ("LET_STMT", "EXPR_STMT", "DEFER_STMT"):
            first, proof = self.statement(row[0])
            rest, others = self.statements(row[1:])
            return f"(StatementThen {first} {rest})", f"({proof}, {others})"
        assert len(row) == 1
        last, proof = self.expression(row[0])
        return f"(LastExpression {last})", proof

    def block(self, tree):
        row = tree[1][0][1]
        opening = self.leaf(row[0], "L_CURLY")
        inner, proof = self.statements(row[1:-1])
        return f"(Braces {opening} {inner} {self.leaf(row[-1], 'R_CURLY')})", proof

    def visibility(self, row):
        if row[0][0] != "VISIBILITY":
            return "Private"
        return f"(Public {self.leaf(row.pop(0)[1][0], 'PUB_KW')})"

    def listed(self, row, element):
        if not row:
            return "NoElement"
        first = element(row[0])
        if len(row) == 1:
            return f"(LastElement {first})"
        comma = self.leaf(row[1], "COMMA")
        return f"(ElementComma {first} {comma} {self.listed(row[2:], element)})"

    def field(self, tree):
        row = list(tree[1])
        visibility = self.visibility(row)
        name, colon = self.name(row[0], "NAME"), self.leaf(row[1], "COLON")
        return f"(NamedField {visibility} {name} {colon} {self.type(row[2])})"

    def parameter(self, tree):
        pattern = self.pattern(tree[1][0])
        colon = self.leaf(tree[1][1], "COLON")
        return f"(TypedPattern {pattern} {colon} {self.type(tree[1][2])})"

    def item(self, tree):
        row = list(tree[1])
        visibility = self.visibility(row)
        word, name = self.take(row[0][0]), self.name(row[1], "NAME")
        last = row[-1]
        if tree[0] in ("STRUCT", "MODULE") and is_leaf(last):
            form = "UnitStruct" if tree[0] == "STRUCT" else "OuterModule"
            return f"({form} {visibility} {word} {name} {self.leaf(last, 'SEMICOLON')})", "tt"
        if tree[0] == "STRUCT":
            opening = self.leaf(last[1][0], "L_CURLY")
            fields = self.listed(last[1][1:-1], self.field)
            return f"(RecordStruct {visibility} {word} {name} {opening} {fields} {self.leaf(last[1][-1], 'R_CURLY')})", "tt"
        if tree[0] == "MODULE":
            opening = self.leaf(last[1][0], "L_CURLY")
            items, proof = self.items(last[1][1:-1])
            return f"(InnerModule {visibility} {word} {name} {opening} {items} {self.leaf(last[1][-1], 'R_CURLY')})", proof
        assert tree[0] == "FN"
        parameters = row[2][1]
        opening = self.leaf(parameters[0], "L_PAREN")
        inner = self.listed(parameters[1:-1], self.parameter)
        closing, result = self.leaf(parameters[-1], "R_PAREN"), "NoReturnType"
        if row[3][0] == "RET_TYPE":
            arrow = self.leaf(row[3][1][0], "THIN_ARROW")
            result = f"(Returns {arrow} {self.type(row[3][1][1])})"
        block, proof = self.block(last)
        return f"(Function {visibility} {word} {name} {opening} {inner} {closing} {result} {block})", proof

    def items(self, row):
        if not row:
            return "NoItem", "tt"
        first, proof = self.item(row[0])
        rest, others = self.items(row[1:])
        return f"(ItemThen {first} {rest})", f"({proof}, {others})"


def lemmas(number, case):
    """what is computed of a case"""
    row, tree = case["input"], forest([case["tree"]])
    floats = [bit(joint) for kind, _, joint in row if kind == "FLOAT_NUMBER"]
    out = f"abbrev tokens{number} : List Token\ntokens{number} = {tokens(row)}\n\nabbrev tree{number} : Forest\ntree{number} = {tree}\n\n"
    if case["core"]:
        items, proof = Derivation(row).items(case["tree"][1])
        fields = f"items = {items}; well_formed = {proof}; has_tokens = refl; has_tree = refl"
        out += f"core{number} : IsCoreFile tokens{number} tree{number}\ncore{number} = record {{ {fields} }}\n\n"
    else:
        out += f"other{number} : IsCoreFile tokens{number} tree{number} → ⊥\nunfolding {COMPUTING}\n"
        out += f"other{number} = read-otherwise tokens{number} tree{number} refl\n\n"
    out += f"spaced{number} : spaced tree{number} ({' ∷ '.join([*floats, '[]'])}) ≡ tokens{number}\n"
    return out + f"unfolding spaced_before\nspaced{number} = refl\n"


COMPUTING = (
    "meaning by_length by_rank follow look_of begins_below read turns leaf say skip split fresh node wrapped after sees ahead is_end begins passes"
    " is_silent shift in_mode from_start there_at rule rank whole row any_of one_of is_longer no_longer longest paths types patterns"
    " expressions statements items leaves is_used_up takes_all entry"
)
IMPORTS = """use Rattle.rust_grammar.specs.Rule.{begins, passes, is_silent, shift, in_mode, from_start, there_at}
use Rattle.rust_grammar.specs.Notation.{row, any_of, one_of, is_longer, no_longer, longest}
use Rattle.rust_grammar.specs.Meaning.{meaning, by_length, by_rank, follow, look_of, begins_below, read, turns, leaf, say, skip, split, fresh, node, wrapped, after, sees, ahead, is_end}
use Rattle.rust_grammar.specs.Paths.{paths}
use Rattle.rust_grammar.specs.Types.{types}
use Rattle.rust_grammar.specs.Patterns.{patterns}
use Rattle.rust_grammar.specs.Expressions.{expressions}
use Rattle.rust_grammar.specs.Statements.{statements}
use Rattle.rust_grammar.specs.Items.{items}
use Rattle.rust_grammar.specs.Entry.{leaves, is_used_up, takes_all, entry}
use Rattle.rust_grammar.specs.Whole.{rule, rank, whole}"""
DEFINED = {
    "specs.Types": "Immutable Mutable Name Below PathType ReferenceType SliceType",
    "specs.Operators": " ".join(
        [*LITERALS.values(), *PREFIXES.values(), *OPERATORS.values(), *ASSIGNERS.values()]
    ),
    "specs.Expressions": "Literal Named Parenthesized FunctionCall MethodCall FieldAccess Prefixed Borrow Binary Assignment"
    " NoArgument LastArgument ArgumentComma",
    "specs.Statements": "NamePattern NoAnnotation AnnotatedBy NoInitializer InitializedBy Let Run Defer NoStatement LastExpression StatementThen Braces",
    "specs.Items": "Private Public NoElement LastElement ElementComma NamedField TypedPattern NoReturnType Returns UnitStruct RecordStruct"
    " OuterModule InnerModule Function NoItem ItemThen",
    "specs.Language": "IsCoreFile",
    "specs.Spaced": "spaced spaced_before",
    "proofs.Otherwise": "read-otherwise",
}


def heading(body):
    """the file's comment and its imports, of what the lemmas name"""
    named = set(re.findall(r"[A-Za-z_][\w-]*", body))
    kinds = sorted(it for it in named if re.fullmatch(r"[A-Z][A-Z0-9_]+", it))
    lines = [
        "-- Files of a reference implementation, with its inputs and trees: core files, and others of which the tree is no core tree.",
        "-- tools/cases.py writes this file; a lemma's number is the line of its case.",
        "use Rattle.std.proofs.Common.{◌≡◌, ℕ, Bool, true, false, List, [], ◌∷◌, refl, arith, if◌then◌else◌}",
        f"use Rattle.parser_input.specs.Kinds.{{{', '.join(kinds)}}}",
        "use Rattle.parser_input.specs.Input.{Token}",
        "use Rattle.parser_events.specs.Forest.{Forest, End, Leaf, Node}",
    ]
    if "read-otherwise" in named:
        lines.append(IMPORTS)
    for module, names in DEFINED.items():
        used = [it for it in names.split() if it in named]
        if used:
            lines.append(f"use Rattle.core_language.{module}.{{{', '.join(used)}}}")
    lines += ["", "-- a token, in the reader's words", "abbrev token : (kind contextual : ℕ) → Bool → Token"]
    lines.append("token kind contextual joint = record { kind = kind; contextual = contextual; joint = joint; whole = false }")
    return "\n".join(lines)


def main():
    with open(sys.argv[1], encoding="utf-8") as file:
        cases = [json.loads(line) for line in file]
    chosen = [int(it) for it in sys.argv[2].split(",")] if len(sys.argv) > 2 else range(1, len(cases) + 1)
    body = "\n".join(lemmas(it, cases[it - 1]) for it in chosen)
    print(f"{heading(body)}\n\n{body}", end="")


main()
