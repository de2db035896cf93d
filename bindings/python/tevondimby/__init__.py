"""Tevondimby: a syntax stack for Rust, with edits and rewrites of a document.

>>> from tevondimby import Document
>>> with Document("fn f() { 1 + ; }") as doc:
...     [str(it) for it in doc.errors()]
...     doc.edit(13, 13, "2")
...     doc.errors(), doc.text
['12: expected an expression']
([], 'fn f() { 1 + 2; }')

Offsets are in bytes of the text in UTF-8. A `Document` belongs to one thread at a time. Numbers of kinds are those of this version.
"""
from __future__ import annotations

import ctypes
import enum
import json
import threading
from collections.abc import Iterator, Sequence
from typing import Any, NamedTuple

from ._native import Handle, call

__all__ = ["Document", "Edition", "Element", "Error", "Grammar", "Message", "Refused", "Token", "check", "kind_name", "run"]


class Edition(enum.IntEnum):
    """An edition of Rust."""

    E2015 = 2015
    E2018 = 2018
    E2021 = 2021
    E2024 = 2024
    NEXT = 0


class Grammar(enum.IntEnum):
    """The grammar that a text is read by."""

    PROFILE = 0
    WHOLE = 1


class Error(Exception):
    """A failed call; the document is as before. `code` is that of bindings/c/tevondimby.h."""

    def __init__(self, code: int) -> None:
        super().__init__(_WORDS.get(code, f"code {code}"))
        self.code = code


class Refused(Error):
    """A refused change: it has no place, or the new text does not read as the rewritten tree."""


_WORDS = {
    2: "the text is not UTF-8", 3: "out of memory", 4: "no such edition, grammar or kind", 5: "the text has more than 16,777,216 bytes",
    6: "the range does not lie within the text, at boundaries of characters", 7: "the document is closed", 8: "the handle is open",
    9: "no tree number is left", 10: "it is no commit, or no name", 11: "the new text would not read as the rewritten tree",
    12: "no element has the target's kind and range", 13: "the text is not what it is to be read as", 14: "the root has no siblings",
    15: "the root cannot be taken out", 16: "two changes replace one element", 17: "a change in a replaced element has no place in what replaces it",
    18: "the text has too many levels",
}


class Token(NamedTuple):
    """A token: the number of its kind, and its range."""

    kind: int
    start: int
    end: int

    @property
    def name(self) -> str:
        """Returns the name of its kind, as `IDENT`."""
        return kind_name(self.kind)


class Element(NamedTuple):
    """A node or a token: the number of its kind, the number of nodes around it, and its range."""

    kind: int
    depth: int
    start: int
    end: int

    @property
    def name(self) -> str:
        """Returns the name of its kind, as `BIN_EXPR`."""
        return kind_name(self.kind)


class Message(NamedTuple):
    """An error of a text at an offset."""

    offset: int
    words: str

    def __str__(self) -> str:
        return f"{self.offset}: {self.words}"


def _raise(code: int) -> None:
    """Raises the exception of a code."""
    if code == 3:
        raise MemoryError("tevondimby")
    raise (Refused if 11 <= code <= 17 else Error)(code)


class _Room(threading.local):
    """A buffer of each thread, which grows as answers need it."""

    def __init__(self) -> None:
        self.bytes = bytearray(1 << 16)
        self.at = (ctypes.c_char * len(self.bytes)).from_buffer(self.bytes)
        self.count = ctypes.c_size_t()
        self.status = ctypes.c_uint8()

    def of(self, size: int) -> None:
        """Makes room for `size` bytes."""
        if size > len(self.bytes):
            self.bytes = bytearray(size + size // 4)
            self.at = (ctypes.c_char * len(self.bytes)).from_buffer(self.bytes)


_room = _Room()


def _answer(name: str, width: int, *given: Any, more: tuple = ()) -> memoryview:
    """Calls a function that fills a buffer, and again with more room if it is too short."""
    room = _room
    while True:
        code = call[name](*given, room.at, len(room.bytes) // width, ctypes.byref(room.count), *more)
        if code == 0:
            return memoryview(room.bytes)[: room.count.value * width]
        if code != 1:
            _raise(code)
        room.of(room.count.value * width)


def run(request: bytes) -> tuple[bytes, int]:
    """Answers a request, as the program `document_tool` does. Returns its output and its exit status."""
    data = _answer("run", 1, request, len(request), more=(ctypes.byref(_room.status),))
    return bytes(data), _room.status.value


def check(text: str | bytes, edition: Edition = Edition.E2021, grammar: Grammar = Grammar.PROFILE) -> int:
    """Counts the messages of a text."""
    data = text.encode() if isinstance(text, str) else text
    count = ctypes.c_size_t()
    code = call["check"](data, len(data), edition, grammar, ctypes.byref(count))
    if code:
        _raise(code)
    return count.value


_names: dict[int, str] = {}


def kind_name(kind: int) -> str:
    """Returns the name of a kind."""
    if kind not in _names:
        _names[kind] = bytes(_answer("kind_name", 1, kind)).decode()
    return _names[kind]


class Document:
    """A Rust text with its tokens, messages and tree."""

    def __init__(self, text: str | bytes, edition: Edition = Edition.E2021, grammar: Grammar = Grammar.PROFILE) -> None:
        """Reads a text. Raises `Error` if it has more than 16,777,216 bytes or too many levels, or is not UTF-8."""
        self._handle = Handle()
        data = text.encode() if isinstance(text, str) else text
        code = call["open"](self._handle, data, len(data), edition, grammar)
        if code:
            _raise(code)

    def close(self) -> None:
        """Frees the document. Later calls raise `Error`."""
        call["free"](self._handle)

    def __del__(self) -> None:
        if hasattr(self, "_handle"):
            self.close()

    def __enter__(self) -> Document:
        return self

    def __exit__(self, *given: object) -> None:
        self.close()

    @property
    def text(self) -> str:
        """Returns the text."""
        return bytes(_answer("text", 1, self._handle)).decode()

    def edit(self, start: int, end: int, text: str) -> None:
        """Replaces the bytes from `start` to just before `end` with `text`. Raises `Error`, with nothing changed."""
        data = text.encode()
        if min(start, end) < 0:
            raise Error(6)
        code = call["edit"](self._handle, start, end, data, len(data))
        if code:
            _raise(code)

    def rename(self, old: str, new: str) -> None:
        """Renames each identifier `old`. Raises `Refused`, with nothing changed, if the new text reads otherwise."""
        a, b = old.encode(), new.encode()
        code = call["rename"](self._handle, a, len(a), b, len(b))
        if code:
            _raise(code)

    def commit(self, changes: Sequence[dict[str, Any]]) -> list[tuple[int, int]]:
        """Makes all changes. Returns the ranges of the new text that they put in. Raises `Refused`, with nothing changed."""
        data = json.dumps([{"do": "commit", "changes": list(changes)}]).encode()
        code = call["commit"](self._handle, data, len(data))
        if code:
            _raise(code)
        flat = iter(memoryview(bytes(_answer("changed", 8, self._handle))).cast("I"))
        return list(zip(flat, flat))

    def errors(self) -> list[Message]:
        """Returns the messages, the parser's before the lexer's."""
        room, count, size = _room, ctypes.c_size_t(), ctypes.c_size_t()
        items = (ctypes.c_uint32 * (3 * 64))()
        while True:
            code = call["errors"](self._handle, items, len(items) // 3, ctypes.byref(count), room.at, len(room.bytes), ctypes.byref(size))
            if code == 0:
                text = bytes(memoryview(room.bytes)[: size.value])
                return [Message(items[3 * i], text[items[3 * i + 1] : items[3 * i + 2]].decode()) for i in range(count.value)]
            if code != 1:
                _raise(code)
            items = (ctypes.c_uint32 * (3 * max(count.value, 64)))()
            room.of(size.value)

    def tokens(self) -> Iterator[Token]:
        """Returns the tokens in order, trivia included."""
        data = bytes(_answer("tokens", 12, self._handle))
        flat = iter(memoryview(data).cast("I"))
        return map(Token, flat, flat, flat)

    def tree(self) -> Iterator[Element]:
        """Returns the elements of the tree in preorder."""
        data = bytes(_answer("tree", 16, self._handle))
        flat = iter(memoryview(data).cast("I"))
        return map(Element, flat, flat, flat, flat)
