"""The functions of the library as ctypes sees them, as in bindings/exports.txt."""
from __future__ import annotations

import ctypes
import os

_HERE = os.path.dirname(os.path.abspath(__file__))
# A variable names another library than the one beside this file.
library = ctypes.CDLL(os.environ.get("TEVONDIMBY_LIBRARY", os.path.join(_HERE, "libtevondimby.so")))

SIZE, U32, BYTES = ctypes.c_size_t, ctypes.c_uint32, ctypes.c_char_p
OUT_SIZE, OUT_U8 = ctypes.POINTER(SIZE), ctypes.POINTER(ctypes.c_uint8)


class Handle(ctypes.Structure):
    """Room for one document. All bytes zero is a closed handle."""

    _fields_ = [("is_open", ctypes.c_uint64), ("at", ctypes.c_void_p)]


HANDLE, OUT = ctypes.POINTER(Handle), ctypes.c_void_p
FUNCTIONS = {
    "run": [BYTES, SIZE, OUT, SIZE, OUT_SIZE, OUT_U8],
    "check": [BYTES, SIZE, U32, U32, OUT_SIZE],
    "kind_name": [U32, OUT, SIZE, OUT_SIZE],
    "open": [HANDLE, BYTES, SIZE, U32, U32],
    "free": [HANDLE],
    "edit": [HANDLE, SIZE, SIZE, BYTES, SIZE],
    "commit": [HANDLE, BYTES, SIZE],
    "rename": [HANDLE, BYTES, SIZE, BYTES, SIZE],
    "text": [HANDLE, OUT, SIZE, OUT_SIZE],
    "tokens": [HANDLE, OUT, SIZE, OUT_SIZE],
    "tree": [HANDLE, OUT, SIZE, OUT_SIZE],
    "errors": [HANDLE, OUT, SIZE, OUT_SIZE, OUT, SIZE, OUT_SIZE],
    "changed": [HANDLE, OUT, SIZE, OUT_SIZE],
}


def _declared(name: str, arguments: list):
    """Returns a function of the library with its types."""
    function = getattr(library, f"tevondimby_{name}")
    function.argtypes, function.restype = arguments, U32
    return function


call = {name: _declared(name, arguments) for name, arguments in FUNCTIONS.items()}
