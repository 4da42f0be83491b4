"""The shared library: its path, and the types of its calls, which hedit.h declares."""
import ctypes
import functools
import os
from pathlib import Path
from typing import Any

__version__ = "0.9.0"

# The library's file, as wheels have it.
FILE = "hedit.dll" if os.name == "nt" else "libhedit.so"


class Handle(ctypes.Structure):
    """The pointer to an editor, which is None if the editor is closed."""

    _fields_ = [("state", ctypes.c_void_p)]


class Refusal(ctypes.Structure):
    """The position and the kind of the error in a refused page."""

    _fields_ = [("at", ctypes.c_size_t), ("kind", ctypes.c_uint32)]


NUMBER = ctypes.c_uint32
LENGTH = ctypes.c_size_t

# The label in the place of a missing node.
NO_NODE = 2**32 - 1


class NodeFacts(ctypes.Structure):
    """A node, with the labels of those next to it."""

    _fields_ = [
        ("kind", NUMBER),
        ("length", NUMBER),
        ("parent", NUMBER),
        ("first_child", NUMBER),
        ("last_child", NUMBER),
        ("previous", NUMBER),
        ("next", NUMBER),
    ]


class SelectionFacts(ctypes.Structure):
    """The points of the selection or of a marker."""

    _fields_ = [
        ("anchor", NUMBER),
        ("anchor_offset", NUMBER),
        ("focus", NUMBER),
        ("focus_offset", NUMBER),
    ]


class ExecOptions(ctypes.Structure):
    """How a command is executed."""

    _fields_ = [
        ("joined", NUMBER),
        ("ranged", NUMBER),
        ("anchor", NUMBER),
        ("anchor_offset", NUMBER),
        ("focus", NUMBER),
        ("focus_offset", NUMBER),
    ]


class PointFacts(ctypes.Structure):
    """The label of a node, and an offset in it."""

    _fields_ = [("label", NUMBER), ("offset", NUMBER)]


class NumberFacts(ctypes.Structure):
    """The counts of a document and of its history."""

    _fields_ = [
        ("nodes", NUMBER),
        ("next_label", NUMBER),
        ("chars", ctypes.c_uint64),
        ("edits", LENGTH),
        ("undo", LENGTH),
        ("redo", LENGTH),
    ]


TEXT = [ctypes.c_char_p, LENGTH]
PATH = [ctypes.POINTER(NUMBER), LENGTH]
PLACE = [*PATH, NUMBER]
POINT = [NUMBER, NUMBER]
BUFFER = [ctypes.c_char_p, LENGTH, ctypes.POINTER(LENGTH)]
STEPS = [ctypes.POINTER(NUMBER), LENGTH, ctypes.POINTER(LENGTH)]
POINTS = [ctypes.POINTER(PointFacts), LENGTH, ctypes.POINTER(LENGTH)]
EDITOR = [ctypes.POINTER(Handle)]

CALLS: dict[str, list[Any]] = {
    "hedit_version": [],
    "hedit_open": [*EDITOR, *TEXT, NUMBER, LENGTH, ctypes.POINTER(Refusal)],
    "hedit_close": EDITOR,
    "hedit_exec": EDITOR + TEXT + TEXT,
    "hedit_exec_gated": EDITOR + TEXT + TEXT + TEXT,
    "hedit_exec_joined": EDITOR + TEXT + TEXT,
    "hedit_exec_with": [*EDITOR, ctypes.POINTER(ExecOptions), *TEXT, *TEXT, *TEXT],
    "hedit_replace": EDITOR + POINT + POINT + TEXT,
    "hedit_undo": EDITOR,
    "hedit_redo": EDITOR,
    "hedit_select": EDITOR + PLACE + PLACE,
    "hedit_select_points": EDITOR + POINT + POINT,
    "hedit_unselect": EDITOR,
    "hedit_mark": EDITOR + TEXT + PLACE + PLACE,
    "hedit_mark_points": EDITOR + TEXT + POINT + POINT,
    "hedit_unmark": EDITOR + TEXT,
    "hedit_query": [*EDITOR, NUMBER, *TEXT, ctypes.POINTER(NUMBER), *BUFFER],
    "hedit_view": [*EDITOR, NUMBER, *BUFFER],
    "hedit_node": [*EDITOR, NUMBER, ctypes.POINTER(NodeFacts)],
    "hedit_label_at": [*EDITOR, *PATH, ctypes.POINTER(NUMBER)],
    "hedit_path_of": [*EDITOR, NUMBER, *STEPS],
    "hedit_node_name": [*EDITOR, NUMBER, *BUFFER],
    "hedit_node_value": [*EDITOR, NUMBER, *BUFFER],
    "hedit_attribute_name": [*EDITOR, NUMBER, LENGTH, *BUFFER],
    "hedit_attribute_value": [*EDITOR, NUMBER, LENGTH, *BUFFER],
    "hedit_node_html": [*EDITOR, NUMBER, *BUFFER],
    "hedit_node_text": [*EDITOR, NUMBER, *BUFFER],
    "hedit_find": [*EDITOR, NUMBER, *TEXT, *POINTS],
    "hedit_selection": [*EDITOR, ctypes.POINTER(SelectionFacts)],
    "hedit_mark_name": [*EDITOR, LENGTH, *BUFFER],
    "hedit_mark_range": [*EDITOR, LENGTH, ctypes.POINTER(SelectionFacts)],
    "hedit_selection_html": [*EDITOR, *BUFFER],
    "hedit_selection_text": [*EDITOR, *BUFFER],
    "hedit_numbers": [*EDITOR, ctypes.POINTER(NumberFacts)],
    "hedit_revision": [*EDITOR, ctypes.POINTER(ctypes.c_uint64)],
    "hedit_changes": [*EDITOR, *BUFFER],
    "hedit_is_kept": [*EDITOR, NUMBER],
    "hedit_session_with_words": TEXT + TEXT + BUFFER,
}


def path_of_library() -> str:
    """Returns the file to load, or else the name by which the system finds it."""
    named = os.environ.get("HEDIT_LIBRARY")
    if named:
        return named
    package = Path(__file__).resolve().parent
    repository = package.parent.parent.parent
    release = repository / "dist" / f"hedit-{__version__}-x86_64-linux" / "lib"
    for folder in (package, release):
        if (folder / FILE).is_file():
            return str(folder / FILE)
    return FILE if os.name == "nt" else f"{FILE}.{__version__.rpartition('.')[0]}"


@functools.cache
def library() -> ctypes.CDLL:
    """Returns the library, with the types of its calls."""
    try:
        loaded = ctypes.CDLL(path_of_library())
    except OSError as error:
        error.add_note(f"hedit: set the environment variable HEDIT_LIBRARY to the path of {FILE}")
        raise
    for name, types in CALLS.items():
        call = getattr(loaded, name)
        call.argtypes = types
        call.restype = None if name == "hedit_close" else NUMBER
    return loaded


def version() -> str:
    """Returns the version of the loaded library. `__version__` is that of the package."""
    number: int = library().hedit_version()
    return f"{number >> 16}.{number >> 8 & 255}.{number & 255}"
