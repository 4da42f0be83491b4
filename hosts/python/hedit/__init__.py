"""The engine behind a contenteditable region.

    from hedit import Editor

    with Editor("<p contenteditable>Call Ann</p>") as editor:
        editor.select(((0, 0), 5), ((0, 0), 8))
        editor.exec("bold")
        print(editor.html())

A place is a path and an offset. The path has the index of a child in each node, from the document
down. The offset counts characters in a text node, and children in an element. A point has the label
of a node instead of the path: a number that the node keeps as long as the editor is open. The
document has 0, and `children` leads to the others:

    def show(editor: Editor, label: int = 0) -> None:
        print(editor.node(label).kind.name, editor.node_name(label), editor.node_value(label))
        for child in editor.children(label):
            show(editor, child)

A refused call raises a HeditError, with a class of its own for each cause, and leaves the editor as
it was. An editor belongs to the thread that made it.

The engine is a shared library. It is loaded when it is first needed, from the path in the environment
variable HEDIT_LIBRARY, or else from this package, from the files that bin/release made in the
repository, or by the system.
"""
from ._changes import AttributesSet, Change, Inserted, Moved, Removed, Replaced, TreeNode
from ._editor import Editor, Place, Question, View, session
from ._errors import (
    BadArgument,
    BadPlace,
    EditorClosed,
    HeditError,
    OutOfMemory,
    PageFull,
    PageKind,
    PageRefused,
    Status,
    TooDeep,
    TooManyMarks,
    WrongThread,
)
from ._library import __version__, version
from ._nodes import Counts, Mark, Node, NodeKind, Point, Selection

__all__ = [
    "AttributesSet",
    "BadArgument",
    "BadPlace",
    "Change",
    "Counts",
    "Editor",
    "EditorClosed",
    "HeditError",
    "Inserted",
    "Mark",
    "Moved",
    "Node",
    "NodeKind",
    "OutOfMemory",
    "PageFull",
    "PageKind",
    "PageRefused",
    "Place",
    "Point",
    "Question",
    "Removed",
    "Replaced",
    "Selection",
    "Status",
    "TooDeep",
    "TooManyMarks",
    "TreeNode",
    "View",
    "WrongThread",
    "__version__",
    "session",
    "version",
]
