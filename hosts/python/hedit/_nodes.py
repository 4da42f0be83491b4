"""Nodes, points, selections, markers and counts, as calls return them."""
from dataclasses import dataclass
from enum import IntEnum
from typing import NamedTuple


class NodeKind(IntEnum):
    """Kinds of nodes, with the numbers of DOM's nodeType."""

    ELEMENT = 1
    TEXT = 3
    COMMENT = 8
    DOCUMENT = 9


class Point(NamedTuple):
    """The label of a node, and an offset in it."""

    label: int
    offset: int


class Selection(NamedTuple):
    """The points of a selection."""

    anchor: Point
    focus: Point


class Mark(NamedTuple):
    """A named range, which follows the edits. The name is bytes if it isn't UTF-8."""

    name: str | bytes
    anchor: Point
    focus: Point


@dataclass(frozen=True, slots=True)
class Node:
    """A node: the count of its characters or of its children, and the labels of the nodes next to it,
    or None."""

    label: int
    kind: NodeKind
    length: int
    parent: int | None
    first_child: int | None
    last_child: int | None
    previous: int | None
    next: int | None


class Counts(NamedTuple):
    """The counts of a document and of its history. `edits` counts those of the step that undo would
    take, `undo` and `redo` count steps."""

    nodes: int
    next_label: int
    chars: int
    edits: int
    undo: int
    redo: int
