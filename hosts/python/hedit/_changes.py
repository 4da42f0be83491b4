"""The changes of the document by a call, by the labels of nodes."""
import struct
from dataclasses import dataclass
from typing import TypeAlias

from ._library import NO_NODE
from ._nodes import NodeKind

NUMBER = struct.Struct("<Q")


@dataclass(frozen=True, slots=True)
class TreeNode:
    """A node of an inserted tree, with its level below the root of the tree. An element has a name and
    attributes, a text node and a comment have a value."""

    level: int
    label: int
    kind: NodeKind
    name: str
    attributes: dict[str, str]
    value: str


@dataclass(frozen=True, slots=True)
class Removed:
    """A node is removed, with its tree."""

    label: int


@dataclass(frozen=True, slots=True)
class Inserted:
    """A tree is inserted before a child of the parent, or at its end. Its nodes are in tree order."""

    tree: tuple[TreeNode, ...]
    parent: int
    before: int | None


@dataclass(frozen=True, slots=True)
class Moved:
    """A node is moved, with its tree."""

    label: int
    parent: int
    before: int | None


@dataclass(frozen=True, slots=True)
class Replaced:
    """In a text node or a comment, `put` replaces `taken` characters from the offset `at` on."""

    label: int
    at: int
    taken: int
    put: str


@dataclass(frozen=True, slots=True)
class AttributesSet:
    """An element has another list of attributes."""

    label: int
    attributes: dict[str, str]


Change: TypeAlias = Removed | Inserted | Moved | Replaced | AttributesSet


class Reader:
    """Reads packed changes: numbers of eight bytes, the lowest first, and texts after the count of
    their bytes."""

    def __init__(self, data: bytes) -> None:
        self._data = data
        self._at = 0

    def _number(self) -> int:
        number: int = NUMBER.unpack_from(self._data, self._at)[0]
        self._at += NUMBER.size
        return number

    def _label_or_none(self) -> int | None:
        label = self._number()
        return None if label == NO_NODE else label

    def _text(self) -> str:
        length = self._number()
        begin = self._at
        self._at += length
        return self._data[begin : self._at].decode()

    def _attributes(self) -> dict[str, str]:
        return {self._text(): self._text() for _ in range(self._number())}

    def _node(self) -> TreeNode:
        level, label, kind = self._number(), self._number(), NodeKind(self._number())
        name, attributes, value = "", {}, ""
        if kind is NodeKind.ELEMENT:
            name, attributes = self._text(), self._attributes()
        elif kind is not NodeKind.DOCUMENT:
            value = self._text()
        return TreeNode(level, label, kind, name, attributes, value)

    def _inserted(self) -> Inserted:
        parent, before = self._number(), self._label_or_none()
        return Inserted(tuple(self._node() for _ in range(self._number())), parent, before)

    def _change(self) -> Change:
        match self._number():
            case 1:
                return Removed(self._number())
            case 2:
                return self._inserted()
            case 3:
                return Moved(self._number(), self._number(), self._label_or_none())
            case 4:
                return Replaced(self._number(), self._number(), self._number(), self._text())
            case 5:
                return AttributesSet(self._number(), self._attributes())
            case kind:
                raise ValueError(f"unknown change {kind}")

    def changes(self) -> list[Change]:
        """Returns all changes, in their order."""
        found = []
        while self._at < len(self._data):
            found.append(self._change())
        return found


def read_changes(data: bytes) -> list[Change]:
    """Returns the changes that the library packed into bytes."""
    return Reader(data).changes()
