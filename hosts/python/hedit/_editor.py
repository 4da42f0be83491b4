"""An editor of a page, and a session of the program as one call."""
import ctypes
import itertools
import operator
import threading
import warnings
from collections.abc import Callable, Iterable, Iterator, Sequence
from enum import IntEnum
from queue import SimpleQueue
from typing import Any, NoReturn, Self, SupportsIndex

from ._changes import Change, read_changes
from ._errors import (
    BadArgument,
    BadPlace,
    EditorClosed,
    PageKind,
    PageRefused,
    Status,
    WrongThread,
    answer,
)
from ._library import (
    LENGTH,
    NO_NODE,
    NUMBER,
    ExecOptions,
    Handle,
    NodeFacts,
    NumberFacts,
    PointFacts,
    Refusal,
    SelectionFacts,
    library,
)
from ._nodes import Counts, Mark, Node, NodeKind, Point, Selection

Place = tuple[Sequence[int], int]

MOST_NUMBER = 2**32 - 1
MOST_LENGTH = 2 ** (8 * ctypes.sizeof(LENGTH)) - 1


class Question(IntEnum):
    """The queries about a command."""

    SUPPORTED = 0
    ENABLED = 1
    INDETERM = 2
    STATE = 3
    VALUE = 4


class View(IntEnum):
    """The views of an editor."""

    HTML = 0
    TREE = 1
    POINTS = 2
    NUMBERS = 3


class Own(threading.local):
    """The open editors of a thread that the collector found in another thread, which may not close
    them."""

    def __init__(self) -> None:
        self.found: SimpleQueue[Handle] = SimpleQueue()


OWN = Own()


def text_words(text: str | bytes) -> tuple[bytes, int]:
    """Returns a text as a pointer and a length."""
    if isinstance(text, str):
        text = text.encode()
    elif not isinstance(text, bytes):
        raise TypeError(f"a text is str or bytes, and not {type(text).__name__}")
    return text, len(text)


def place_number(value: SupportsIndex) -> int:
    """Returns a number of a place: an index of a path, a label or an offset."""
    number = operator.index(value)
    if not 0 <= number <= MOST_NUMBER:
        raise BadPlace
    return number


def path_words(path: Sequence[int]) -> tuple["ctypes.Array[ctypes.c_uint32]", int]:
    """Returns a path as an array and its length. An empty path has an array too, since no pointer may
    be null."""
    steps = [place_number(step) for step in path]
    return (NUMBER * max(1, len(steps)))(*steps), len(steps)


def place_words(place: Place) -> tuple["ctypes.Array[ctypes.c_uint32]", int, int]:
    """Returns a place as the array of its path, the length of the array and the offset."""
    path, offset = place
    return *path_words(path), place_number(offset)


def names_words(names: Iterable[str]) -> tuple[bytes, int]:
    """Returns names of commands as a text, separated by commas."""
    if isinstance(names, (str, bytes)):
        raise TypeError(f"the names are several texts, and not one {type(names).__name__}")
    each = list(names)
    if not all(each):
        raise BadArgument("a name of a command is empty")
    return text_words(",".join(each))


def node_there(label: int) -> int | None:
    """Returns a label, or None if it means that there isn't a node."""
    return None if label == NO_NODE else label


def selection_of(facts: SelectionFacts) -> Selection:
    """Returns the points of a selection or a marker."""
    return Selection(Point(facts.anchor, facts.anchor_offset), Point(facts.focus, facts.focus_offset))


def limit(name: str, value: SupportsIndex, most: int) -> int:
    """Returns a limit, which is at least 1."""
    number = operator.index(value)
    if not 1 <= number <= most:
        raise BadArgument(f"{name} is {number}, and not from 1 to {most}")
    return number


def read_text(call: Callable[..., int], capacity: int) -> tuple[int, bytes]:
    """Returns the status and the text of a call that takes a buffer. If the text is longer than the
    capacity, it calls again."""
    while True:
        buffer, length = ctypes.create_string_buffer(capacity), LENGTH(0)
        status = call(buffer, capacity, ctypes.byref(length))
        if status != Status.TOO_SMALL:
            return status, ctypes.string_at(buffer, length.value)
        capacity = length.value


def read_items(call: Callable[..., int], item: Any, capacity: int) -> tuple[int, list[Any]]:
    """Returns the status and the items of a call that takes an array. If there are more than the
    capacity, it calls again."""
    while True:
        array, count = (item * capacity)(), LENGTH(0)
        status = call(array, capacity, ctypes.byref(count))
        if status != Status.TOO_SMALL:
            return status, array[: count.value]
        capacity = count.value


class Editor:
    """An editor of a page. Close it by `with` or `close`. It refuses calls from other threads than the
    one that made it."""

    # Closed, until an editor has one of its own.
    _handle = Handle(None)

    def __init__(
        self,
        page: str | bytes,
        label_cap: SupportsIndex = 2_000_000,
        undo_depth: SupportsIndex = 100,
    ) -> None:
        """Opens a page. No node gets a label from `label_cap` on, and `undo_depth` commands can be
        undone."""
        text, length = text_words(page)
        cap = limit("label_cap", label_cap, MOST_NUMBER)
        depth = limit("undo_depth", undo_depth, MOST_LENGTH)
        self._library = library()
        self._found = OWN.found
        while not self._found.empty():
            self._library.hedit_close(self._found.get())
        self._handle = Handle(None)
        # The length of each view when it was last printed.
        self._lengths = {View.HTML: length}
        refusal = Refusal(0, 0)
        status = self._call("hedit_open", text, length, cap, depth, ctypes.byref(refusal))
        if status == Status.PAGE_REFUSED:
            raise PageRefused(refusal.at, PageKind(refusal.kind))
        answer(status)

    def __enter__(self) -> Self:
        if not self._handle.state:
            raise EditorClosed
        return self

    def __exit__(self, *_: object) -> None:
        self.close()

    def __del__(self) -> None:
        if not self._handle.state:
            return
        warnings.warn(f"unclosed {self!r}", ResourceWarning, source=self)
        if OWN.found is self._found:
            self.close()
        else:
            self._found.put(self._handle)

    def __reduce__(self) -> NoReturn:
        raise TypeError("an editor can't be copied or pickled")

    def _call(self, name: str, *words: object) -> int:
        """Returns the status of a call of the library on this editor."""
        if OWN.found is not self._found:
            raise WrongThread
        status: int = getattr(self._library, name)(self._handle, *words)
        return status

    def close(self) -> None:
        """Frees the editor's memory. Later calls are refused."""
        self._call("hedit_close")

    def exec(
        self,
        name: str | bytes,
        value: str | bytes = "",
        denied: Iterable[str] = (),
        *,
        range: tuple[Place | Point, Place | Point] | None = None,
        joined: bool = False,
    ) -> bool:
        """Executes a command by its name, in any case. Returns False if it isn't enabled, refuses the
        value, or is one of the up to 16 names in `denied`. Commands that a command executes inside
        itself aren't checked.

        With a range, from an anchor to a focus, the command selects that first and works on it. The
        selection is left where the command leaves it. The edits of a joined command are added to the
        previous undo step, as by `exec_joined`."""
        names = names_words(denied)
        words = (*text_words(name), *text_words(value))
        if range is None and not names[1]:
            return answer(self._call("hedit_exec_joined" if joined else "hedit_exec", *words))
        options = ExecOptions(joined=joined)
        if range is not None:
            anchor, focus = (self._point(end) for end in range)
            options = ExecOptions(joined, True, *anchor, *focus)
        return answer(self._call("hedit_exec_with", ctypes.byref(options), *names, *words))

    def exec_joined(self, name: str | bytes, value: str | bytes = "") -> bool:
        """Executes a command like `exec`, but adds its edits to the previous undo step, if a command
        made that step and nothing has intervened."""
        return answer(self._call("hedit_exec_joined", *text_words(name), *text_words(value)))

    def replace(self, anchor: Place | Point, focus: Place | Point, text: str | bytes) -> bool:
        """Replaces the range between two places or points by a text, as one command, which continues
        a run of typing. Returns False if they aren't in an editing host."""
        points = (*self._point(anchor), *self._point(focus))
        return answer(self._call("hedit_replace", *points, *text_words(text)))

    def undo(self) -> bool:
        """Undoes one step. Returns False if there is none."""
        return answer(self._call("hedit_undo"))

    def redo(self) -> bool:
        """Redoes one step. Returns False if there is none."""
        return answer(self._call("hedit_redo"))

    def _place_call(self, name: str, words: tuple[object, ...], anchor: Place | Point, focus: Place | Point) -> None:
        """Makes a call with two places, or its variant for points if one of them is a point."""
        places: tuple[object, ...]
        if isinstance(anchor, Point) or isinstance(focus, Point):
            name += "_points"
            places = (*self._point(anchor), *self._point(focus))
        else:
            places = (*place_words(anchor), *place_words(focus))
        answer(self._call(name, *words, *places))

    def _point(self, place: Place | Point) -> Point:
        if isinstance(place, Point):
            return Point(place_number(place.label), place_number(place.offset))
        path, offset = place
        return Point(self.label_at(path), place_number(offset))

    def select(self, anchor: Place | Point, focus: Place | Point | None = None) -> None:
        """Selects from one place or point to another, or sets the caret. With points, the cost doesn't
        grow with the page."""
        self._place_call("hedit_select", (), anchor, anchor if focus is None else focus)

    def unselect(self) -> None:
        """Removes the selection."""
        answer(self._call("hedit_unselect"))

    def mark(self, name: str | bytes, anchor: Place | Point, focus: Place | Point) -> None:
        """Sets the marker of a name from one place or point to another."""
        self._place_call("hedit_mark", text_words(name), anchor, focus)

    def unmark(self, name: str | bytes) -> bool:
        """Removes the marker of a name. Returns False if there is none."""
        return answer(self._call("hedit_unmark", *text_words(name)))

    def ask(self, question: Question, name: str | bytes) -> bool | str:
        """Answers a query about a command: the value as a text, the others as flags."""
        if question == Question.VALUE:
            return self.value(name)
        return self._ask(Question(question), name)[0]

    def _ask(self, question: Question, name: str | bytes) -> tuple[bool, str]:
        flag = NUMBER(0)
        words = (question, *text_words(name), ctypes.byref(flag))
        status, text = read_text(lambda *buffer: self._call("hedit_query", *words, *buffer), 256)
        answer(status)
        return flag.value == 1, text.decode()

    def supported(self, name: str | bytes) -> bool:
        """Returns whether there is such a command."""
        return self._ask(Question.SUPPORTED, name)[0]

    def enabled(self, name: str | bytes) -> bool:
        """Returns whether the command has an editing host to work in."""
        return self._ask(Question.ENABLED, name)[0]

    def indeterm(self, name: str | bytes) -> bool:
        """Returns whether only a part of the selection has it."""
        return self._ask(Question.INDETERM, name)[0]

    def state(self, name: str | bytes) -> bool:
        """Returns whether the selection has it, for a button of a toolbar."""
        return self._ask(Question.STATE, name)[0]

    def value(self, name: str | bytes) -> str:
        """Returns the command's value: a font, a colour, the name of a block."""
        return self._ask(Question.VALUE, name)[1]

    def view(self, kind: View) -> str:
        """Returns a view of the editor, as complete lines."""
        kind = View(kind)
        # Enough capacity for what commands have added since, so that it is printed once.
        capacity = 4096 + self._lengths.get(kind, 0) * 5 // 4
        status, text = read_text(lambda *buffer: self._call("hedit_view", kind, *buffer), capacity)
        answer(status)
        self._lengths[kind] = len(text)
        return text.decode()

    def html(self) -> str:
        """Returns the document as HTML, with a line feed at the end."""
        return self.view(View.HTML)

    def tree(self) -> str:
        """Returns a line for each node."""
        return self.view(View.TREE)

    def points(self) -> str:
        """Returns the selection and the markers, as lines."""
        return self.view(View.POINTS)

    def numbers(self) -> str:
        """Returns the counts of the document and of its history, as a line."""
        return self.view(View.NUMBERS)

    def counts(self) -> Counts:
        """Returns the counts of the document and of its history."""
        facts = NumberFacts()
        answer(self._call("hedit_numbers", ctypes.byref(facts)))
        return Counts(facts.nodes, facts.next_label, facts.chars, facts.edits, facts.undo, facts.redo)

    def revision(self) -> int:
        """Returns how many calls have changed the document. If it is the same as before a call, the
        call changed nothing."""
        number = ctypes.c_uint64()
        answer(self._call("hedit_revision", ctypes.byref(number)))
        return number.value

    def changes(self) -> list[Change]:
        """Returns the changes of the last call that changed something, from the first to the last. A
        copy of the document before that call that applies them equals the document."""
        status, data = read_text(lambda *buffer: self._call("hedit_changes", *buffer), 256)
        answer(status)
        return read_changes(data)

    def is_kept(self, label: int) -> bool:
        """Returns whether the node of a label is in the document, or may be restored by `undo` or
        `redo`. A removed node that isn't kept is never restored, so you can forget it."""
        return answer(self._call("hedit_is_kept", place_number(label)))

    def selection(self) -> Selection | None:
        """Returns the points of the selection, or None if nothing is selected."""
        facts = SelectionFacts()
        if not answer(self._call("hedit_selection", ctypes.byref(facts))):
            return None
        return selection_of(facts)

    def marks(self) -> list[Mark]:
        """Returns the markers. A new one is last, and one that is set again keeps its index."""
        found: list[Mark] = []
        facts = SelectionFacts()
        while answer(self._call("hedit_mark_range", len(found), ctypes.byref(facts))):
            found.append(Mark(self._mark_name(len(found)), *selection_of(facts)))
        return found

    def _mark_name(self, place: int) -> str | bytes:
        status, name = read_text(lambda *buffer: self._call("hedit_mark_name", place, *buffer), 64)
        answer(status)
        try:
            return name.decode()
        except UnicodeDecodeError:
            return name

    def selection_html(self) -> str | None:
        """Returns the selection as HTML, for the clipboard, or None if nothing is selected."""
        return self._text("hedit_selection_html", 4096)

    def selection_text(self) -> str | None:
        """Returns the selection as plain text, for the clipboard, or None if nothing is selected."""
        return self._text("hedit_selection_text", 4096)

    def label_at(self, path: Sequence[int]) -> int:
        """Returns the label of the node at a path. The document has 0."""
        label = NUMBER(0)
        answer(self._call("hedit_label_at", *path_words(path), ctypes.byref(label)))
        return label.value

    def path_of(self, label: int) -> list[int]:
        """Returns the path of the node of a label."""
        number = place_number(label)
        status, path = read_items(lambda *buffer: self._call("hedit_path_of", number, *buffer), NUMBER, 32)
        answer(status)
        return path

    def node(self, label: int) -> Node:
        """Returns the node of a label."""
        facts = NodeFacts()
        number = place_number(label)
        answer(self._call("hedit_node", number, ctypes.byref(facts)))
        return Node(
            label=number,
            kind=NodeKind(facts.kind),
            length=facts.length,
            parent=node_there(facts.parent),
            first_child=node_there(facts.first_child),
            last_child=node_there(facts.last_child),
            previous=node_there(facts.previous),
            next=node_there(facts.next),
        )

    def children(self, label: int) -> Iterator[int]:
        """Yields the labels of a node's children, in order. You may remove the one that was yielded
        last."""
        return self._from(self.node(label).first_child)

    def _from(self, label: int | None) -> Iterator[int]:
        while label is not None:
            following = self.node(label).next
            yield label
            label = following

    def _text(self, name: str, capacity: int, *words: object) -> str | None:
        """Returns the text of a call that takes a buffer, or None if the answer is false."""
        status, text = read_text(lambda *buffer: self._call(name, *words, *buffer), capacity)
        return text.decode() if answer(status) else None

    def node_name(self, label: int) -> str:
        """Returns the name of an element, and an empty text for another node."""
        return self._text("hedit_node_name", 64, place_number(label)) or ""

    def node_value(self, label: int) -> str:
        """Returns the characters of a text node or a comment, and an empty text for another node."""
        return self._text("hedit_node_value", 1024, place_number(label)) or ""

    def node_html(self, label: int) -> str:
        """Returns the HTML of a node with its descendants; for the document, that of its children."""
        return self._text("hedit_node_html", 4096, place_number(label)) or ""

    def node_text(self, label: int) -> str:
        """Returns the plain text of a node with its descendants: the characters of text nodes and a
        line feed for each br. If a block begins or ends between two of these, a line feed is inserted,
        unless the first one is a line feed."""
        return self._text("hedit_node_text", 4096, place_number(label)) or ""

    def find(self, text: str | bytes, label: int = 0) -> list[Point]:
        """Returns the points at which a text occurs in a node and its descendants, in tree order,
        without overlap. Each occurrence is in one text node."""
        words = (place_number(label), *text_words(text))
        status, points = read_items(lambda *buffer: self._call("hedit_find", *words, *buffer), PointFacts, 64)
        answer(status)
        return [Point(point.label, point.offset) for point in points]

    def attributes(self, label: int) -> dict[str, str]:
        """Returns the attributes of a node, in their order."""
        number = place_number(label)
        found: dict[str, str] = {}
        for place in itertools.count():
            name = self._text("hedit_attribute_name", 64, number, place)
            if name is None:
                break
            found[name] = self._text("hedit_attribute_value", 256, number, place) or ""
        return found


def session(text: str | bytes, words: Iterable[str] = ("run",)) -> tuple[Status, bytes]:
    """Runs a session of the program with the arguments of a command line. Returns the status and the
    transcript."""
    data, length = text_words(text)
    arguments = (*text_words("".join(f"{word}\n" for word in words)), data, length)
    run = library().hedit_session_with_words
    status, transcript = read_text(lambda *buffer: run(*arguments, *buffer), 4096 + 4 * length)
    return Status(status), transcript
