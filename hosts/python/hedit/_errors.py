"""The statuses of calls, and the exceptions of refused ones."""
from enum import IntEnum


class Status(IntEnum):
    """The status of a call of the library. hedit.h says what each means."""

    DONE = 0
    NO = 1
    USAGE = 2
    MEMORY = 5
    PAGE_REFUSED = 6
    TOO_LONG = 7
    STEP_REFUSED = 8
    TOO_SMALL = 9
    FULL = 10
    DEEP = 11
    BAD_PLACE = 12
    TOO_MANY_MARKS = 13
    BAD_ARGUMENT = 14
    CLOSED = 15


class PageKind(IntEnum):
    """Why bytes aren't a page. Its `str` is the program's word, such as stray-end."""

    NOT_UTF8 = 1
    BAD_TAG = 2
    UNCLOSED = 3
    STRAY_END = 4
    BAD_ATTRIBUTE = 5
    REPEATED_ATTRIBUTE = 6
    UNKNOWN_REFERENCE = 7
    UNSUPPORTED_ELEMENT = 8
    TOO_DEEP = 9
    TOO_LONG = 10
    FULL = 11

    def __str__(self) -> str:
        return self.name.lower().replace("_", "-")


class HeditError(Exception):
    """A call was refused. The editor is unchanged."""

    status: Status | None = None
    words = ""

    def __init__(self, words: str | None = None) -> None:
        super().__init__(words or self.words)


class PageRefused(HeditError, ValueError):
    """The bytes aren't a page: the first `at` of them begin one, and `kind` says why no more do."""

    status = Status.PAGE_REFUSED

    def __init__(self, at: int, kind: PageKind) -> None:
        super().__init__(f"the page is refused: {kind} at {at}")
        self.at = at
        self.kind = kind

    def __reduce__(self) -> tuple[type["PageRefused"], tuple[int, PageKind]]:
        return type(self), (self.at, self.kind)


class BadPlace(HeditError, ValueError):
    """A path or a label names no node, or an offset is past its length."""

    status = Status.BAD_PLACE
    words = "the document has no such place"


class TooManyMarks(HeditError):
    """There are 16 markers of other names."""

    status = Status.TOO_MANY_MARKS
    words = "there are 16 markers of other names already"


class PageFull(HeditError):
    """A node that the command makes would have the label `label_cap`."""

    status = Status.FULL
    words = "no label is left below label_cap"


class TooDeep(HeditError):
    """The document is too deep for commands."""

    status = Status.DEEP
    words = "the document is too deep"


class OutOfMemory(HeditError, MemoryError):
    """The call ran out of memory."""

    status = Status.MEMORY
    words = "out of memory"


class BadArgument(HeditError, ValueError):
    """A number is outside its limits, a text isn't UTF-8, or a denied name is malformed."""

    status = Status.BAD_ARGUMENT
    words = "an argument is invalid"


class EditorClosed(HeditError, ValueError):
    """The editor is closed."""

    status = Status.CLOSED
    words = "the editor is closed"


class WrongThread(HeditError):
    """The call comes from another thread than the one that made the editor."""

    words = "the editor belongs to another thread"


REFUSALS: dict[int, type[HeditError]] = {
    Status.MEMORY: OutOfMemory,
    Status.FULL: PageFull,
    Status.DEEP: TooDeep,
    Status.BAD_PLACE: BadPlace,
    Status.TOO_MANY_MARKS: TooManyMarks,
    Status.BAD_ARGUMENT: BadArgument,
    Status.CLOSED: EditorClosed,
}


def answer(status: int) -> bool:
    """Returns whether a call was done. Raises an exception if it was refused."""
    if status in REFUSALS:
        raise REFUSALS[status]
    return status == Status.DONE
