"""Reads and writes the files of tests/sessions, whose form tests/sessions/README.md describes."""
import re
import shlex
from dataclasses import dataclass
from itertools import groupby
from pathlib import Path

FOLDER = Path(__file__).resolve().parent / "sessions"
COMMAND = b"$ hedit"
REPLY = re.compile(rb"--- reply, status (\d+)")
ESCAPE = re.compile("⟨([0-9A-F]{2}(?: [0-9A-F]{2})*)⟩".encode())
NO_LINE_FEED = "⟨end⟩\n".encode()


@dataclass(frozen=True)
class Session:
    """The arguments and the input of a program, and the status and the reply that it has to give."""

    arguments: tuple[str, ...]
    input: bytes
    status: int
    reply: bytes
    about: str = ""


def is_hidden(letter: str) -> bool:
    """Whether a character has to be written as an escape: a reader can't see it, or it begins escapes."""
    return letter == "⟨" or (letter != "\n" and not letter.isprintable())


def escaped(text: str) -> str:
    """A text with its hidden characters as escapes."""
    pieces = []
    for hidden, letters in groupby(text, is_hidden):
        piece = "".join(letters)
        pieces.append(f"⟨{piece.encode(errors='surrogateescape').hex(' ').upper()}⟩" if hidden else piece)
    return "".join(pieces)


def written_part(content: bytes) -> bytes:
    """The lines that stand for an input or a reply."""
    if not content:
        return b""
    text = escaped(content.decode(errors="surrogateescape"))
    text = re.sub(r" $", "⟨20⟩", text, flags=re.M)
    text = re.sub(r"^-(?=-- )", "⟨2D⟩", text, flags=re.M)
    return text.encode() + (b"" if content.endswith(b"\n") else NO_LINE_FEED)


def read_part(lines: list[bytes]) -> bytes:
    """The input or the reply that lines stand for."""
    content = b"".join(line + b"\n" for line in lines).removesuffix(NO_LINE_FEED)
    return ESCAPE.sub(lambda found: bytes.fromhex(found[1].decode()), content)


def written(session: Session) -> bytes:
    """The file of a session."""
    about = "".join(f"# {line}\n" for line in session.about.splitlines())
    command = " ".join(["$ hedit", *map(shlex.quote, session.arguments)])
    return b"".join(
        [
            about.encode(),
            command.encode(),
            b"\n",
            written_part(session.input),
            b"--- reply, status %d\n" % session.status,
            written_part(session.reply),
        ]
    )


def parsed(content: bytes) -> Session:
    """The session of a file; a ValueError says what is wrong with the file."""
    *lines, last = content.split(b"\n")
    if last:
        raise ValueError("the last line has no line feed")
    about = []
    while lines and lines[0].startswith(b"# "):
        about.append(lines.pop(0).removeprefix(b"# ").decode())
    if not lines or not lines[0].startswith(COMMAND):
        raise ValueError("no line `$ hedit ..` begins the session")
    partings = ((at, found) for at, line in enumerate(lines) if (found := REPLY.fullmatch(line)))
    parting, status = next(partings, (0, None))
    if status is None:
        raise ValueError("no line `--- reply, status N` ends the input")
    return Session(
        arguments=tuple(shlex.split(lines[0].removeprefix(COMMAND).decode())),
        input=read_part(lines[1:parting]),
        status=int(status[1]),
        reply=read_part(lines[parting + 1 :]),
        about="\n".join(about),
    )


def read(path: Path) -> Session:
    """The session of the file at a path."""
    try:
        return parsed(path.read_bytes())
    except ValueError as fault:
        raise ValueError(f"{path}: {fault}") from None


def files(folders: list[str]) -> list[Path]:
    """The files of sessions in folders, each a path or a name in tests/sessions; of all where none is given."""
    found: list[Path] = []
    for name in folders or [str(FOLDER)]:
        place = next((it for it in (FOLDER / name, Path(name)) if it.exists()), None)
        if place is None:
            raise ValueError(f"there is no {name} in {FOLDER}")
        found += [place] if place.is_file() else sorted(place.rglob("*.txt"))
    return found
