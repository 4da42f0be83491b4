"""Sessions that are too long for a file: pages at the limits of what is read."""
from session_form import Session

LONGEST_PAGE = 4_194_304
LONGEST_INPUT = 8_388_608


def checked(length: int, status: int, reply: str) -> Session:
    """A page of so many letters, which is checked."""
    return Session(("check",), b"a" * length, status, reply.encode())


LONG_SESSIONS = {
    "a page of a million letters": checked(1_048_577, 0, "page ok nodes 2 chars 1048577\n"),
    "a page that is too long": checked(LONGEST_PAGE + 1, 6, f"! page {LONGEST_PAGE} too-long\n"),
    "the longest input": checked(LONGEST_INPUT, 6, f"! page {LONGEST_PAGE} too-long\n"),
    "an input that is too long": checked(LONGEST_INPUT + 1, 7, ""),
}
