"""Puts the library into the wheel that hatchling builds.

HEDIT_LIBRARY names the library's file. HEDIT_TAGS names the systems of the wheel, with a dot between, and
is by default the one that builds it. HEDIT_UNPROVED is set if the library isn't the proved one: then the
wheel's version says so."""
import os
import re
import sys
import sysconfig
from pathlib import Path
from typing import Any

from hatchling.builders.hooks.plugin.interface import BuildHookInterface

HERE = Path(__file__).resolve().parent
SUFFIXES = (".so", ".dll", ".dylib")

NO_LIBRARY = """\
hedit: there is no wheel for this system: set HEDIT_LIBRARY to the path of the library of hedit for it \
(libhedit.so, hedit.dll), which the archives of a release have or bin/release makes, and install again"""


def version() -> str:
    """The version of the package, with "+unproved" if its library is."""
    found = re.search(r'^__version__ = "(.+)"$', (HERE / "hedit" / "_library.py").read_text(), re.M)
    assert found
    return found[1] + ("+unproved" if os.environ.get("HEDIT_UNPROVED") else "")


class LibraryHook(BuildHookInterface[Any]):
    """Adds the library to a wheel."""

    PLUGIN_NAME = "custom"

    def initialize(self, version: str, build_data: dict[str, Any]) -> None:
        library = Path(os.environ.get("HEDIT_LIBRARY", ""))
        if not library.is_file() or library.suffix not in SUFFIXES and ".so." not in library.name:
            sys.exit(NO_LIBRARY)
        name = "hedit.dll" if library.suffix == ".dll" else "libhedit.so"
        here = re.sub(r"[-.]", "_", sysconfig.get_platform())
        build_data["force_include"][str(library.resolve())] = f"hedit/{name}"
        build_data["tag"] = f"py3-none-{os.environ.get('HEDIT_TAGS', here)}"
        build_data["pure_python"] = False
