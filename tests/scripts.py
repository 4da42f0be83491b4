"""Loads the repository's scripts, whose names have no ending, for their tests."""
import importlib.machinery
import types
from pathlib import Path
from typing import Any

ROOT = Path(__file__).resolve().parent.parent


def load_script(path: str, root: Path = ROOT) -> Any:
    """Loads a script as a module whose repository is the folder `root`."""
    module = types.ModuleType(Path(path).name.replace("-", "_"))
    module.__file__ = str(ROOT / path)
    importlib.machinery.SourceFileLoader(module.__name__, module.__file__).exec_module(module)
    module.__dict__["ROOT"] = root
    return module
