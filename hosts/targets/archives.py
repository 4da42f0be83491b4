"""Writes archives whose bytes depend on the files in them alone: the times are SOURCE_DATE_EPOCH, or else the
first that a zip file can have. A file is its bytes, or the path that a link has."""
import gzip
import io
import os
import tarfile
import time
import zipfile
from collections.abc import Mapping
from pathlib import Path

Files = Mapping[str, bytes | str]


def build_time() -> int:
    return int(os.environ.get("SOURCE_DATE_EPOCH", "315532800"))


def mode_of(name: str) -> int:
    """What is below bin/ can be executed."""
    return 0o755 if name.startswith("bin/") else 0o644


def write_tar(target: Path, folder: str, files: Files) -> None:
    """Writes a gzipped archive of files below one folder."""
    packed = io.BytesIO()
    with tarfile.open(fileobj=packed, mode="w", format=tarfile.USTAR_FORMAT) as archive:
        for name, content in sorted(files.items()):
            entry = tarfile.TarInfo(f"{folder}/{name}")
            entry.mtime = build_time()
            if isinstance(content, str):
                entry.type, entry.linkname, entry.mode = tarfile.SYMTYPE, content, 0o777
                archive.addfile(entry)
            else:
                entry.mode, entry.size = mode_of(name), len(content)
                archive.addfile(entry, io.BytesIO(content))
    target.write_bytes(gzip.compress(packed.getvalue(), mtime=0))


def write_zip(target: Path, folder: str, files: Files) -> None:
    """Writes a zip file of files below one folder, which contains no links."""
    with zipfile.ZipFile(target, "w", zipfile.ZIP_DEFLATED) as archive:
        for name, content in sorted(files.items()):
            assert isinstance(content, bytes)
            entry = zipfile.ZipInfo(f"{folder}/{name}", time.gmtime(build_time())[:6])
            entry.compress_type = zipfile.ZIP_DEFLATED
            entry.external_attr = mode_of(name) << 16
            archive.writestr(entry, content)
