"""Makes the library and the program for other systems from the module of the library: LLVM's code, as
clang compiled it for x86-64 Linux when the library was built. bin/release calls this."""
import hashlib
import re
import subprocess
import sys
from collections.abc import Sequence
from dataclasses import dataclass
from pathlib import Path

HERE = Path(__file__).resolve().parent
ROOT = HERE.parent.parent
KEPT = HERE / "out"
HEADER = ROOT / "include" / "hedit.h"
OPTIONS = ("--no-default-config", "-O2", "-fPIC", "-ffunction-sections", "-fdata-sections", "-fno-addrsig")
WARNINGS = ("-std=c11", "-Wall", "-Wextra", "-Werror", "-pedantic")
LOCKED = ("-Wl,-z,relro,-z,now", "-Wl,--gc-sections")

# What the module says of the processor that it was compiled for. Other systems probe the stack by
# themselves.
OF_PROCESSOR = re.compile(r' "(?:target-cpu|tune-cpu|target-features)"="[^"]*"')
OF_STACK = re.compile(r' "(?:probe-stack|stack-probe-size)"="[^"]*"')
OF_TARGET = re.compile(r"^target (?:datalayout|triple) = .*\n", re.M)


@dataclass(frozen=True)
class Target:
    """A system: its name in archives, clang's name for it, and what the names of its tools begin with."""

    name: str
    triple: str
    tools: str = ""
    wheels: Sequence[str] = ()

    @property
    def is_windows(self) -> bool:
        return self.name.endswith("windows")


LINUX = Target(
    "x86_64-linux",
    "x86_64-unknown-linux-gnu",
    "",
    ("manylinux_2_17_x86_64", "manylinux2014_x86_64", "musllinux_1_1_x86_64"),
)
ARM = Target(
    "aarch64-linux",
    "aarch64-unknown-linux-gnu",
    "aarch64-linux-gnu-",
    ("manylinux_2_17_aarch64", "manylinux2014_aarch64", "musllinux_1_1_aarch64"),
)
WINDOWS = Target("x86_64-windows", "x86_64-w64-windows-gnu", "x86_64-w64-mingw32-", ("win_amd64",))
MACS = (Target("arm64-macos", "arm64-apple-macosx11.0"), Target("x86_64-macos", "x86_64-apple-macosx10.15"))


def run(*words: object) -> None:
    subprocess.run([str(word) for word in words], check=True)


def names_of_calls() -> list[str]:
    """The calls that hedit.h declares."""
    return sorted(set(re.findall(r"^\w+ (hedit_\w+)\(", HEADER.read_text(), re.M)))


def module_for(target: Target, text: str) -> str:
    """The module without what it says of the system that it was compiled for first."""
    plain = OF_TARGET.sub("", OF_PROCESSOR.sub("", text))
    return OF_STACK.sub("", plain) if target.is_windows else plain


def hide_names(target: Target, whole: Path) -> None:
    """Leaves an object with no names for others but those of hedit.h."""
    kept = whole.with_name("names")
    kept.write_text("".join(f"{name}\n" for name in names_of_calls()))
    run(f"{target.tools}objcopy", f"--keep-global-symbols={kept}", whole)


class Workshop:
    """A folder in which the module is compiled and linked, with the toolchain's clang. What is compiled of
    the engine is kept in hosts/targets/out, by what it was compiled of: that takes a minute each."""

    def __init__(self, folder: Path, tools: Path, module: Path) -> None:
        self.folder, self.tools = folder, tools
        self.text = self._disassemble(module)

    def _disassemble(self, module: Path) -> str:
        if module.suffix == ".ll":
            return module.read_text()
        target = self.folder / "module.ll"
        run(
            self.tools / "clang",
            "--no-default-config",
            "-S",
            "-emit-llvm",
            "-O0",
            "-Xclang",
            "-disable-llvm-passes",
            "-Wno-override-module",
            "-x",
            "ir",
            module,
            "-o",
            target,
        )
        return target.read_text()

    def _compile(self, target: Target, text: str, made: Path) -> Path:
        source = self.folder / f"{target.name}.ll"
        source.write_text(text)
        run(
            self.tools / "clang",
            f"--target={target.triple}",
            *OPTIONS,
            "-Wno-override-module",
            "-c",
            "-x",
            "ir",
            source,
            "-o",
            made,
        )
        source.unlink()
        return made

    def engine(self, target: Target) -> Path:
        """The object of the engine."""
        text = module_for(target, self.text)
        what = f"{target.triple} {OPTIONS} {self.tools.resolve()}\n{text}"
        made = KEPT / f"{target.name}-{hashlib.sha256(what.encode()).hexdigest()[:32]}.o"
        if not made.is_file():
            KEPT.mkdir(exist_ok=True)
            for other in KEPT.glob(f"{target.name}-*.o"):
                other.unlink()
            self._compile(target, text, made.with_suffix(".part")).rename(made)
        return made

    def objects(self, target: Target) -> tuple[Path, Path]:
        """The engine and its memory."""
        folder = self.folder / target.name
        folder.mkdir()
        engine = folder / "engine.o"
        engine.write_bytes(self.engine(target).read_bytes())
        return engine, self._compile(target, (HERE / "memory.ll").read_text(), folder / "memory.o")

    def whole(self, target: Target) -> Path:
        """One object with the engine and its memory."""
        made = self.folder / target.name / "hedit.o"
        run(f"{target.tools}ld", "-r", "-o", made, *self.objects(target))
        hide_names(target, made)
        return made

    def mac_archive(self, target: Target) -> bytes:
        """A static library for macOS. No tool here can hide names in it."""
        made = self.folder / target.name / "libhedit.a"
        run(self.tools / "llvm-ar", "--format=darwin", "rcD", made, *self.objects(target))
        return made.read_bytes()


def static_library(target: Target, whole: Path) -> bytes:
    made = whole.with_name("libhedit.a")
    made.unlink(missing_ok=True)
    run(f"{target.tools}ar", "rcD", made, whole)
    return made.read_bytes()


def version_script(whole: Path) -> Path:
    made = whole.with_name("script")
    made.write_text(f"{{ global: {'; '.join(names_of_calls())}; local: *; }};\n")
    return made


def shared_library(target: Target, whole: Path, soname: str) -> bytes:
    """The shared library for Linux, as a part of a system that has a C library of its own."""
    made = whole.with_name("libhedit.so")
    run(
        f"{target.tools}gcc",
        "-shared",
        "-s",
        f"-Wl,-soname,{soname}",
        *LOCKED,
        "-Wl,-z,defs",
        f"-Wl,--version-script={version_script(whole)}",
        "-o",
        made,
        whole,
    )
    return made.read_bytes()


def wheel_library(target: Target, whole: Path) -> bytes:
    """The shared library for a wheel. It names no C library and no version of one, so that it takes
    malloc and the others from the one that runs Python, be it glibc or musl."""
    made = whole.with_name("libhedit-wheel.so")
    run(
        f"{target.tools}gcc",
        "-shared",
        "-s",
        "-nostdlib",
        "-Wl,-soname,libhedit.so",
        *LOCKED,
        f"-Wl,--version-script={version_script(whole)}",
        "-o",
        made,
        whole,
    )
    said = subprocess.check_output([f"{target.tools}readelf", "-dV", made], text=True)
    if "(NEEDED)" in said or "Version needs" in said:
        sys.exit(f"release: the library for wheels of {target.name} wants another one")
    return made.read_bytes()


def windows_library(target: Target, whole: Path) -> dict[str, bytes]:
    """The DLL with its import library, and the file that other linkers make theirs of. The linker would
    choose the DLL's address by the name of the folder."""
    dll, imports, exports = (whole.with_name(it) for it in ("hedit.dll", "libhedit.dll.a", "hedit.def"))
    exports.write_text("".join(["LIBRARY hedit.dll\nEXPORTS\n", *(f"    {it}\n" for it in names_of_calls())]))
    run(
        f"{target.tools}gcc",
        "-shared",
        "-s",
        "-static-libgcc",
        "-Wl,--no-insert-timestamp",
        "-Wl,--disable-auto-image-base",
        "-Wl,--gc-sections",
        f"-Wl,--out-implib,{imports}",
        "-o",
        dll,
        whole,
        exports,
    )
    return {
        "bin/hedit.dll": dll.read_bytes(),
        "lib/libhedit.dll.a": imports.read_bytes(),
        "lib/hedit.def": exports.read_bytes(),
    }


def program(target: Target, whole: Path) -> bytes:
    """The program over the library."""
    made = whole.with_name("hedit.exe")
    options = ["-static", "-Wl,--no-insert-timestamp", "-Wl,--stack,8388608"]
    options = options if target.is_windows else ["-pie", "-fPIE", "-Wl,-z,relro,-z,now"]
    run(
        f"{target.tools}gcc",
        *WARNINGS,
        "-O2",
        "-s",
        "-DHEDIT_STATIC",
        f"-I{HEADER.parent}",
        f"-ffile-prefix-map={ROOT}=.",
        *options,
        "-Wl,--gc-sections",
        "-o",
        made,
        HERE / "program.c",
        whole,
    )
    return made.read_bytes()
