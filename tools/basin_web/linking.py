"""Compiles a module for 32-bit WebAssembly, and links it with memory.c, Debian's wasi-libc (dlmalloc) and compiler-rt."""

from __future__ import annotations

import subprocess
from pathlib import Path

from .narrow import narrowed

EXPORT = "basin_call"
LIBC = Path("/usr/lib/wasm32-wasi/libc.a")
BUILTINS = "llvm-*/lib/clang/*/lib/wasi/libclang_rt.builtins-wasm32.a"
TARGET = ("--target=wasm32-unknown-unknown", "--no-default-config")
# The stack lies first in memory, so that running over it is a trap. A program's own has 8 MiB; the deepest rulesets take less than 1.
STACK = 1024 * 1024
FIRST = 64 * 65536
WORDS = (
    "--no-entry",
    *(f"--export={name}" for name in (EXPORT, "__heap_base", "__global_base")),
    "--import-memory",
    f"--initial-memory={FIRST}",
    "--stack-first",
    *("-z", f"stack-size={STACK}"),
    "--gc-sections",
    "--strip-debug",
)


def packages_lacking() -> list[str]:
    """Debian's packages that linking needs and that aren't there."""
    found = {"wasi-libc": LIBC.exists(), "libclang-rt-22-dev-wasm32": builtins() is not None}
    return [package for package, is_there in found.items() if not is_there]


def builtins() -> Path | None:
    """The newest library of what the processor lacks."""
    return max(Path("/usr/lib").glob(BUILTINS), default=None)


def link(kit: Path, module: Path, memory: Path, out: Path, hidden: str = "") -> None:
    """Writes the WebAssembly of a module (`hidden`: see `narrowed`). An error of a command is one of `subprocess`."""
    scratch = out.parent
    clang = kit / "toolchain/bin/clang"
    text, narrow, objects = scratch / "module.ll", scratch / "narrow.ll", [scratch / "module.o", scratch / "memory.o"]
    read = ("--no-default-config", "-x", "ir", module, "-S", "-emit-llvm", "-Xclang", "-disable-llvm-passes")
    run(clang, *read, "-Wno-override-module", "-o", text)
    with text.open(encoding="utf-8", errors="surrogateescape") as lines:
        with narrow.open("w", encoding="utf-8", errors="surrogateescape") as written:
            written.writelines(narrowed(lines, hidden))
    sections = ("-ffunction-sections", "-fdata-sections", "-mbulk-memory", "-msimd128", "-mllvm", "-trap-unreachable")
    run(clang, *TARGET, "-O3", *sections, "-Wno-override-module", "-c", "-x", "ir", narrow, "-o", objects[0])
    run(clang, *TARGET, "-O2", "-ffreestanding", "-nostdinc", "-c", memory, "-o", objects[1])
    linker = scratch / "wasm-ld"
    linker.symlink_to(kit / "toolchain/bin/ld.lld")
    run(linker, *WORDS, "-o", out, *objects, LIBC, builtins() or "")


def run(*words: str | Path) -> None:
    """Runs a command, and hands on what it says where it fails."""
    subprocess.run(words, check=True, stdin=subprocess.DEVNULL)
