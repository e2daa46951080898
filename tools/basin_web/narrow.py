"""Rewrites the text of a module with pointers of 64 bits for WebAssembly with pointers of 32.

In memory a pointer still takes eight bytes, so that each offset stays what it was: where one is stored it is stored as a number of 64
bits, and where one is loaded beside something else each of the two is loaded from its own offset. All forms that are rewritten stand here;
another form that would lay out a pointer is refused.
"""

from __future__ import annotations

import re
from collections.abc import Iterable, Iterator

LAYOUT = 'target datalayout = "e-m:e-p:32:32-p10:8:8-p20:8:8-i64:64-i128:128-n32:64-S128-ni:1:10:20"\n'
TRIPLE = 'target triple = "wasm32-unknown-unknown"\n'
FEATURES = '"target-features"="+bulk-memory,+bulk-memory-opt,+sign-ext,+mutable-globals,+nontrapping-fptoint,+simd128"'
SYMBOL = r'(?:@"[^"]*"|@[\w.$]+)'
VALUE = rf"(?:{SYMBOL}|%[\w.]+|null|poison|undef)"
PAIR = re.compile(r"^  (%[\w.]+) = load \{ (\w+), (\w+) \}, ptr (%[\w.]+)")
STORE = re.compile(rf"^  store ptr ({VALUE}), ptr ({VALUE})")
SEVERAL = re.compile(r"^  (?:%[\w.]+ = (?:load|alloca)|store) (\{[^}]*\}|<[^>]*>|\[[^\]]*\])")
STATIC = re.compile(r"^(@\S+ = .*?(?:constant|global) )<\{ (.*?) \}> <\{ (.*) \}>(.*)$")
FIELD = re.compile(rf"(?<!\()\bptr (?:getelementptr \(i8, ptr {SYMBOL}, i64 -?\d+\)|{SYMBOL}|null)(?=,|$)")
# The one instruction of x86 that modules have: a byte of the index with its highest bit gives 0, else its low four bits choose.
# `swizzle` gives 0 from 16 on, so the bits between are cleared.
SHUFFLE = "@llvm.x86.ssse3.pshuf.b.128"
SHUFFLED = f"""declare <16 x i8> @llvm.wasm.swizzle(<16 x i8>, <16 x i8>)
define internal <16 x i8> @basin.shuffled(<16 x i8> %a, <16 x i8> %b) alwaysinline {FEATURES} {{
  %m = and <16 x i8> %b, splat (i8 -113)
  %r = call <16 x i8> @llvm.wasm.swizzle(<16 x i8> %a, <16 x i8> %m)
  ret <16 x i8> %r
}}
"""


class Unknown(Exception):
    """A form that isn't known here: its line."""


def narrowed(lines: Iterable[str], hidden: str = "") -> Iterator[str]:
    """The lines of the module. A `hidden` function is one that a program has for itself, and that is to be exported by its last name."""
    inside, export = f'@"{hidden}"(', f"@{hidden.rpartition('::')[2]}("
    for number, line in enumerate(lines):
        if hidden and inside in line:
            line = line.replace(inside, export).replace("define internal ", "define ", 1)
        if line.startswith("  "):
            yield instruction(line, number)
        elif line.startswith("@"):
            yield static(line)
        else:
            yield head(line)


def head(line: str) -> str:
    """A line outside functions: those on the target, on attributes, and heads of functions."""
    if line.startswith("target datalayout"):
        return LAYOUT
    if line.startswith("target triple"):
        return TRIPLE
    if line.startswith("attributes"):
        line = re.sub(r'"(?:probe-stack|stack-probe-size|frame-pointer)"="[^"]*" |sanitize_address ', "", line)
        line = re.sub(r'"target-cpu"="[^"]*"', FEATURES, line)
        # A group has at least one.
        return re.sub(r"\{ +\}", "{ nounwind }", line)
    if line.startswith("declare") and SHUFFLE in line:
        return SHUFFLED
    return known(line)


def instruction(line: str, number: int) -> str:
    """An instruction."""
    line = line.replace(" ptrtoaddr ptr ", " ptrtoint ptr ").replace("= alloca ptr,", "= alloca i64,").replace(SHUFFLE, "@basin.shuffled")
    if pair := PAIR.match(line):
        return known(loaded(pair, number)) if "ptr" in pair.group(2, 3) else known(line)
    if line.startswith("  store ptr "):
        return stored(line, number)
    if (several := SEVERAL.match(line)) and re.search(r"\bptr\b", several[1]):
        raise Unknown(line)
    return known(line)


def loaded(pair: re.Match[str], number: int) -> str:
    """A load of two things of which one is a pointer: the second lies eight bytes behind the first."""
    name, first, second, at = pair.groups()
    whole, built, lines = f"{{ {first}, {second} }}", "poison", []
    for place, kind in enumerate((first, second)):
        part = f"%w{number}.{place}"
        lines.append(f"  {part}.at = getelementptr i8, ptr {at}, i64 {8 * place}")
        lines.append(f"  {part} = load {kind}, ptr {part}.at, align {1 if kind == 'i8' else 8}")
        made = name if place else f"%w{number}.all"
        lines.append(f"  {made} = insertvalue {whole} {built}, {kind} {part}, {place}")
        built = made
    return "\n".join(lines) + "\n"


def stored(line: str, number: int) -> str:
    """A store of a pointer."""
    found = STORE.match(line)
    if not found:
        raise Unknown(line)
    value, at = found.groups()
    if value.startswith("%"):
        return f"  %w{number} = ptrtoint ptr {value} to i64\n  store i64 %w{number}, ptr {at}, align 8\n"
    return f"  store i64 ptrtoint (ptr {value} to i64), ptr {at}, align 8\n"


def static(line: str) -> str:
    """A constant: behind each pointer in it stand four bytes more."""
    found = STATIC.match(line.rstrip("\n"))
    if not found:
        if re.search(r"\bptr\b", line.split("section")[0]):
            raise Unknown(line)
        return line
    begin, kinds, values, end = found.groups()
    kinds = ", ".join(kind + (", i32" if kind == "ptr" else "") for kind in re.split(r", (?![^\[]*\])", kinds))
    return f"{begin}<{{ {kinds} }}> <{{ {FIELD.sub(lambda field: f'{field[0]}, i32 0', values)} }}>{end}\n"


def known(line: str) -> str:
    """A line that names nothing of another processor."""
    if "@llvm.x86." in line:
        raise Unknown(line)
    return line
