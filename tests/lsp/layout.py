"""The layout: a second one changes nothing, remarks stay, and `basin compile` writes the same code before and after."""

import os
import random
import subprocess
import sys
import tempfile
from pathlib import Path

from talking import TOP

sys.path[:0] = [str(TOP / "tools"), str(TOP / "tests" / "mutated")]
import rulesets  # noqa: E402
from basin_lsp.layout import Same, laid_out  # noqa: E402
from basin_lsp.reading import lexed, read  # noqa: E402
from basin_rules.places import Source  # noqa: E402

FIRST = TOP / "tests/language/first/model.toml"


def compiled(program, folder, model, content):
    """What the program compiles: its status, its code, and its words without lines."""
    path = folder / "x.rpl"
    path.write_bytes(content)
    done = subprocess.run([program, "compile", model, path], capture_output=True, check=False)
    return done.returncode, done.stdout


def texts(folder):
    """Rulesets, each with its model."""
    for path in sorted([*TOP.glob("tests/language/*/*.rpl"), *TOP.glob("examples/*/*.rpl")]):
        content = path.read_bytes()
        if not content.startswith(b"CODE 1"):
            beside = path.parent / "model.toml"
            yield str(path.relative_to(TOP)), beside if beside.exists() else FIRST, content
    model = folder / "tables.toml"
    model.write_bytes(rulesets.model_text())
    for number, (text, _) in enumerate(rulesets.table_cases(), 1):
        yield f"tests/tables {number}", model, rulesets.bytes_of(text)


def scattered(draw, text):
    """The same text with remarks and line ends scattered between its tokens."""
    tokens, _, _ = lexed(text)
    pieces, last = [], 0
    for token in tokens:
        if draw.random() < 0.12:
            gap = draw.choice(["\n", "\n\n", "\n\n\n", " # one\n", "\n# own\n", "\n\n  # own\n\n# more\n", "  ", "\t", "\r\n"])
            pieces += [text[last : token.begin], gap]
            last = token.begin
    return "".join(pieces) + text[last:]


CHAIN = """RULE "chain":
  IF TRUE THEN
    Dam.Outflow[t] := 1 "m3/step";
  ELSE IF FALSE THEN
    Dam.Outflow[t] := 2 "m3/step";  # two
  ELSE
    Dam.Outflow[t] := 3 "m3/step";
  ENDIF ENDIF
ENDRULE
"""


def of_rules(folder):
    """How `tools/rules --format` differs from what it has to do with files."""
    spread, laid, broken, code = (folder / name for name in ("spread.rpl", "laid.rpl", "broken.rpl", "code"))
    given = CHAIN.replace("ELSE IF", "ELSE\n IF").replace("ENDIF ENDIF", "ENDIF\nENDIF").encode()
    for path, content in ((spread, given), (laid, CHAIN.encode()), (broken, b'RULE "a'), (code, b"CODE 1\n")):
        path.write_bytes(content)

    def told(*words, given=b""):
        done = subprocess.run([TOP / "tools/rules", *words], capture_output=True, input=given, check=False)
        return done.returncode, done.stdout.decode(), done.stderr.decode()

    found = [
        ("a file that would change", told("--format", "--check", spread, laid) == (1, f"{spread}\n", "")),
        ("stays with --check", spread.read_bytes() == given),
        ("the standard input", told("--format", "-", given=given) == (0, CHAIN, "")),
        ("files that change", told("--format", spread, laid) == (0, f"{spread}\n", "")),
        ("the layout", spread.read_text() == CHAIN and laid.read_text() == CHAIN),
        ("nothing more changes", told("--format", "--check", spread, laid) == (0, "", "")),
        ("a slip", told("--format", broken, code, folder / "none")[0] == 2 and broken.read_bytes() == b'RULE "a'),
        ("code", told("--format", code)[2] == f"rules: {code} is a file of code, which has no other layout\n"),
        ("--check alone", told("--check", "a", "b")[0] == 2),
    ]
    return [f"tools/rules --format: {what}" for what, holds in found if not holds]


def main(turns=3):
    """Tries them."""
    program = os.environ.get("BASIN") or str(TOP / "crates/basin/out/basin")
    draw = random.Random(5)
    count = same = scatters = wrong = left = 0
    with tempfile.TemporaryDirectory() as folder:
        folder = Path(folder)
        for one in of_rules(folder):
            wrong += 1
            print(f"lsp: {one}")
        for name, model, content in texts(folder):
            text = content.decode("latin-1")
            if any(one.refusal.endswith(("bad token", "bad declaration", "too many")) for one in read(Source("", content), None).findings):
                left += 1
                continue
            count += 1
            try:
                found = laid_out(text)
                again = laid_out(found)
            except Same:
                print(f"lsp: {name}: no layout")
                wrong += 1
                continue
            same += found == text
            before, after = (compiled(program, folder, model, one.encode("latin-1")) for one in (text, found))
            if again != found or before != after:
                print(f"lsp: {name}: {'twice' if again != found else before[0], after[0]}")
                wrong += 1
            for _ in range(turns if len(text) < 5000 else 0):
                mixed = scattered(draw, text)
                scatters += 1
                try:
                    found = laid_out(mixed)
                    again = laid_out(found)
                    if again != found:
                        print(f"lsp: {name}: scattered: twice\n{mixed}\n--\n{found}\n--\n{again}")
                        return False
                except Same:
                    print(f"lsp: {name}: scattered: no layout\n{mixed}")
                    wrong += 1
    print(f"lsp: {count} layouts of which {same} change nothing, {left} without grammar, {scatters} scattered, {wrong} wrong")
    return not wrong


if __name__ == "__main__":
    raise SystemExit(not main(*map(int, sys.argv[1:])))
