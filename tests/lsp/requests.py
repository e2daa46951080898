"""Each request on three examples: what is answered of all their tokens, and a rename over all files and back again."""

import re
import shutil
import sys
import tempfile
from pathlib import Path

from talking import TOP, Editor, edited

HERE = ("hover", "definition", "references", "documentHighlight", "completion", "signatureHelp")
WHOLE = {"start": {"line": 0, "character": 0}, "end": {"line": 100_000, "character": 0}}
OF_TEXT = ("documentSymbol", "semanticTokens/full", "codeLens", "formatting", "rangeFormatting", "inlayHint")


def asked(editor, uri, text):
    """What goes wrong where each request is asked of a text, at the begin of each of some names."""
    wrong = []
    for word in OF_TEXT:
        answer = editor.of(f"textDocument/{word}", uri, range=WHOLE, options={})
        wrong += [f"{word}: {answer}"] if isinstance(answer, dict) and "error" in answer else []
    for number, row in enumerate(text.split("\n")):
        for found in list(re.finditer(r"[A-Za-z_]\w*", row))[:4]:
            for word in HERE:
                answer = editor.at(f"textDocument/{word}", uri, number, found.start(), context={"includeDeclaration": True})
                wrong += [f"{word} at {number}: {answer}"] if isinstance(answer, dict) and "error" in answer else []
    return wrong


def renamed(editor, folder, uri, old, new):
    """Renames an object over all files of a folder: how many changed."""
    text = (folder / "model.toml").read_text()
    line = next(number for number, row in enumerate(text.split("\n")) if f'"{old}"' in row)
    answer = editor.at("textDocument/rename", uri, line, text.split("\n")[line].index(f'"{old}"') + 1, newName=new)
    for at, changes in answer["changes"].items():
        path = Path(at.removeprefix("file://"))
        path.write_text(edited(path.read_text(), changes))
        if at in editor.versions:
            editor.change(at, path.read_text())
    editor.tell("workspace/didChangeWatchedFiles", {"changes": []})
    return len(answer["changes"])


def tried(name, folder):
    """What goes wrong with an example."""
    wrong, editor = [], Editor({"program": False})
    files = sorted(path for path in folder.iterdir() if path.suffix in (".rpl", ".require", ".toml", ".csv"))
    before = {path: path.read_text() for path in files}
    for path in files:
        if path.suffix != ".csv":
            editor.open(path.as_uri(), before[path])
            faults = [one for one in editor.diagnostics(path.as_uri()) if one["severity"] == 1]
            wrong += [f"{path.name}: {faults[:1]}"] if faults else []
            wrong += [f"{path.name}: {one}" for one in asked(editor, path.as_uri(), before[path])]
    first = re.search(r'name = "(\w+)"', before[folder / "model.toml"])[1]
    count = renamed(editor, folder, (folder / "model.toml").as_uri(), first, "Renamed")
    given = [path for path in files if not before[path].startswith("#")]  # a run's tables keep the names of their run
    left = [path.name for path in given if re.search(rf"\b{first}\.\w", path.read_text())]
    wrong += [f"{count} files renamed, and {left} still name {first}"] if left or count < 2 else []
    renamed(editor, folder, (folder / "model.toml").as_uri(), "Renamed", first)
    wrong += [f"{path.name}: otherwise after two renames" for path in files if path.read_text() != before[path]]
    wrong += editor.logs[:2] + ([] if editor.end() == 0 else ["the status"])
    return [f"{name}: {one}" for one in wrong]


def main():
    """Tries them."""
    wrong = []
    for name in [path.parent.name for path in sorted(TOP.glob("examples/*/policy.rpl"))][:2] + ["valley-rules"]:
        with tempfile.TemporaryDirectory() as folder:
            shutil.copytree(TOP / "examples" / name, Path(folder) / name)
            wrong += tried(name, Path(folder) / name)
    print(*(f"lsp: {one}"[:400] for one in wrong), sep="\n", end="\n" * bool(wrong))
    print(f"lsp: each request on three examples, {len(wrong)} wrong")
    return not wrong


if __name__ == "__main__":
    raise SystemExit(not main(*map(int, sys.argv[1:])))
