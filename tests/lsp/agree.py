"""Diagnostics agree with `basin check`, place and words, on each ruleset of the tables and of tests/language.

The words are those that end the refusal. Its place is a line, or a declaration and a node: the first diagnostic begins
in that line, or in that declaration within that node.
"""

import os
import re
import sys
import tempfile
from pathlib import Path

from layout import texts
from robust import refusal
from talking import TOP, Editor

sys.path.insert(0, str(TOP / "tools"))
from basin_files.judging import read_model  # noqa: E402
from basin_lsp.documents import Document  # noqa: E402
from basin_lsp.reading import chunks_of, read  # noqa: E402


def place_of(document, model, answer, begin):
    """Why a byte isn't at the place that a refusal names, or an empty text."""
    line = re.search(r": line (\d+): ", answer)
    if line:
        return "" if document.source.line(begin) == int(line[1]) else f"line {document.source.line(begin)}"
    number = int(re.search(r"declaration (\d+)", answer)[1])
    first, last = list(chunks_of(document.source.text))[number - 1]
    if not first <= begin <= last:
        return f"byte {begin}, which isn't in declaration {number}"
    node = re.search(r" node (\d+): ", answer)
    if node and int(node[1]):
        declaration = next(one for one in read(document.source, model).ruleset.declarations if one.number == number)
        found = next(one for one in declaration.nodes() if one.number == int(node[1]))
        if not found.span.begin <= begin < found.span.end:
            return f"byte {begin}, which isn't in node {node[1]}"
    return ""


def differs(editor, uri, content, path, answer):
    """How the first diagnostic of a text differs from what the program answers, or an empty text."""
    text = content.decode("utf-8", "replace")
    editor.open(uri, text)
    found = [one for one in editor.diagnostics(uri) if one["severity"] == 1]
    editor.tell("textDocument/didClose", {"textDocument": {"uri": uri}})
    if not answer or not found:
        return "" if not answer and not found else f"{answer or 'accepted'}, and {found[:1]}"
    if found[0]["code"] != answer.rpartition(": ")[2]:
        return f"{answer}, and {found[0]['code']}"
    document, model = Document(uri, text), read_model(path.read_bytes())
    wrong = place_of(document, model, answer, document.byte(found[0]["range"]["start"]))
    return f"{answer}, and at {wrong}" if wrong else ""


def main():
    """Tries them."""
    program = os.environ.get("BASIN") or str(TOP / "crates/basin/out/basin")
    count = refused = wrong = 0
    with tempfile.TemporaryDirectory() as folder:
        folder = Path(folder)
        editor = Editor({"program": False})
        for name, model, content in texts(folder):
            room = folder / f"{count}"
            room.mkdir()
            (room / "model.toml").write_bytes(model.read_bytes())
            answer = refusal(program, room, content.decode("utf-8", "replace"))
            if answer.startswith("basin: model"):
                continue
            said = differs(editor, f"file://{room}/policy.rpl", content, model, answer)
            count, refused, wrong = count + 1, refused + bool(answer), wrong + bool(said)
            if said:
                print(f"lsp: {name}: {said}")
        status = editor.end()
    print(f"lsp: {count} rulesets, {refused} refused, {wrong} judged otherwise than `basin check`")
    return not wrong and not status and refused > 100 and not editor.logs


if __name__ == "__main__":
    raise SystemExit(not main())
