"""Texts that are wrong or half written: the server answers all of them, and the first diagnostic is `basin`'s refusal."""

import os
import random
import re
import subprocess
import sys
import tempfile
from pathlib import Path

from talking import TOP, Editor, edited

sys.path[:0] = [str(TOP / "tools"), str(TOP / "tests" / "mutated")]
import rulesets  # noqa: E402

WORDS = ("hover", "completion", "definition", "documentHighlight", "prepareRename", "references", "signatureHelp")


def refusal(program, folder, text):
    """What the program says of a text: "" where it is accepted."""
    path = folder / "x.policy"
    path.write_bytes(text.encode())
    done = subprocess.run([program, "check", folder / "model.toml", path], capture_output=True, check=False)
    return done.stderr.decode("utf-8", "replace").strip()


def tried(editor, uri, text, draw, fixes=True):
    """Asks all sorts of things of a text: its diagnostics, and how many fixes were offered, and errors."""
    editor.change(uri, text)
    found = editor.diagnostics(uri)
    errors = []
    lines = re.split(r"\r\n|\n|\r", text)
    for word in WORDS:
        line = int(draw.random() * len(lines))
        answer = editor.at(f"textDocument/{word}", uri, line, int(draw.random() * (len(lines[line]) + 1)))
        if isinstance(answer, dict) and "error" in answer and answer["error"]["code"] != -32803:
            errors.append((word, answer))
    line, column = len(lines) - 1, len(lines[-1].encode("utf-16-le")) // 2
    whole = {"start": {"line": 0, "character": 0}, "end": {"line": line, "character": column}}
    for word in ("semanticTokens/full", "documentSymbol", "formatting", "rangeFormatting", "inlayHint", "codeLens"):
        extra = {"options": {"tabSize": 2, "insertSpaces": True}} if "ormatting" in word else {}
        extra |= {"range": whole} if word in ("rangeFormatting", "inlayHint") else {}
        answer = editor.of(f"textDocument/{word}", uri, **extra)
        if isinstance(answer, dict) and "error" in answer:
            errors.append((word, answer))
    editor.at("textDocument/completion", uri, line, column)
    offered = editor.fixes(uri, found[:3]) if fixes else []
    return found, offered, errors


def main(count=2000):
    """Tries them."""
    program = os.environ.get("BASIN") or str(TOP / "crates/basin/out/basin")
    draw = random.Random(7)
    with tempfile.TemporaryDirectory() as folder:
        folder = Path(folder)
        (folder / "model.toml").write_bytes(rulesets.model_text())
        uri = f"file://{folder}/policy.rpl"
        editor = Editor({"program": False})
        editor.open(uri, "")
        editor.diagnostics(uri)
        wrong = mended = with_fix = refused = differs = accepted = 0
        for content, number in rulesets.texts(count).items():
            text = rulesets.bytes_of(content).decode("utf-8", "replace")
            found, offered, errors = tried(editor, uri, text, draw)
            if errors:
                wrong += 1
                print(f"lsp: text {number}: {errors[:2]}")
            answer = refusal(program, folder, text)
            faults = [one for one in found if one["severity"] == 1]
            code = answer.rpartition(": ")[2]
            accepted += not answer
            if bool(answer) != bool(faults) or (answer and faults[0]["code"] != code):
                differs += 1
                print(f"lsp: text {number}: {answer!r}, and {faults[:1]}")
            if answer:
                refused += 1
                first = [one for one in offered if one["diagnostics"][0]["range"] == faults[0]["range"]]
                if first:
                    with_fix += 1
                    after = refusal(program, folder, edited(text, first[0]["edit"]["changes"][uri]))
                    mended += after != answer
        print(f"lsp: {count} mutated rulesets, {accepted} accepted, {refused} refused, {differs} judged otherwise, {wrong} with errors")
        print(f"lsp: a fix for the first refusal of {with_fix}, after which basin says something else or accepts: {mended}")
        logs = [one for one in editor.logs]
        print(f"lsp: {len(logs)} in the log", *logs[:2])
        return editor.end() == 0 and not wrong and not differs


if __name__ == "__main__":
    raise SystemExit(not main(*map(int, sys.argv[1:])))
