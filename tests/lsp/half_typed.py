"""Rulesets that are typed from their first token to their last: the server answers at each token."""

import random
import sys
import time

from robust import tried
from talking import TOP, Editor

sys.path.insert(0, str(TOP / "tools"))
from basin_lsp.reading import lexed  # noqa: E402


def main(step=1):
    """Types them."""
    draw = random.Random(3)
    editor = Editor({"program": False})
    count = wrong = 0
    slowest = 0.0
    for path in sorted([*TOP.glob("tests/language/*/policy.rpl"), *TOP.glob("examples/*/policy.rpl")]):
        text = path.read_text()
        if text.startswith("CODE 1"):
            continue
        uri = path.as_uri()
        editor.open(uri, "")
        editor.diagnostics(uri)
        ends = [token.end for token in lexed(text.encode().decode("latin-1"))[0]]
        for end in ends[::step]:
            for cut in (end, end - 1):
                part = text.encode()[:cut].decode("utf-8", "ignore")
                began = time.monotonic()
                _, _, errors = tried(editor, uri, part, draw, fixes=draw.random() < 0.1)
                slowest = max(slowest, time.monotonic() - began)
                count += 1
                if errors:
                    wrong += 1
                    print(f"lsp: {path.relative_to(TOP)} up to {cut}: {errors[:1]}")
        editor.tell("textDocument/didClose", {"textDocument": {"uri": uri}})
    print(f"lsp: {count} half-typed texts, {wrong} with errors, {len(editor.logs)} in the log, the slowest {slowest:.2f} s")
    print(*editor.logs[:2])
    return editor.end() == 0 and not wrong and not editor.logs


if __name__ == "__main__":
    raise SystemExit(not main(*map(int, sys.argv[1:])))
