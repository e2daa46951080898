"""What the server answers, message by message."""

import os
import queue
import tempfile
from pathlib import Path

from talking import Editor, TOP, edited

MODEL = (TOP / "tests/language/first/model.toml").read_text()
GOOD = """# Grüße 😀
RULE "pass 😀 on": # remark
  WITH Dam := Dam.Inflow[t] DO
    Dam.Outflow[t] := Max(Dam, Half(40 "m3/step"));
  ENDWITH
ENDRULE
"""
HALF = 'FUNCTION Half(NUMERIC "m3/step" x) : NUMERIC "m3/step" IS\n  x / 2\nENDFUNCTION\n'
held, failed = 0, 0


def holds(what, truth, shown=""):
    """Counts whether something holds."""
    global held, failed
    held, failed = held + bool(truth), failed + (not truth)
    if not truth:
        print(f"lsp: {what}: {shown}")


def place(text, words, within=0):
    """The position of words in a text, in units of UTF-16."""
    at = text.index(words) + within
    line = text.count("\n", 0, at)
    return line, len(text[text.rfind("\n", 0, at) + 1 : at].encode("utf-16-le")) // 2


def last(editor, uri):
    """The last diagnostics of a text within a second."""
    found = []
    try:
        while True:
            found = editor.diagnostics(uri, 1)
    except queue.Empty:
        return found


def judged(folder):
    """What comes behind: what to look at in rules that are accepted, and a program that answers otherwise."""
    uri = f"file://{folder}/judged.rpl"
    editor = Editor()
    editor.open(uri, 'RULE "a": Dam.Outflow[t] := Max(Dam.Outflow[t], 40 "m3/step"); ENDRULE\nRULE "b": Dam.Outflow[t] := 5 "m3/step"; ENDRULE\n')
    first, second = editor.diagnostics(uri), editor.diagnostics(uri)
    holds("what may surprise comes later", not first and [one["severity"] for one in second] == [3], second)
    fixes = editor.fixes(uri, second)
    now = edited('RULE "a": Dam.Outflow[t] := Max(Dam.Outflow[t], 40 "m3/step"); ENDRULE\n', fixes[0]["edit"]["changes"][uri]) if fixes else ""
    holds("its fix", 'IF Dam.Outflow[t] < 40 "m3/step" THEN Dam.Outflow[t] := 40 "m3/step"; ENDIF ENDRULE' in now, fixes)
    editor.end()
    other = folder / "other"
    other.write_text("#!/bin/sh\necho 'basin: rules: declaration 1 node 1: wrong type' >&2\nexit 7\n")
    other.chmod(0o755)
    before, os.environ["BASIN"] = os.environ.get("BASIN"), str(other)
    editor = Editor()
    os.environ.pop("BASIN")
    if before:
        os.environ["BASIN"] = before
    editor.open(uri, 'RULE "b": Dam.Outflow[t] := 5 "m3/step"; ENDRULE\n')
    found = editor.diagnostics(uri) and [] or editor.diagnostics(uri)
    holds("a program that answers otherwise", [one["source"] for one in found] == ["basin check"], found)
    editor.end()


def main():
    """Tries it all."""
    with tempfile.TemporaryDirectory() as folder:
        folder = Path(folder)
        (folder / "model.toml").write_text(MODEL)
        (folder / "inputs.csv").write_text("slot,step,value\nDam.Inflow,1-3,100\n")
        (folder / "other.rpl").write_text('RULE "b": Plan.Least[t] := Dam.Inflow[t]; ENDRULE\n')
        uri, text = f"file://{folder}/policy.rpl", HALF + GOOD
        editor = Editor()
        editor.open(uri, text)
        found = editor.diagnostics(uri)
        holds("good", found == [], found)

        # places in UTF-16
        wrong = text.replace('40 "m3/step"', '40')
        editor.change(uri, wrong)
        found = editor.diagnostics(uri)
        line, column = place(wrong, "40)")
        holds("one diagnostic", len(found) == 1, found)
        holds("its place", found and found[0]["range"] == {"start": {"line": line, "character": column}, "end": {"line": line, "character": column + 2}}, found)
        fixes = editor.fixes(uri, found)
        changed = edited(wrong, fixes[0]["edit"]["changes"][uri]) if fixes else ""
        holds("the fix", changed == text, fixes)
        row = wrong.replace("Max(", 'KNOWN(Dam.Inflow[t]) AND "😀😀" Max(')
        editor.change(uri, row)
        found = editor.diagnostics(uri)
        line, column = place(row, '"😀😀"')
        holds("pairs", found and found[0]["range"]["start"] == {"line": line, "character": column} and found[0]["range"]["end"]["character"] == column + 6, found)

        # changes piece by piece
        editor.change(uri, text)
        line, column = place(text, "😀 on")
        spot = {"start": {"line": line, "character": column}, "end": {"line": line, "character": column + 2}}
        editor.change(uri, (spot, "é"), ({"start": {"line": 0, "character": 0}, "end": {"line": 0, "character": 0}}, "# x\r\n"))
        mine = "# x\r\n" + text.replace("😀 on", "é on")
        colours = editor.of("textDocument/semanticTokens/full", uri)["data"]
        editor.change(uri, mine)
        holds("pieces", colours == editor.of("textDocument/semanticTokens/full", uri)["data"] and len(colours) % 5 == 0)
        editor.change(uri, text)

        # names
        line, column = place(text, "Dam.Inflow")
        spot = editor.at("textDocument/definition", uri, line, column + 1)
        holds("definition of an object", spot and spot["uri"].endswith("model.toml") and spot["range"]["start"]["line"] == 8, spot)
        line, column = place(text, "Max(Dam", 4)
        spot = editor.at("textDocument/definition", uri, line, column)
        holds("definition of a local", spot and spot["range"]["start"] == dict(zip(("line", "character"), place(text, "WITH Dam", 5))), spot)
        holds("references of a local", len(editor.at("textDocument/references", uri, line, column, context={"includeDeclaration": True})) == 2)
        changes = editor.at("textDocument/rename", uri, *place(text, "Dam.Inflow"), newName="Lake")["changes"]
        now = edited(text, changes[uri])
        holds("rename of an object", "WITH Dam := Lake.Inflow[t]" in now and "Lake.Outflow[t] := Max(Dam," in now, now)
        holds("rename in the model", 'name = "Lake"' in edited(MODEL, changes[f"file://{folder}/model.toml"]))
        holds("rename in other files", {f"file://{folder}/other.rpl", f"file://{folder}/inputs.csv"} < set(changes), list(changes))
        changes = editor.at("textDocument/rename", uri, line, column, newName="x")["changes"]
        now = edited(text, changes[uri])
        holds("rename of a local", "WITH x := Dam.Inflow[t]" in now and "Dam.Outflow[t] := Max(x," in now, now)
        for name, words in (("Plan", "there is an object"), ("IF", "can't be a name"), ("a b", "can't be a name")):
            answer = editor.at("textDocument/rename", uri, *place(text, "Dam.Inflow"), newName=name)
            holds(f"no rename to {name}", words in answer.get("error", {}).get("message", ""), answer)
        answer = editor.at("textDocument/prepareRename", uri, *place(text, "Inflow[t]"))
        holds("no rename of a kind's slot", "error" in answer, answer)
        changes = editor.at("textDocument/rename", uri, *place(text, "Half(40"), newName="Part")["changes"]
        holds("rename of a function", edited(text, changes[uri]).count("Part") == 2)

        # hover, completion, symbols
        told = editor.at("textDocument/hover", uri, *place(text, "Outflow[t]"))["contents"]["value"]
        holds("hover of a slot", "m3/step" in told and 'Set by rule 1 "pass 😀 on"' in told, told)
        told = editor.at("textDocument/hover", uri, *place(text, "RULE"))["contents"]["value"]
        holds("hover of a rule", "At most 7 instructions" in told or "instructions" in told, told)
        told = editor.at("textDocument/hover", uri, *place(text, "Dam, Half"))["contents"]["value"]
        holds("hover of a local", "a number in m3/step" in told, told)
        half = text.replace('Half(40 "m3/step"));\n', 'Half(40 "')
        editor.change(uri, half)
        labels = [one["label"] for one in editor.at("textDocument/completion", uri, *place(half, 'Half(40 "', 9))]
        holds("units that fit", labels == ['"m3/step"', '"dam3/step"'], labels)
        half = text.replace("Max(Dam, Half", "Max(Dam., Half")
        editor.change(uri, half)
        labels = [one["label"] for one in editor.at("textDocument/completion", uri, *place(half, "Max(Dam.", 8))]
        holds("slots", labels == ["Inflow", "Outflow", "Storage"], labels)
        half = text[: text.index("Max(")]
        editor.change(uri, half)
        labels = [one["label"] for one in editor.at("textDocument/completion", uri, *place(text, "Max("))]
        holds("values", {"Half", "Max", "Dam", "Plan", "IF", "KNOWN", "t"} <= set(labels) and "ENDRULE" not in labels and "RULE" not in labels, labels)
        editor.change(uri, text)
        names = [one["name"] for one in editor.of("textDocument/documentSymbol", uri)]
        holds("symbols", names == ["Half", "1 pass 😀 on"], names)

        # a model in the editor counts before the one in the folder, and its rulesets are judged anew
        model = f"file://{folder}/model.toml"
        editor.open(model, MODEL.replace('"Dam"', '"Sea"'), "toml")
        found = last(editor, uri)
        holds("the model's change", any("there is no object" in one["message"] for one in found), found)
        broken = MODEL.replace("steps = 3", "steps = 0")
        editor.change(model, broken)
        found = editor.diagnostics(model)
        holds("a wrong model", found and found[0]["range"]["start"]["line"] == broken[: broken.index("steps")].count("\n"), found)
        editor.change(model, MODEL.replace("steps = 3", "steps = "))
        found = editor.diagnostics(model)
        holds("no TOML", len(found) == 1, found)
        editor.change(model, MODEL + '[[object]]\nname = "X"\nkind = "')
        labels = [one["label"] for one in editor.at("textDocument/completion", model, MODEL.count("\n") + 2, 8)]
        holds("kinds", "power_reservoir" in labels, labels)
        editor.tell("textDocument/didClose", {"textDocument": {"uri": model}})

        # what isn't in order
        first = editor.begin("textDocument/hover", {"textDocument": {"uri": uri}, "position": {"line": 0, "character": 0}})
        editor.whole(first)
        slow = "".join(f'RULE "r{k}": Dam.Outflow[t] := Dam.Inflow[t] + {k}; ENDRULE\n' for k in range(200))
        editor.change(uri, slow)
        numbers = [editor.begin("textDocument/codeAction", {"textDocument": {"uri": uri}, "range": {"start": {"line": 0, "character": 0}, "end": {"line": 200, "character": 0}}, "context": {"diagnostics": []}}) for _ in range(3)]
        for number in numbers:
            editor.tell("$/cancelRequest", {"id": number})
        codes = [editor.whole(number).get("error", {}).get("code") for number in numbers]
        holds("cancelled", codes == [-32800] * 3, codes)
        answer = editor.ask("textDocument/nothing", {})
        holds("unknown method", answer["error"]["code"] == -32601, answer)
        answer = editor.ask("textDocument/hover", {"textDocument": {"uri": uri}})
        holds("bad words", answer["error"]["code"] == -32602, answer)
        answer = editor.ask("textDocument/hover", {"textDocument": {"uri": "file:///none.rpl"}, "position": {"line": 0, "character": 0}})
        holds("not open", answer["error"]["code"] == -32602, answer)
        editor.raw(b"Content-Length: 3\r\n\r\n{{{")
        editor.send([{"x": 1}] and {"method": 7})
        holds("beyond the end", "error" not in (editor.at("textDocument/hover", uri, 10**6, 10**6) or {}))
        holds("logs", not [one for one in editor.logs if "Traceback" in one and "position" not in one], editor.logs)
        holds("its end", editor.end() == 0)
        judged(folder)
        crashed = Editor()
        crashed.process.stdin.close()
        holds("the end of the input", crashed.process.wait(20) == 1)
    print(f"lsp: messages: {held} held, {failed} failed")
    return failed == 0


if __name__ == "__main__":
    raise SystemExit(not main())
