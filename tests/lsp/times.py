"""How long it takes from a change to the diagnostics, with 200 rules."""

import statistics
import sys
import tempfile
import time
from pathlib import Path

from talking import Editor

OBJECTS = 50


def model(count=OBJECTS):
    """A model with so many reservoirs and as many data objects."""
    head = 'format = 1\nrun = { start = "2024-03-30T00:00", step = "24h", steps = 3 }\n'
    dam = '[[object]]\nname = "Dam{}"\nkind = "reservoir"\ninitial_storage = 1000\n'
    plan = '[[object]]\nname = "Plan{}"\nkind = "data"\nslots = [{{ name = "Least", unit = "m3/step" }}, {{ name = "Aim", unit = "m3" }}]\n'
    return head + "".join(dam.format(k) + plan.format(k) for k in range(count))


HEAD = """# A large ruleset.
FUNCTION Least(NUMERIC "m3/step" x) : NUMERIC "m3/step" IS
  IF MONTH(t) >= 4 AND MONTH(t) <= 6 THEN Max(x, 300 "m3/step") ELSE Min(x, 200 "m3/step") ENDIF
ENDFUNCTION

"""


def rule(k, count=OBJECTS):
    """A rule of some lines, for so many objects."""
    d = k % count
    return [
        f'RULE "flood pool {k}":\n  IF Dam{d}.Storage[t] > 1020 "m3" THEN\n    Dam{d}.Storage[t] := 1020 "m3";\n  ENDIF\nENDRULE\n\n',
        f'RULE "plan {k}":\n  Plan{d}.Least[t] := Least(Dam{d}.Inflow[t]);\n  Plan{d}.Aim[t] := Dam{d}.Storage[t - 1 "step"] + Dam{d}.Inflow[t] * 1 "step" - 20 "m3";\nENDRULE\n\n',
        f'RULE "release {k}":\n  WITH there := (Dam{d}.Storage[t - 1 "step"] - Plan{d}.Aim[t]) / 10 "step" + Dam{d}.Inflow[t] DO\n    Dam{d}.Outflow[t] := Clamp(there, Plan{d}.Least[t], 900 "m3/step");\n  ENDWITH\nENDRULE\n\n',
        f'RULE "save {k}":\n  IF KNOWN(Dam{d}.Outflow[t - 1 "step"]) THEN\n    Dam{d}.Outflow[t] := Max(Dam{d}.Outflow[t - 1 "step"] * 9 / 10, FOR n IN {{1 "step", 2 "step", 3 "step"}} WITH least := 80 "m3/step" DO Max(least, Dam{d}.Storage[t - 1 "step"] / n) ENDFOR);\n  ENDIF\nENDRULE\n\n',
    ][k % 4]


def main(count=200, turns=15):
    """Measures."""
    with tempfile.TemporaryDirectory() as folder:
        (Path(folder) / "model.toml").write_text(model())
        uri = f"file://{folder}/policy.rpl"
        good = HEAD + "".join(rule(k) for k in range(count))
        print(f"{count} rules, {good.count(chr(10))} lines, {len(good)} bytes")
        editor = Editor({"program": False})
        editor.open(uri, good)
        found = editor.diagnostics(uri)
        print("first diagnostics", len(found), [one["message"][:80] for one in found if one["severity"] == 1][:2])
        middle = good.index("release") + len(good) // 2
        spot = good.index(" * 9 / 10", len(good) // 2)
        for what, change in (
            ("accepted", lambda k: good.replace("# A", f"# A{k}")),
            ("a wrong unit in the middle", lambda k: good[:spot] + f" * {k + 2} \"m3\"" + good[spot + 9 :]),
            ("half a rule in the middle", lambda k: good[:spot] + f" * ({k}"  + good[spot + 9 :]),
            ("a string that isn't closed", lambda k: good[:spot] + f" * {k} \"m3" + good[spot + 9 :]),
        ):
            took = []
            for k in range(turns):
                text = change(k)
                began = time.monotonic()
                editor.change(uri, text)
                found = editor.diagnostics(uri)
                took.append((time.monotonic() - began) * 1000)
            print(f"change to diagnostics, {what}: {statistics.median(took):.0f} ms in the middle, {max(took):.0f} at most; {len(found)} diagnostics")
        text = change(99)
        for what, ask in (
            ("completion", lambda: editor.at("textDocument/completion", uri, 100, 5)),
            ("completion after a change", lambda: (editor.change(uri, text + " " * len(took)), took.append(0), editor.at("textDocument/completion", uri, 100, 5))),
            ("hover", lambda: editor.at("textDocument/hover", uri, 8, 8)),
            ("colours", lambda: editor.of("textDocument/semanticTokens/full", uri)),
            ("fixes", lambda: editor.fixes(uri, found[:1])),
        ):
            began = time.monotonic()
            ask()
            print(f"{what}: {(time.monotonic() - began) * 1000:.0f} ms")
        editor.change(uri, good)
        editor.diagnostics(uri)
        began = time.monotonic()
        told = editor.of("textDocument/formatting", uri, options={})
        print(f"formatting: {(time.monotonic() - began) * 1000:.0f} ms, {len(told)} changes")
        editor.end()
    return True


if __name__ == "__main__":
    raise SystemExit(not main(*map(int, sys.argv[1:])))
