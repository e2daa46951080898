"""Common slips: a fix is offered for each, and with it `basin check` accepts the ruleset."""

import os
import subprocess
import sys
import tempfile
from pathlib import Path

from talking import TOP

sys.path[:0] = [str(TOP / "tools")]
from basin_files.judging import read_model  # noqa: E402
from basin_lsp import checking, fixes  # noqa: E402
from basin_lsp.documents import Document  # noqa: E402

LEAST = 46  # slips that a fix mends
MODEL = TOP / "tests/language/first/model.toml"
SLIPS = """
RULE "a": Dam.Outflow[] := 5 "m3/step"; ENDRULE
RULE "a": Dam.Outflow := 5 "m3/step"; ENDRULE
RULE "a": Dam.Outflow[t] = 5 "m3/step"; ENDRULE
RULE "a": Dam.Outflow[t] := 5; ENDRULE
RULE "a": Dam.Outflow[t] := 5 m3/step; ENDRULE
RULE "a": Dam.Outflow[t] := 5,000 "m3/step"; ENDRULE
RULE "a": Dam.Outflow[t] := 5_000 "m3/step"; ENDRULE
RULE "a": Dam.Outflow[t] := 5 "M3/step"; ENDRULE
RULE "a": Dam.Outflow[t] := 5 "dam3 / step"; ENDRULE
RULE "a": Plan.Target[t] := 5 "hm3"; ENDRULE
RULE "a": Dam.Outflow[t] := 5 "m3/step" ENDRULE
RULE "a": Dam.Outflow[t] := 5 "m3/step";
RULE "a": IF TRUE THEN Dam.Outflow[t] := 5 "m3/step"; ENDRULE
RULE "a": IF TRUE THEN Dam.Outflow[t] := 5 "m3/step"; ENDIF; ENDRULE
RULE "a": if TRUE THEN Dam.Outflow[t] := 5 "m3/step"; ENDIF ENDRULE
RULE "a": IF TRUE THEN Dam.Outflow[t] := 5 "m3/step"; END IF ENDRULE
RULE a: Dam.Outflow[t] := 5 "m3/step"; ENDRULE
RULE "a" Dam.Outflow[t] := 5 "m3/step"; ENDRULE
RULE "a": Dam.Outfow[t] := 5 "m3/step"; ENDRULE
RULE "a": dam.Outflow[t] := 5 "m3/step"; ENDRULE
RULE "a": Dam.Outflow[t] := max(Dam.Inflow[t], 5 "m3/step"); ENDRULE
RULE "a": Dam.Outflow[t] := Dam.Inflow; ENDRULE
RULE "a": Dam.Outflow[t] := Dam.Storage[t]; ENDRULE
RULE "a": Plan.Target[t] := Dam.Storage[t] + Dam.Inflow[t]; ENDRULE
RULE "a": Dam.Outflow[t] := Dam.Inflow[t - 1]; ENDRULE
RULE "a": Dam.Outflow[t] := Dam.Inflow[-1]; ENDRULE
RULE "a": IF Dam.Inflow[t] >= 5 THEN Dam.Outflow[t] := 5 "m3/step"; ENDIF ENDRULE
RULE "a": IF Dam.Inflow[t] ≥ 5 "m3/step" THEN Dam.Outflow[t] := 5 "m3/step"; ENDIF ENDRULE
RULE "a": IF Dam.Inflow[t] != 5 "m3/step" THEN Dam.Outflow[t] := 5 "m3/step"; ENDIF ENDRULE
RULE "a": IF 1 < MONTH(t) < 5 THEN Dam.Outflow[t] := 5 "m3/step"; ENDIF ENDRULE
RULE "a": IF MONTH(t) > 1 && MONTH(t) < 5 THEN Dam.Outflow[t] := 5 "m3/step"; ENDIF ENDRULE
RULE “a”: Dam.Outflow[t] := 5 "m3/step"; ENDRULE
RULE "a: Dam.Outflow[t] := 5 "m3/step"; ENDRULE
RULE "a": Dam.Outflow[t] := 5 "m3/step"; // fish | ENDRULE
RULE "a": Dam.Outflow[t] := + 5 "m3/step"; ENDRULE
RULE "a": Plan.Count[t] := MONTH(T); ENDRULE
RULE "a": Plan.Count[t] := Dam.Inflow[t]; ENDRULE
RULE "a": Plan.Count[t] := 5 "m3"; ENDRULE
FUNCTION Half NUMERIC "m3" x) : NUMERIC "m3" IS x / 2 ENDFUNCTION
FUNCTION Half() NUMERIC "m3" IS 2 "m3" ENDFUNCTION
FUNCTION Half : NUMERIC "m3" IS 2 "m3" ENDFUNCTION
FUNCTION Half(NUMERIC x) : NUMERIC "m3" IS 2 "m3" ENDFUNCTION
FUNCTION Half() : NUMERIC "m3" IS 2 "m3" ENDFUNCTION RULE "a": Plan.Target[t] := Half; ENDRULE
FUNCTION Half() : NUMERIC "m3" IS 2 "m3"; ENDFUNCTION
FUNCTION Half() : NUMERIC "m3" IS IF TRUE THEN 2 "m3" ENDIF ENDFUNCTION
FUNCTION Half(NUMERIC "m3" t) : NUMERIC "m3" IS 2 "m3" ENDFUNCTION
RULE "a": IF KNOWN(Dam.Inflow) THEN Dam.Outflow[t] := 5 "m3/step"; ENDIF ENDRULE
RULE "a": Dam.Outflow[t] := Inflow[t]; ENDRULE
RULE "a": Dam.Outflow(t) := 5 "m3/step"; ENDRULE
RULE "a": IF TRUE THEN Dam.Outflow[t] := 5 "m3/step"; ELSEIF FALSE THEN ENDIF ENDIF ENDRULE
""".strip().splitlines()


def main():
    """Tries them."""
    program = os.environ.get("BASIN") or str(TOP / "crates/basin/out/basin")
    model, first, later, without = read_model(MODEL.read_bytes()), 0, 0, []
    with tempfile.TemporaryDirectory() as folder:
        path = Path(folder) / "x.rpl"
        for slip in SLIPS:
            document = Document(path.as_uri(), slip.replace(" | ", "\n") + "\n")
            found = checking.findings_of(document, model)
            taken = None
            offered = fixes.fixes_of(document, model, found[0][1]) if found else []
            for number, (_, edits) in enumerate(offered):
                path.write_bytes(fixes.applied(document.source.text, edits).encode("latin-1"))
                done = subprocess.run([program, "check", MODEL, path], capture_output=True, check=False)
                taken = number if not done.returncode and taken is None else taken
            first, later = first + (taken == 0), later + bool(taken)
            if taken is None:
                without.append(slip)
                print("lsp: no fix:", slip, "|", found and found[0][1].hint, "|", [title for title, _ in offered])
    print(f"lsp: {len(SLIPS)} slips: the first fix mends {first}, a later one {later}, none {len(without)}")
    return first + later >= LEAST


if __name__ == "__main__":
    raise SystemExit(not main())
